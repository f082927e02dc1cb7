//! The proved functions of crates/gauge. A slice is a pointer, then a length. Any bytes will do: they have no `requires`.

/// Words of the tables of 20 threads and 20 blocks.
pub const WORDS: usize = 656;

/// What the reader answers: 0 and 0, or 15 to 19 and the offset of the field at fault.
#[repr(C)]
struct Verdict {
    refusal: u8,
    offset: usize,
}

#[link(name = "gauge", kind = "static")]
extern "C" {
    fn gauge_step(bytes: *const u8, length: usize) -> u64;
    fn gauge_big(bytes: *const u8, length: usize) -> u64;
    fn gauge_lent(bytes: *const u8, length: usize) -> u64;
    fn gauge_check(bytes: *const u8, length: usize) -> u64;
    fn gauge_dump(bytes: *const u8, length: usize) -> u64;
    fn gauge_load(bytes: *const u8, length: usize) -> u64;
    fn gauge_verdict(bytes: *const u8, length: usize, times: u64) -> Verdict;
    fn gauge_again(bytes: *const u8, length: usize, out: *mut u8, room: usize) -> usize;
    fn gauge_start(memory: *mut u32, words: usize);
    fn gauge_slice(memory: *mut u32, words: usize, bytes: *const u8, length: usize) -> u8;
    fn gauge_batch(memory: *mut u32, words: usize, events: *const u8, length: usize, out: *mut u32, room: usize) -> u8;
    fn gauge_value(bytes: *const u8, length: usize) -> u8;
}

/// stepping::step::step from a start: how many events are accepted.
pub fn step(events: &[u8]) -> u64 {
    unsafe { gauge_step(events.as_ptr(), events.len()) }
}

/// The same at limits of 64 threads and 128 blocks.
pub fn step_big(events: &[u8]) -> u64 {
    unsafe { gauge_big(events.as_ptr(), events.len()) }
}

/// lending::step::step_in from a start, which checks the memory at each event.
pub fn step_in(events: &[u8]) -> u64 {
    unsafe { gauge_lent(events.as_ptr(), events.len()) }
}

/// `step`, then checking::check::check 1,000 times: how often the memory passes.
pub fn check(events: &[u8]) -> u64 {
    unsafe { gauge_check(events.as_ptr(), events.len()) }
}

/// `step`, then dumping::writing::write_dump 1,000 times: how often something was written.
pub fn dump(events: &[u8]) -> u64 {
    unsafe { gauge_dump(events.as_ptr(), events.len()) }
}

/// loading::load::load_in 1,000 times: how often the bytes were a dump.
pub fn load(dump: &[u8]) -> u64 {
    unsafe { gauge_load(dump.as_ptr(), dump.len()) }
}

/// loading::load::load_in so many times, and once at least: refusal and offset of its last answer.
pub fn verdict(bytes: &[u8], times: u64) -> (u8, usize) {
    let verdict = unsafe { gauge_verdict(bytes.as_ptr(), bytes.len(), times) };
    (verdict.refusal, verdict.offset)
}

/// What the writer gives of what the reader reads: its length, or 0 if the bytes are no dump.
pub fn again(bytes: &[u8], out: &mut [u8]) -> usize {
    unsafe { gauge_again(bytes.as_ptr(), bytes.len(), out.as_mut_ptr(), out.len()) }
}

/// lending::start::start_in, if the memory is long enough.
pub fn start(memory: &mut [u32]) {
    unsafe { gauge_start(memory.as_mut_ptr(), memory.len()) }
}

/// One lending::step::step_in: its refusal.
pub fn step_in_slice(memory: &mut [u32], event: &[u8]) -> u8 {
    unsafe { gauge_slice(memory.as_mut_ptr(), memory.len(), event.as_ptr(), event.len()) }
}

/// One batching::batch::batch: its refusal.
pub fn batch(memory: &mut [u32], events: &[u8], out: &mut [u32]) -> u8 {
    unsafe { gauge_batch(memory.as_mut_ptr(), memory.len(), events.as_ptr(), events.len(), out.as_mut_ptr(), out.len()) }
}

/// One lending::step::step_value from a start: its refusal.
pub fn step_by_value(event: &[u8]) -> u8 {
    unsafe { gauge_value(event.as_ptr(), event.len()) }
}
