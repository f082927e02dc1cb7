//! stack FILE..: the most bytes of stack that one step takes, over all events of the files: on a slice, by value, and as the board's C
//! code calls it if libboard.a is there. It is what lies below the caller's frame: the return address, and all that the step and what it
//! calls write.
//!
//! The stack below is painted before the call, and the lowest byte that has changed is sought after it.

#[cfg(board)]
#[allow(dead_code)]
mod board;
#[allow(dead_code)]
mod proved;
#[allow(dead_code)]
mod timing;

use proved::WORDS;
use std::hint::black_box;
use std::process::ExitCode;
use timing::fields;

/// As many bytes are painted.
const PAINTED: usize = 1 << 16;
/// So many next to the painter's own frame are left alone: less than this is not seen.
const SPARED: usize = 128;
const PAINT: u8 = 0xA5;

/// Bytes of stack that the call takes. Not inlined, so that its frame is the caller's.
#[inline(never)]
fn taken(call: &mut dyn FnMut() -> u8) -> usize {
    let frame = 0u8;
    let here = black_box(&frame) as *const u8 as usize;
    let bottom = here - PAINTED;
    // Nothing lives below this frame but what a call puts there; the thread has a stack of its own, far longer than this.
    for place in bottom..here - SPARED {
        unsafe { (place as *mut u8).write_volatile(PAINT) };
    }
    black_box(call());
    let changed = (bottom..here - SPARED).find(|&place| unsafe { (place as *const u8).read_volatile() } != PAINT);
    here - changed.unwrap_or(here - SPARED)
}

#[cfg(board)]
fn on_a_board(files: &[Vec<u8>]) -> Option<usize> {
    let most = files.iter().map(|file| {
        let mut tables = board::start();
        let one = |event: &[u8]| taken(&mut || board::step(&mut tables, event).refusal);
        fields(file).map(one).max().unwrap_or(0)
    });
    most.max()
}

#[cfg(not(board))]
fn on_a_board(_: &[Vec<u8>]) -> Option<usize> {
    None
}

fn on_slice(files: &[Vec<u8>]) -> Option<usize> {
    let most = files.iter().map(|file| {
        let mut memory = [0u32; WORDS];
        proved::start(&mut memory);
        let one = |event: &[u8]| taken(&mut || proved::step_in_slice(&mut memory, event));
        fields(file).map(one).max().unwrap_or(0)
    });
    most.max()
}

fn by_value(files: &[Vec<u8>]) -> Option<usize> {
    let events = files.iter().flat_map(|file| fields(file));
    events.map(|event| taken(&mut || proved::step_by_value(event))).max()
}

fn measure(files: Vec<Vec<u8>>) {
    println!("nothing            {:>6} bytes or less: what cannot be told apart", taken(&mut || 0));
    println!("step on a slice    {:>6} bytes", on_slice(&files).unwrap_or(0));
    println!("step by value      {:>6} bytes, with the start before it", by_value(&files).unwrap_or(0));
    match on_a_board(&files) {
        Some(bytes) => println!("nucleus_step       {bytes:>6} bytes"),
        None => println!("nucleus_step            - (no libboard.a)"),
    }
}

fn main() -> ExitCode {
    let files: Vec<Vec<u8>> = std::env::args().skip(1).map(|name| timing::read(&name)).collect();
    if files.is_empty() {
        eprintln!("usage: stack FILE..");
        return ExitCode::FAILURE;
    }
    let thread = std::thread::Builder::new().stack_size(1 << 22).spawn(|| measure(files));
    match thread.map(|running| running.join()) {
        Ok(Ok(())) => ExitCode::SUCCESS,
        _ => ExitCode::FAILURE,
    }
}
