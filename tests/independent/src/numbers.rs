//! The fixed numbers of the document.

/// A thread name, 0 to 253.
pub type Name = u8;

/// Threads that can live at once.
pub const THREADS: usize = 20;
/// Ordinary messages that can stand in inboxes at once.
pub const BLOCKS: usize = 20;
/// Thread names are 0 to `NAMES` - 1.
pub const NAMES: u8 = 254;
/// The first thread.
pub const FIRST: Name = 0;
/// The service interface, as a sender.
pub const SSI: u8 = 254;
/// A manager that has ended.
pub const GONE: u8 = 254;
/// Nobody, anybody or oneself.
pub const NOBODY: u8 = 255;
/// Ticks of a full slice.
pub const SLICE: u8 = 5;
/// Ticks from one beat to the next.
pub const BEAT: u8 = 20;
/// Devices are 0 to `DEVICES` - 1.
pub const DEVICES: u8 = 48;
/// Devices of lines 3 to 6: 0 to `LINE_DEVICES` - 1.
pub const LINE_DEVICES: u8 = 32;
/// Terminals of line 7, with two devices each.
pub const TERMINALS: u8 = 8;
/// Trap kinds are 0 to `KINDS` - 1.
pub const KINDS: u8 = 3;

/// The refusals, each with the document's number.
#[derive(Clone, Copy, Debug, PartialEq, Eq, PartialOrd, Ord)]
#[repr(u8)]
pub enum Refusal {
    /// An event comes when halted or panicked.
    Stopped = 1,
    /// Not exactly one well-formed field, or a value out of its range.
    Malformed = 2,
    /// A runner is needed and there is none.
    NoRunner = 3,
    /// The name is no live thread's.
    NotLive = 4,
    /// A block is needed and none is free.
    NoBlock = 5,
    /// No thread block is free.
    NoThreadBlock = 6,
    /// Brother of thread 0.
    BrotherOfFirst = 7,
    /// Another thread waits for that device.
    DeviceTaken = 8,
    /// A decision other than 0 or 1.
    BadDecision = 9,
    /// Own name as manager.
    OwnManager = 10,
    /// The lent tables do not meet the table rules.
    BadTables = 11,
    /// The dump buffer is shorter than the dump.
    ShortBuffer = 12,
    /// The buffer of a batch holds fewer than six numbers per complete field.
    ShortBatch = 14,
    /// Bytes cut short, a wrong length, or no field 1, 3 or 4.
    CutShort = 15,
    /// An unknown tag, tags out of order, or a second 1, 3 or 4.
    OutOfPlace = 16,
    /// A value outside its range.
    OutOfRange = 17,
    /// A name not live where one is asked for.
    NameNotLive = 18,
    /// Any other rule of a dump, rising order included.
    OtherRule = 19,
}

/// The refusals of bytes that are no dump, in the order in which they count (document 02, CR 4).
pub const OF_BYTES: [Refusal; 5] =
    [Refusal::CutShort, Refusal::OutOfPlace, Refusal::OutOfRange, Refusal::NameNotLive, Refusal::OtherRule];

impl Refusal {
    pub fn number(self) -> u8 {
        self as u8
    }
}
