//! The fixed numbers of document 01, and the refusals of document 02. The crate big is the same code with other limits.

pub const THREADS: usize = if cfg!(feature = "big") { 64 } else { 20 };
/// Blocks for ordinary messages.
pub const BLOCKS: usize = if cfg!(feature = "big") { 128 } else { 20 };
/// The ordinary messages, and a notice of each thread.
pub const MESSAGES: usize = BLOCKS + THREADS;
pub const DEVICES: usize = 48;
/// Devices 0 to 31, what terminals transmit by and what they receive by, as bits of the pending word.
pub const LINES: u64 = 0x0000_0000_FFFF_FFFF;
pub const TRANSMITTERS: u64 = 0x0000_5555_0000_0000;
pub const RECEIVERS: u64 = 0x0000_AAAA_0000_0000;
pub const TRAP_KINDS: u8 = 3;
/// Names are 0 to 253.
pub const NAMES: u8 = 254;
/// The first thread.
pub const FIRST: u8 = 0;
/// The SSI as a sender.
pub const SERVICE: u8 = 254;
/// A manager entry whose thread has ended.
pub const GONE: u8 = 254;
/// Nobody, anybody or oneself.
pub const NOBODY: u8 = 255;
pub const SLICE: u8 = 5;
pub const BEAT: u8 = 20;

/// Kinds of a message, and of the answer that hands it over.
pub const ORDINARY: u8 = 1;
pub const NOTICE: u8 = 2;

/// The numbers of refusal.
pub mod refusal {
    pub const STOPPED: u8 = 1;
    pub const MALFORMED: u8 = 2;
    pub const NO_RUNNER: u8 = 3;
    pub const NOT_LIVE: u8 = 4;
    pub const NO_BLOCK: u8 = 5;
    pub const NO_THREAD_BLOCK: u8 = 6;
    pub const BROTHER_OF_FIRST: u8 = 7;
    pub const DEVICE_TAKEN: u8 = 8;
    pub const NO_DECISION: u8 = 9;
    pub const OWN_MANAGER: u8 = 10;
    pub const NO_TABLES: u8 = 11;
    pub const SHORT_BUFFER: u8 = 12;
    pub const NO_ROOM: u8 = 14;
    pub const CUT: u8 = 15;
    pub const ORDER: u8 = 16;
    pub const RANGE: u8 = 17;
    pub const NAME: u8 = 18;
    pub const RULE: u8 = 19;
}
