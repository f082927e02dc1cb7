//! Whether lent words stand for tables that meet the table rules. The numbers that they say are written as the bytes of a dump, in the
//! order in which they stand, and the independent program says whether those bytes are a dump. So the order of rows and numbers that no
//! writer gives are judged by "Bytes are a dump exactly if these rules hold and the writer gives those bytes".

use crate::layout::Said;
use nucleus::{dump, load, Node, Rule};
use std::fmt;

/// Why words stand for no tables.
#[derive(Clone, Copy, Debug, PartialEq, Eq, PartialOrd, Ord)]
pub enum Ground {
    /// The limits are not 20 and 20.
    Limits,
    /// A count is over its limit.
    Count,
    /// A word is none that is written.
    Word,
    /// The rules are met, but the writer would give other bytes.
    Order,
    /// One table rule alone is broken.
    Alone(Rule),
    /// More than one is.
    Several,
}

impl fmt::Display for Ground {
    fn fmt(&self, out: &mut fmt::Formatter) -> fmt::Result {
        match self {
            Ground::Limits => write!(out, "other limits"),
            Ground::Count => write!(out, "a count over its limit"),
            Ground::Word => write!(out, "a word that is not written"),
            Ground::Order => write!(out, "another order than the dump's"),
            Ground::Alone(rule) => write!(out, "{rule:?} alone"),
            Ground::Several => write!(out, "several table rules"),
        }
    }
}

/// The node that the words stand for.
pub fn judge(said: &Said) -> Result<Node, Ground> {
    let bytes = written(said)?;
    load(&bytes).map_err(|_| ground(&bytes))
}

fn ground(bytes: &[u8]) -> Ground {
    let broken = dump::read(bytes).map(|tables| tables.broken_rules()).unwrap_or_default();
    match broken[..] {
        [] => Ground::Order,
        [rule] => Ground::Alone(rule),
        _ => Ground::Several,
    }
}

/// The numbers as the fields of a dump, in the order in which they stand.
pub fn written(said: &Said) -> Result<Vec<u8>, Ground> {
    said.numbers.as_ref().map(dump::write).map_err(|&ground| ground)
}
