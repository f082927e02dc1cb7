//! Nodes whose counts and beats stand shortly before 4,294,967,295, from which they go to 0.

use crate::dump;
use crate::node::Node;
use crate::numbers::BEAT;
use crate::random::Random;
use crate::tables::Tables;
use crate::valid;

/// A node with a runner. Its dump has at most so many bytes.
pub fn node(longest: usize, random: &mut Random) -> Node {
    loop {
        let mut tables = valid::tables(random);
        bring_near(&mut tables, random);
        if tables.has_runner() && dump::write(&tables).len() <= longest {
            return Node::from_tables(&tables)
                .expect("no rule ties counts, beats and ticks since the beat to anything");
        }
    }
}

/// The fourth beat at the latest is beat 0, and a count is 0 after twelve ticks at the latest. The next beat is often one or two
/// ticks away.
fn bring_near(tables: &mut Tables, random: &mut Random) {
    tables.beats = u32::MAX - random.below(4) as u32;
    if random.one_in(2) {
        tables.ticks_since_beat = BEAT - 1 - random.below(2) as u8;
    }
    for thread in &mut tables.threads {
        thread.count = u32::MAX - random.below(12) as u32;
    }
}
