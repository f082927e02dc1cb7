//! Fields in hex, in the groups that document 01 shows, and bytes without groups.

use crate::dump;
use crate::event;

/// One field: tag, length, then the value by its numbers, if the length is the tag's own.
pub fn field(bytes: &[u8]) -> String {
    let [tag, high, low, value @ ..] = bytes else {
        return digits(bytes);
    };
    let mut groups = vec![format!("{tag:02X}"), format!("{high:02X}{low:02X}")];
    let mut rest = value;
    for &size in groups_of(*tag, value.len()) {
        let (group, behind) = rest.split_at(size);
        groups.push(digits(group));
        rest = behind;
    }
    groups.extend(rest.iter().map(|byte| format!("{byte:02X}")));
    groups.join(" ")
}

/// The sizes of a value's numbers; none where single bytes do.
fn groups_of(tag: u8, length: usize) -> &'static [usize] {
    match (tag, length) {
        (event::SEND | event::TRAP, 5) => &[1, 4],
        (event::INTERRUPT, 12) => &[8, 4],
        (dump::HEAD, 9) => &[1, 1, 1, 1, 1, 4],
        (dump::THREAD, 17) => &[1, 1, 1, 1, 1, 1, 1, 4, 1, 1, 4],
        (dump::MESSAGE, 7) => &[1, 1, 1, 4],
        (dump::HELD, 5) => &[1, 4],
        _ => &[],
    }
}

fn digits(bytes: &[u8]) -> String {
    bytes.iter().map(|byte| format!("{byte:02X}")).collect()
}

/// Small digits and nothing between them.
pub fn plain(bytes: &[u8]) -> String {
    bytes.iter().map(|byte| format!("{byte:02x}")).collect()
}
