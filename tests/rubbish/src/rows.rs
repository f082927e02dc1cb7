//! Rows of the lent room, spoilt: entries swapped, copied, put in or lost.

use crate::layout::{self, Words};
use nucleus::random::Random;

/// So many words from each place on are an entry.
struct Row {
    places: Vec<usize>,
    width: usize,
    /// Where the count stands; held words have none.
    count: Option<usize>,
}

fn any_row(random: &mut Random) -> Row {
    let threads = |place: fn(usize) -> usize| (0..20).map(place).collect();
    let (places, width, count) = match random.below(5) {
        0 => (threads(layout::thread_place), 11, Some(layout::COUNT)),
        1 => (threads(layout::ready_place), 1, Some(layout::READIES)),
        2 => (threads(layout::clock_place), 1, Some(layout::CLOCKS)),
        3 => ((0..40).map(|i| layout::message_place(20, i)).collect(), 4, Some(layout::LETTERS)),
        _ => ((0..48).map(layout::held_place).collect(), 2, None),
    };
    Row { places, width, count }
}

/// In an empty row, what stands behind the count is counted.
pub fn spoil(words: &mut Words, random: &mut Random) {
    let row = any_row(random);
    let counted = row.count.map_or(row.places.len(), |place| words[place] as usize);
    let mut entries: Vec<Vec<u32>> = row.places.iter().map(|&at| words[at..at + row.width].to_vec()).collect();
    let counted = if counted == 0 { 1 } else { spoil_entries(&mut entries, counted, random) };
    for (&at, entry) in row.places.iter().zip(entries) {
        words[at..at + row.width].copy_from_slice(&entry);
    }
    if let Some(place) = row.count {
        words[place] = counted as u32;
    }
}

/// How many there are then.
fn spoil_entries(entries: &mut [Vec<u32>], counted: usize, random: &mut Random) -> usize {
    let (one, other) = (random.below(counted as u64) as usize, random.below(counted as u64) as usize);
    match random.below(5) {
        0 => entries.swap(one, other),
        1 => entries.swap(one, (one + 1) % counted),
        2 => entries[one] = entries[other].clone(),
        3 => {
            // Twice, one behind the other.
            entries[one..].rotate_right(1);
            entries[one] = entries.get(one + 1).unwrap_or(&entries[one]).clone();
            return counted + 1;
        }
        _ => {
            entries[one..counted].rotate_left(1);
            return counted - 1;
        }
    }
    counted
}
