//! The best of the rounds at two places of the stack.

use crate::timing::{best, Run};
use std::hint::black_box;

/// The best of the rounds, below a frame that takes so many times 16 bytes of the stack.
#[inline(never)]
fn best_below<const TIMES: usize, T: ?Sized, const N: usize>(rounds: usize, runs: [Run<T>; N], bytes: &T) -> [f64; N] {
    let taken = [0u128; TIMES];
    black_box(&taken);
    best(rounds, runs, bytes)
}

/// Half of the rounds are run 16 bytes further down the stack. Where the rows stand there is chance, and where events repeat in pairs it
/// moves a time by up to a tenth. So each is timed at both places.
pub fn best_of_both<T: ?Sized, const N: usize>(rounds: usize, runs: [Run<T>; N], bytes: &T) -> [f64; N] {
    let half = rounds.div_ceil(2);
    let mut fastest = best_below::<1, T, N>(half, runs, bytes);
    let lower = best_below::<2, T, N>(half, runs, bytes);
    fastest.iter_mut().zip(lower).for_each(|(time, other)| *time = time.min(other));
    fastest
}
