//! What the programs of the bench share: the fields of a file, and times. A time is never a test; only what is counted must agree.

use std::hint::black_box;
use std::time::Instant;

/// Something timed, over bytes or what is made of them before. It gives what it counted.
pub type Run<T = [u8]> = fn(&T) -> u64;

/// The fields of a stream; one that is cut off is the last.
pub fn fields(mut rest: &[u8]) -> impl Iterator<Item = &[u8]> {
    std::iter::from_fn(move || {
        let length = match rest {
            [] => return None,
            [_, high, low, ..] => 3 + usize::from(u16::from_be_bytes([*high, *low])),
            _ => rest.len(),
        };
        let (field, behind) = rest.split_at(length.min(rest.len()));
        rest = behind;
        Some(field)
    })
}

/// Nanoseconds that this thread has waited for a processor so far, where the system tells. On a busy machine it is most of a run's time.
fn waited() -> u64 {
    let told = std::fs::read_to_string("/proc/thread-self/schedstat").unwrap_or_default();
    told.split_whitespace().nth(1).and_then(|number| number.parse().ok()).unwrap_or(0)
}

/// Seconds on a processor, and what was counted. The clock is read outermost, so that no wait is taken off that is not in the time.
pub fn timed<T: ?Sized>(run: Run<T>, bytes: &T) -> (f64, u64) {
    let start = Instant::now();
    let before = waited();
    let count = black_box(run(black_box(bytes)));
    let lost = waited() - before;
    (start.elapsed().as_secs_f64() - lost as f64 / 1e9, count)
}

/// To find what the timing itself takes, and where there is nothing to be taken off.
pub fn nothing<T: ?Sized>(_: &T) -> u64 {
    0
}

/// The best of the rounds for each run, over the same bytes. Round by round, so that other work on the machine meets each of them.
pub fn best<T: ?Sized, const N: usize>(rounds: usize, runs: [Run<T>; N], bytes: &T) -> [f64; N] {
    let mut fastest = [f64::INFINITY; N];
    let mut timing = f64::INFINITY;
    for _ in 0..rounds {
        timing = timing.min(timed(nothing, bytes).0);
        for (run, fastest) in runs.iter().zip(&mut fastest) {
            *fastest = fastest.min(timed(*run, bytes).0);
        }
    }
    fastest.map(|time| time - timing)
}

/// ROUNDS FILE.. from the command line, with the files' names and bytes.
pub fn files(arguments: &[String]) -> Option<(usize, Vec<(String, Vec<u8>)>)> {
    let [rounds, files @ ..] = arguments else { return None };
    let rounds = rounds.parse().ok().filter(|&rounds| rounds > 0 && !files.is_empty())?;
    Some((rounds, files.iter().map(|name| (name.clone(), read(name))).collect()))
}

pub fn read(name: &str) -> Vec<u8> {
    std::fs::read(name).unwrap_or_else(|error| panic!("{name}: {error}"))
}
