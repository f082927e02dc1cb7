//! census FIRST LAST EVENTS: what the generator's runs of these seeds reach, and how long they live.

use nucleus::census::{Census, STATES};
use nucleus::generator::{Form, Generator};
use std::process::ExitCode;

fn main() -> ExitCode {
    let arguments: Vec<u64> = std::env::args().skip(1).filter_map(|a| a.parse().ok()).collect();
    let [first, last, events] = arguments[..] else {
        eprintln!("usage: census FIRST LAST EVENTS");
        return ExitCode::FAILURE;
    };
    let mut census = Census::default();
    let mut lived = Vec::new();
    for seed in first..=last {
        lived.push(run(seed, events, &mut census));
    }
    print(&census, &mut lived);
    ExitCode::SUCCESS
}

/// One run; gives the number of events before the node stopped.
fn run(seed: u64, events: u64, census: &mut Census) -> u64 {
    let mut generator = Generator::new(seed, events, Form::Stream);
    let mut lived = 0;
    census.start_run();
    loop {
        let before = generator.node().clone();
        let Some((bytes, decision)) = generator.next_event() else { break };
        census.note(&before, &bytes, &decision, generator.node());
        if !before.status().is_stopped() {
            lived += 1;
        }
    }
    lived
}

fn print(census: &Census, lived: &mut [u64]) {
    lived.sort_unstable();
    let middle = lived.get(lived.len() / 2).copied().unwrap_or(0);
    let least = lived.first().copied().unwrap_or(0);
    println!(
        "{} runs, {} events; the shortest lived {least} events, the middle one {middle}",
        lived.len(),
        census.events
    );
    for (number, count) in census.refusals.iter().enumerate() {
        println!("{count:9} refusal {number}");
    }
    for what in STATES {
        println!("{:9} {what}", census.times(what));
    }
}
