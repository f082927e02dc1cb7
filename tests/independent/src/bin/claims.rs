//! claims SEED RUNS EVENTS: writes RUNS runs of EVENTS events each as text.
//! A run is a line `run`, a line `HEX : refusal status runner kind sender
//! word` per event, and a line `dump HEX` with the dump at its end. Then
//! a line `batch ROOM HEX : refusal : numbers : place of the unread end :
//! dump HEX`: some of its first bytes in one batch, from a start.

use nucleus::batch::{self, NUMBERS};
use nucleus::generator::{Form, Generator};
use nucleus::hex::plain as hex;
use nucleus::Node;
use std::io::{self, BufWriter, Write};
use std::process::ExitCode;

fn main() -> ExitCode {
    let arguments: Vec<u64> = std::env::args().skip(1).filter_map(|a| a.parse().ok()).collect();
    let [seed, runs, events] = arguments[..] else {
        eprintln!("usage: claims SEED RUNS EVENTS");
        return ExitCode::FAILURE;
    };
    match write_runs(seed, runs, events) {
        Ok(()) => ExitCode::SUCCESS,
        Err(error) => {
            eprintln!("claims: {error}");
            ExitCode::FAILURE
        }
    }
}

fn write_runs(seed: u64, runs: u64, events: u64) -> io::Result<()> {
    let mut output = BufWriter::new(io::stdout().lock());
    for run in 0..runs {
        writeln!(output, "run")?;
        let mut generator = Generator::new(seed.wrapping_add(run), events, Form::Single);
        let mut gathered = Vec::new();
        for index in 0.. {
            let Some((event, decision)) = generator.next_event() else { break };
            writeln!(output, "{} : {decision}", hex(&event))?;
            if index < IN_A_BATCH {
                gathered.extend(event);
            }
        }
        writeln!(output, "dump {}", hex(&generator.node().dump()))?;
        write_batch(&mut output, run, &gathered)?;
    }
    output.flush()
}

/// A claim takes the time of its events.
const IN_A_BATCH: usize = 40;

/// The ends of the batches differ from run to run: some bytes are left out, so that fields are cut, and the room is too little in every
/// third.
fn write_batch(output: &mut impl Write, run: u64, gathered: &[u8]) -> io::Result<()> {
    let bytes = &gathered[..gathered.len().saturating_sub((run % 7) as usize)];
    let enough = NUMBERS * batch::complete_fields(bytes).len();
    let room = match run % 3 {
        0 => enough,
        1 => enough + 4,
        _ => enough.saturating_sub(1),
    };
    let mut node = Node::start();
    let done = batch::run(Some(&mut node), bytes, room);
    let numbers: Vec<String> = done.numbers.iter().map(u32::to_string).collect();
    let (refusal, read) = (done.refusal, done.read);
    writeln!(output, "batch {room} {} : {refusal} : {} : {read} : {}", hex(bytes), numbers.join(" "), hex(&node.dump()))
}
