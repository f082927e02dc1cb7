//! The comparison of the programs in a folder with this one. tests/compare calls it; the options are there.

use nucleus::compare::outcome::Outcome;
use nucleus::compare::plan::Comparison;
use nucleus::compare::subject::Subject;
use std::ffi::OsString;
use std::ops::Range;
use std::path::PathBuf;
use std::process::ExitCode;
use std::time::Duration;

struct Options {
    /// The folder with node, snapshot and inspect.
    programs: PathBuf,
    /// The words that stand before a program to run it here.
    before: Vec<OsString>,
    /// Where inputs that show a difference are kept.
    keep: PathBuf,
    /// The long run is over these seeds; the fixed run has none.
    seeds: Option<Range<u64>>,
    events: u64,
    shrinking: u64,
    patience: u64,
}

fn main() -> ExitCode {
    let options = match options(std::env::args_os().skip(1)) {
        Ok(options) => options,
        Err(wrong) => {
            eprintln!("compare: {wrong}");
            return ExitCode::FAILURE;
        }
    };
    let subject = |name: &str| Subject {
        words: options.before.iter().cloned().chain([options.programs.join(name).into()]).collect(),
        patience: Duration::from_secs(options.patience),
    };
    for name in ["node", "snapshot", "inspect"] {
        if !options.programs.join(name).is_file() {
            eprintln!("compare: there is no {}", options.programs.join(name).display());
            return ExitCode::FAILURE;
        }
    }
    let mut comparison =
        Comparison::new(subject("node"), subject("snapshot"), subject("inspect"), options.keep.clone());
    comparison.shrinking = Duration::from_secs(options.shrinking);
    match options.seeds {
        Some(seeds) => comparison.long(seeds, options.events),
        None => comparison.fixed(),
    }
    let Outcome { passed, failed, .. } = comparison.outcome;
    println!("{passed} passed, {failed} failed");
    if failed == 0 && passed > 0 {
        ExitCode::SUCCESS
    } else {
        ExitCode::FAILURE
    }
}

/// Later options win over earlier ones.
fn options(mut words: impl Iterator<Item = OsString>) -> Result<Options, String> {
    let mut options = Options {
        programs: PathBuf::from("target/bin"),
        before: Vec::new(),
        keep: PathBuf::from("target/compare"),
        seeds: None,
        events: 100_000,
        shrinking: 120,
        patience: 120,
    };
    while let Some(option) = words.next() {
        let option = option.to_string_lossy().into_owned();
        let value = words.next().ok_or_else(|| format!("{option} needs a value"))?;
        let text = value.to_string_lossy().into_owned();
        match option.as_str() {
            "--programs" => options.programs = value.into(),
            "--before" => options.before = text.lines().map(OsString::from).collect(),
            "--keep" => options.keep = value.into(),
            "--seeds" => options.seeds = Some(seeds(&text)?),
            "--events" => options.events = number(&text)?,
            "--shrink" => options.shrinking = number(&text)?,
            "--patience" => options.patience = number(&text)?,
            _ => return Err(format!("no such option: {option}")),
        }
    }
    Ok(options)
}

fn number(text: &str) -> Result<u64, String> {
    text.parse().map_err(|_| format!("not a number: {text}"))
}

/// A..B is from A up to B, B too; A.. goes on without end.
fn seeds(text: &str) -> Result<Range<u64>, String> {
    match text.split_once("..") {
        Some((first, "")) => Ok(number(first)?..u64::MAX),
        Some((first, last)) => Ok(number(first)?..number(last)?.saturating_add(1)),
        None => Err(format!("seeds are FIRST..LAST or FIRST.., not {text}")),
    }
}
