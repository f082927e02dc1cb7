//! The outcome of all cases. Of each program the smallest input that showed a difference is kept, made short, and printed at the end.

use super::check::{self, Difference, Program};
use super::report;
use super::shrink::Shrinker;
use super::subject::Subject;
use std::collections::BTreeMap;
use std::io;
use std::path::Path;
use std::time::{Duration, Instant};

/// A program that differs so often is not run any more.
const ENOUGH: u64 = 20;
/// A try to make an input shorter may take so long.
const TRY: Duration = Duration::from_secs(10);

#[derive(Default)]
pub struct Outcome {
    pub passed: u64,
    pub failed: u64,
    programs: BTreeMap<Program, Failures>,
}

#[derive(Default)]
struct Failures {
    count: u64,
    /// It said nothing, and would cost its whole patience again.
    is_silent: bool,
    smallest: Option<Found>,
}

/// An input that shows a difference.
struct Found {
    name: String,
    fields: Vec<Vec<u8>>,
}

/// What is compared: for people, and as the name of a file.
pub struct Case {
    pub program: Program,
    pub what: String,
    pub file: String,
}

impl Outcome {
    /// Is there still something to learn about this program?
    pub fn goes_on(&self, program: Program) -> bool {
        self.programs.get(&program).is_none_or(|failures| failures.count < ENOUGH && !failures.is_silent)
    }

    pub fn pass(&mut self) {
        self.passed += 1;
    }

    /// A case is passed or failed. The input is asked for only if it is the smallest so far.
    pub fn judge(
        &mut self,
        case: Case,
        compared: io::Result<Option<Difference>>,
        input: impl FnOnce(u64) -> Vec<Vec<u8>>,
    ) {
        let program = case.program.name();
        let failures = self.programs.entry(case.program).or_default();
        match compared {
            Ok(None) => return self.pass(),
            Ok(Some(Difference { fields, what, is_silent })) => {
                println!("FAILED  {program}, {}: {what}", case.what);
                failures.is_silent |= is_silent;
                if failures.smallest.as_ref().is_none_or(|found| fields < found.fields.len() as u64) {
                    failures.smallest = Some(Found { name: case.file, fields: input(fields) });
                }
            }
            Err(error) => println!("FAILED  {program} cannot be run: {error}"),
        }
        failures.count += 1;
        self.failed += 1;
        if !self.goes_on(case.program) {
            println!("        {program} is not run any more");
        }
    }

    /// A case that is no comparison.
    pub fn judge_reached<T: std::fmt::Debug>(&mut self, what: &str, rare: &[T]) {
        if rare.is_empty() {
            self.pass();
        } else {
            self.failed += 1;
            println!("FAILED  {what}: not {rare:?}");
        }
    }

    /// Print the shortest input found of each program.
    pub fn show(&self, subject: impl Fn(Program) -> Subject, limit: Duration, keep: &Path) {
        for (&program, failures) in &self.programs {
            if let Some(found) = &failures.smallest {
                show_one(program, subject(program), found, limit, keep);
            }
        }
    }
}

fn show_one(program: Program, mut subject: Subject, found: &Found, limit: Duration, keep: &Path) {
    subject.patience = subject.patience.min(TRY);
    let mut differs = |fields: &[Vec<u8>]| {
        let compared = check::whole(program, &subject, &fields.concat());
        compared.ok().flatten().map(|difference| difference.fields as usize)
    };
    let events = program != Program::Inspect;
    let mut shrinker = Shrinker::new(found.fields.clone(), events, &mut differs, Instant::now() + limit);
    let shortest = shrinker.shortest();
    let late = if shrinker.is_late() { ", when the time was over" } else { "" };
    println!(
        "\n{}: {} fields of {}, shortened in {} tries{late}",
        program.name(),
        found.fields.len(),
        found.name,
        shrinker.tries
    );
    let ending = if events { "events" } else { "dump" };
    let kept = keep.join(format!("{}-{}.{ending}", program.name(), found.name));
    if let Err(error) = report::print(program, &subject, &shortest, &kept) {
        println!("not to be printed: {error}");
    }
}
