//! One comparison.

use super::source::Source;
use super::subject::{BadEnd, Said, Subject};
use crate::census::Census;
use crate::dump;
use crate::program::{self, fields_of, Run};
use std::io;

/// The three programs.
#[derive(Clone, Copy, Debug, PartialEq, Eq, PartialOrd, Ord)]
pub enum Program {
    Node,
    Snapshot,
    Inspect,
}

impl Program {
    pub fn name(self) -> &'static str {
        match self {
            Program::Node => "node",
            Program::Snapshot => "snapshot",
            Program::Inspect => "inspect",
        }
    }

    /// What it has to write on this input.
    pub fn wanted(self, input: &[u8]) -> io::Result<Vec<u8>> {
        match self {
            Program::Node => {
                let mut output = Vec::new();
                program::run(input, &mut output)?;
                Ok(output)
            }
            Program::Snapshot => Ok(program::run_silently(input)?.dump()),
            Program::Inspect => Ok(dump::inspect(input).into_bytes()),
        }
    }
}

#[derive(Clone, Debug, PartialEq, Eq)]
pub struct Difference {
    /// So many fields of the input show it.
    pub fields: u64,
    pub what: String,
    /// The program said nothing for too long.
    pub is_silent: bool,
}

/// The whole output on an input that is not long.
pub fn whole(program: Program, subject: &Subject, input: &[u8]) -> io::Result<Option<Difference>> {
    let wanted = program.wanted(input)?;
    let (said, end) = subject.answer(input)?;
    let all = fields_of(input).len() as u64;
    if wanted == said {
        return Ok(end.err().map(|end| Difference { fields: all, what: end.what, is_silent: end.is_silent }));
    }
    let same = wanted.iter().zip(&said).take_while(|(one, other)| one == other).count();
    let line = 1 + wanted[..same].iter().filter(|&&byte| byte == b'\n').count();
    let mut what = match program {
        Program::Snapshot => format!("the dumps differ from byte {same} on"),
        _ => format!("line {line}: {}", beside(line_at(&wanted, line), line_at(&said, line))),
    };
    let is_silent = end.as_ref().is_err_and(|end| end.is_silent);
    if let Err(end) = end {
        what = format!("{what}; {}", end.what);
    }
    let fields = if program == Program::Node { all.min(line as u64) } else { all };
    Ok(Some(Difference { fields, what, is_silent }))
}

/// The event program on a file of any length, line by line. What the events reach is added to the census.
pub fn lines(subject: &Subject, source: Source, census: &mut Census) -> io::Result<Option<Difference>> {
    let mut running = subject.start(source.pieces())?;
    let mut run = Run::new(source.reader());
    census.start_run();
    loop {
        let before = run.node().clone();
        let decision = run.next_decision()?;
        let wanted = match &decision {
            Some(decision) => program::line(run.number(), decision),
            None => program::last_line(run.node().status()).to_string(),
        };
        let number = run.number() + u64::from(decision.is_none());
        let said = running.next_line();
        if said != Said::Line(format!("{wanted}\n").into_bytes()) {
            let is_silent = said == Said::Silence;
            let what = format!("line {number}: {}", beside(Some(wanted), Some(in_words(said))));
            return Ok(Some(Difference { fields: run.number(), what, is_silent }));
        }
        match decision {
            Some(decision) => census.note(&before, run.field(), &decision, run.node()),
            None => break,
        }
    }
    let end = match running.next_line() {
        Said::End => running.ended_well(),
        Said::Silence => Err(running.silence()),
        said => Err(BadEnd { what: format!("behind the last line: '{}'", in_words(said)), is_silent: false }),
    };
    Ok(end.err().map(|end| Difference { fields: run.number(), what: end.what, is_silent: end.is_silent }))
}

fn in_words(said: Said) -> String {
    match said {
        Said::Line(line) if line.ends_with(b"\n") => {
            String::from_utf8_lossy(&line[..line.len() - 1]).into_owned()
        }
        Said::Line(line) => format!("{} (without a newline)", String::from_utf8_lossy(&line)),
        Said::End => "(the output ends)".to_string(),
        Said::Silence => "(nothing for too long)".to_string(),
    }
}

fn line_at(bytes: &[u8], number: usize) -> Option<String> {
    let line = bytes.split_inclusive(|&byte| byte == b'\n').nth(number - 1)?;
    Some(in_words(Said::Line(line.to_vec())))
}

fn beside(wanted: Option<String>, said: Option<String>) -> String {
    let or_nothing = |line: Option<String>| line.unwrap_or_else(|| "(nothing)".to_string());
    format!("wanted '{}', said '{}'", or_nothing(wanted), or_nothing(said))
}
