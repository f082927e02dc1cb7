//! The event program.

use crate::node::{Decision, Node, Status};
use std::io::{self, Read, Write};

/// Cuts a stream of bytes into fields.
pub struct FieldReader<R> {
    input: R,
}

impl<R: Read> FieldReader<R> {
    pub fn new(input: R) -> FieldReader<R> {
        FieldReader { input }
    }

    /// The next field with tag and length, or what is left of it when the
    /// input ends; false when nothing is left.
    pub fn next_field(&mut self, field: &mut Vec<u8>) -> io::Result<bool> {
        field.clear();
        self.append(field, 3)?;
        if let [_, high, low] = field[..] {
            self.append(field, u16::from_be_bytes([high, low]).into())?;
        }
        Ok(!field.is_empty())
    }

    fn append(&mut self, field: &mut Vec<u8>, count: u64) -> io::Result<()> {
        self.input.by_ref().take(count).read_to_end(field)?;
        Ok(())
    }
}

/// The fields of the bytes, the last perhaps cut off.
pub fn fields_of(bytes: &[u8]) -> Vec<Vec<u8>> {
    let mut reader = FieldReader::new(bytes);
    let mut fields = Vec::new();
    let mut field = Vec::new();
    while matches!(reader.next_field(&mut field), Ok(true)) {
        fields.push(field.clone());
    }
    fields
}

/// A run of events from a start, one field after the other.
pub struct Run<R> {
    fields: FieldReader<R>,
    field: Vec<u8>,
    number: u64,
    node: Node,
}

impl<R: Read> Run<R> {
    pub fn new(input: R) -> Run<R> {
        Run { fields: FieldReader::new(input), field: Vec::new(), number: 0, node: Node::start() }
    }

    /// Serve the next field; `None` when the input has ended.
    pub fn next_decision(&mut self) -> io::Result<Option<Decision>> {
        if !self.fields.next_field(&mut self.field)? {
            return Ok(None);
        }
        self.number += 1;
        Ok(Some(self.node.step(&self.field)))
    }

    /// The field served last.
    pub fn field(&self) -> &[u8] {
        &self.field
    }

    /// How many fields were served.
    pub fn number(&self) -> u64 {
        self.number
    }

    pub fn node(&self) -> &Node {
        &self.node
    }
}

/// Run all events from a start, without output.
pub fn run_silently(input: impl Read) -> io::Result<Node> {
    let mut run = Run::new(input);
    while run.next_decision()?.is_some() {}
    Ok(run.node)
}

/// Run all events from a start, one line per field and a last line.
pub fn run(input: impl Read, mut output: impl Write) -> io::Result<Node> {
    let mut run = Run::new(input);
    while let Some(decision) = run.next_decision()? {
        writeln!(output, "{}", line(run.number, &decision))?;
    }
    writeln!(output, "{}", last_line(run.node.status()))?;
    output.flush()?;
    Ok(run.node)
}

pub fn line(number: u64, decision: &Decision) -> String {
    format!("{number} {decision}")
}

pub fn last_line(status: Status) -> &'static str {
    match status {
        Status::Halted => "SYSTEM HALTED",
        Status::Panicked => "KERNEL PANIC",
        Status::Running | Status::Idle => "SYSTEM UP",
    }
}
