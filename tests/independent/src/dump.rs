//! The dump's writer and reader.

use crate::event::{bytes::field, first_field, word};
use crate::fault::{self, Bad};
use crate::node::Node;
use crate::tables::{RawHeld, RawMessage, RawThread, Tables};

pub const HEAD: u8 = 1;
pub const THREAD: u8 = 2;
pub const READY: u8 = 3;
pub const CLOCK: u8 = 4;
pub const MESSAGE: u8 = 5;
pub const HELD: u8 = 6;

/// No dump is longer than this.
pub const SUFFICIENT: usize = 1241;

/// The length that the value of a field has, where it is fixed.
pub fn length_of(tag: u8) -> Option<usize> {
    match tag {
        HEAD => Some(9),
        THREAD => Some(17),
        MESSAGE => Some(7),
        HELD => Some(5),
        _ => None,
    }
}

impl Node {
    pub fn dump(&self) -> Vec<u8> {
        write(&self.tables())
    }
}

/// The node that a dump shows, or why and where the bytes are no dump.
pub fn load(bytes: &[u8]) -> Result<Node, Bad> {
    node_of(bytes).ok_or_else(|| {
        let faults = fault::faults(bytes);
        faults.first().expect("bytes that are no dump have a fault").bad()
    })
}

/// "Bytes are a dump exactly if these rules hold and the writer gives those bytes."
fn node_of(bytes: &[u8]) -> Option<Node> {
    let node = Node::from_tables(&read(bytes)?)?;
    (node.dump() == bytes).then_some(node)
}

/// The fields of plain tables, in their order there.
pub fn write(tables: &Tables) -> Vec<u8> {
    let mut dump = field(HEAD, &head_value(tables));
    for thread in &tables.threads {
        dump.extend(field(THREAD, &thread_value(thread)));
    }
    dump.extend(field(READY, &tables.ready));
    dump.extend(field(CLOCK, &tables.clock));
    for message in &tables.messages {
        dump.extend(field(MESSAGE, &message_value(message)));
    }
    for held in &tables.held {
        dump.extend(field(HELD, &held_value(held)));
    }
    dump
}

fn head_value(tables: &Tables) -> Vec<u8> {
    let mut value =
        vec![tables.status, tables.name_given_last, tables.runner, tables.slice, tables.ticks_since_beat];
    value.extend(tables.beats.to_be_bytes());
    value
}

fn thread_value(thread: &RawThread) -> Vec<u8> {
    let mut value = vec![thread.name, thread.parent, thread.state, thread.detail];
    value.extend(thread.managers);
    value.extend(thread.count.to_be_bytes());
    value.extend([thread.answer_kind, thread.answer_sender]);
    value.extend(thread.answer_word.to_be_bytes());
    value
}

fn message_value(message: &RawMessage) -> Vec<u8> {
    let mut value = vec![message.receiver, message.sender, message.kind];
    value.extend(message.word.to_be_bytes());
    value
}

fn held_value(held: &RawHeld) -> Vec<u8> {
    let mut value = vec![held.device];
    value.extend(held.word.to_be_bytes());
    value
}

/// The fields as plain tables. Only the order of tags and the lengths are
/// looked at here, not the table rules.
pub fn read(bytes: &[u8]) -> Option<Tables> {
    let mut fields = Fields { rest: bytes };
    let mut tables = read_head(fields.take(HEAD)?)?;
    while let Some(value) = fields.take(THREAD) {
        tables.threads.push(read_thread(value)?);
    }
    tables.ready = fields.take(READY)?.to_vec();
    tables.clock = fields.take(CLOCK)?.to_vec();
    while let Some(value) = fields.take(MESSAGE) {
        tables.messages.push(read_message(value)?);
    }
    while let Some(value) = fields.take(HELD) {
        tables.held.push(read_held(value)?);
    }
    fields.rest.is_empty().then_some(tables)
}

struct Fields<'a> {
    rest: &'a [u8],
}

impl<'a> Fields<'a> {
    /// The value of the next field, if it has this tag.
    fn take(&mut self, wanted: u8) -> Option<&'a [u8]> {
        let (tag, value, rest) = first_field(self.rest)?;
        if tag != wanted {
            return None;
        }
        self.rest = rest;
        Some(value)
    }
}

pub(crate) fn read_head(value: &[u8]) -> Option<Tables> {
    let value: &[u8; 9] = value.try_into().ok()?;
    Some(Tables {
        status: value[0],
        name_given_last: value[1],
        runner: value[2],
        slice: value[3],
        ticks_since_beat: value[4],
        beats: word(&value[5..9]),
        ..Tables::default()
    })
}

pub(crate) fn read_thread(value: &[u8]) -> Option<RawThread> {
    let value: &[u8; 17] = value.try_into().ok()?;
    Some(RawThread {
        name: value[0],
        parent: value[1],
        state: value[2],
        detail: value[3],
        managers: [value[4], value[5], value[6]],
        count: word(&value[7..11]),
        answer_kind: value[11],
        answer_sender: value[12],
        answer_word: word(&value[13..17]),
    })
}

pub(crate) fn read_message(value: &[u8]) -> Option<RawMessage> {
    let value: &[u8; 7] = value.try_into().ok()?;
    Some(RawMessage { receiver: value[0], sender: value[1], kind: value[2], word: word(&value[3..7]) })
}

pub(crate) fn read_held(value: &[u8]) -> Option<RawHeld> {
    let value: &[u8; 5] = value.try_into().ok()?;
    Some(RawHeld { device: value[0], word: word(&value[1..5]) })
}

/// What is to be said of any bytes: refusal and offset, then, if they are a
/// dump, a line per field.
pub fn inspect(bytes: &[u8]) -> String {
    match load(bytes) {
        Ok(node) => accepted(&node.tables()),
        Err(bad) => refused(bad),
    }
}

pub(crate) fn accepted(tables: &Tables) -> String {
    format!("0 0\n{}\n", in_decimal(tables).join("\n"))
}

pub(crate) fn refused(bad: Bad) -> String {
    let (refusal, offset) = bad.numbers();
    format!("{refusal} {offset}\n")
}

/// Field by field in decimal: the tag, then the values.
pub fn in_decimal(tables: &Tables) -> Vec<String> {
    let mut lines = vec![line(
        HEAD,
        &[
            tables.status.into(),
            tables.name_given_last.into(),
            tables.runner.into(),
            tables.slice.into(),
            tables.ticks_since_beat.into(),
            tables.beats,
        ],
    )];
    for thread in &tables.threads {
        let [program, tlb, sys] = thread.managers.map(u32::from);
        let values = [
            thread.name.into(),
            thread.parent.into(),
            thread.state.into(),
            thread.detail.into(),
            program,
            tlb,
            sys,
            thread.count,
            thread.answer_kind.into(),
            thread.answer_sender.into(),
            thread.answer_word,
        ];
        lines.push(line(THREAD, &values));
    }
    lines.push(line(READY, &names(&tables.ready)));
    lines.push(line(CLOCK, &names(&tables.clock)));
    for message in &tables.messages {
        let RawMessage { receiver, sender, kind, word } = *message;
        lines.push(line(MESSAGE, &[receiver.into(), sender.into(), kind.into(), word]));
    }
    for held in &tables.held {
        lines.push(line(HELD, &[held.device.into(), held.word]));
    }
    lines
}

fn names(row: &[u8]) -> Vec<u32> {
    row.iter().map(|&name| name.into()).collect()
}

fn line(tag: u8, values: &[u32]) -> String {
    let mut line = tag.to_string();
    for value in values {
        line.push(' ');
        line.push_str(&value.to_string());
    }
    line
}
