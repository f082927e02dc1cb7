//! The three programs with one slip each, to show that the comparison finds it.
//!
//! A slip of the event program changes the tables or the decision after a step that is right, or the lines. A slip of inspect changes which
//! fault counts, or the number or the place that it has. It is given by name.

use crate::batch::complete_fields;
use crate::dump;
use crate::event::{self, bytes, Event, Request};
use crate::fault::{self, Cause, Fault};
use crate::node::{Decision, Node};
use crate::numbers::{Refusal, GONE, NAMES, NOBODY, SLICE};
use crate::program::{self, FieldReader};
use crate::tables::{state, Tables};
use std::io::{self, Read, Write};

/// Changes what comes of a step: the node before it, the field, the tables after it, the decision.
pub type Slip = fn(&Node, &[u8], &mut Tables, &mut Decision);

pub const IN_STEP: [(&str, Slip); 18] = [
    ("idles with somebody trapped", idles_with_somebody_trapped),
    ("counts notices among the 20", counts_notices),
    ("renews the slice after a receive", renews_the_slice),
    ("wakes clock waiters behind the runner", wakes_behind_the_runner),
    ("tells sender gone in falling order", tells_in_falling_order),
    ("forgets that a manager is gone", forgets_gone),
    ("keeps the first held word", keeps_the_first_word),
    ("does not count idle ticks", does_not_count_idle_ticks),
    ("refuses 6 before 7", refuses_6_before_7),
    ("refuses 5 before 9", refuses_5_before_9),
    ("counts ticks in a byte", counts_in_a_byte),
    ("goes round after name 254", goes_round_late),
    ("stops behind name 253", stops_behind_253),
    ("gives the lowest free name", gives_the_lowest),
    ("picks the highest device", picks_the_highest),
    ("picks the lowest number", picks_the_lowest_number),
    ("picks receivers before transmitters", picks_receivers_first),
    ("answers sender gone with a word", sender_gone_with_a_word),
];

/// Changes of the lines alone.
pub const IN_LINES: [&str; 9] = [
    "no last line",
    "no newline at the end",
    "a line more",
    "ends with status 3",
    "ends after 30 lines",
    "hangs after 30 lines",
    "two spaces",
    "counts lines from 0",
    "does not answer a field cut off",
];

pub const IN_SNAPSHOT: [&str; 4] =
    ["a byte behind", "no held words", "counts in a byte", "inboxes newest first"];

/// Beside these, the name of a cause makes it forget that cause.
pub const IN_INSPECT: [&str; 21] = [
    "asks for no rule",
    "asks for no order",
    "prints words below 0",
    "no first line",
    "one number for all",
    "counts tags before lengths",
    "counts names before ranges",
    "counts the earliest field of all",
    "counts the last field of a number",
    "gives the place of the value",
    "gives the place of a cut field",
    "gives 0 for a missing field",
    "gives the field that came too early",
    "measures a field that is cut",
    "wants the name given last to be live",
    "wants senders of answers to be live",
    "takes no manager of a trapped thread for another rule",
    "takes dead names in queues for another rule",
    "takes the slice for another rule",
    "takes answers of threads not ready for a range",
    "takes the offset in 8 bits",
];

// ---- slips in a step ----

fn idles_with_somebody_trapped(_: &Node, _: &[u8], tables: &mut Tables, decision: &mut Decision) {
    let trapped = tables.threads.iter().any(|thread| thread.state == state::TRAPPED);
    if decision.status == 3 && trapped {
        decision.status = 1;
    }
}

fn counts_notices(before: &Node, field: &[u8], tables: &mut Tables, decision: &mut Decision) {
    let queued = matches!(event::read(field), Some(Event::Send { .. }))
        && tables.messages.len() > before.tables().messages.len();
    if queued && tables.messages.len() > 20 {
        *tables = before.tables();
        (decision.refusal, decision.kind, decision.sender, decision.word) = (5, 0, NOBODY, 0);
    }
}

fn renews_the_slice(before: &Node, field: &[u8], tables: &mut Tables, decision: &mut Decision) {
    let received = matches!(event::read(field), Some(Event::Receive(_))) && decision.refusal == 0;
    if received && before.runner() == Some(tables.runner) {
        tables.slice = SLICE;
    }
}

fn wakes_behind_the_runner(before: &Node, field: &[u8], tables: &mut Tables, _: &mut Decision) {
    let slice_ends = before.slice() == 1 && event::read(field) == Some(Event::Tick);
    let wakes = tables.ticks_since_beat == 0 && !before.clock().is_empty();
    if slice_ends && wakes && !before.ready().is_empty() {
        let place = tables.ready.len() - 1 - before.clock().len();
        tables.ready[place..].rotate_right(1);
    }
}

fn tells_in_falling_order(before: &Node, _: &[u8], tables: &mut Tables, _: &mut Decision) {
    let told = |name: &u8| {
        let waited = before
            .thread(*name)
            .is_some_and(|thread| matches!(thread.state, crate::thread::State::Receiving(_)));
        waited && tables.threads.iter().any(|thread| thread.name == *name && thread.answer_kind == 3)
    };
    let places: Vec<usize> = (0..tables.ready.len()).filter(|&place| told(&tables.ready[place])).collect();
    if let (Some(&first), Some(&last)) = (places.first(), places.last()) {
        tables.ready[first..=last].reverse();
    }
}

fn forgets_gone(_: &Node, _: &[u8], tables: &mut Tables, _: &mut Decision) {
    for entry in tables.threads.iter_mut().flat_map(|thread| &mut thread.managers) {
        if *entry == GONE {
            *entry = NOBODY;
        }
    }
}

fn keeps_the_first_word(before: &Node, field: &[u8], tables: &mut Tables, _: &mut Decision) {
    let Some(Event::Interrupt { device, .. }) = event::read(field) else { return };
    for held in tables.held.iter_mut().filter(|held| held.device == device) {
        held.word = before.held().get(&device).copied().unwrap_or(held.word);
    }
}

fn does_not_count_idle_ticks(before: &Node, field: &[u8], tables: &mut Tables, decision: &mut Decision) {
    let idle = before.runner().is_none() && before.ticks_since_beat() < 19;
    if idle && event::read(field) == Some(Event::Tick) && decision.refusal == 0 {
        tables.ticks_since_beat = before.ticks_since_beat();
    }
}

fn refuses_6_before_7(before: &Node, _: &[u8], _: &mut Tables, decision: &mut Decision) {
    if decision.refusal == 7 && before.threads().len() == 20 {
        decision.refusal = 6;
    }
}

fn refuses_5_before_9(before: &Node, _: &[u8], _: &mut Tables, decision: &mut Decision) {
    if decision.refusal == 9 && before.blocks().free() == 0 {
        decision.refusal = 5;
    }
}

fn counts_in_a_byte(_: &Node, field: &[u8], _: &mut Tables, decision: &mut Decision) {
    if event::read(field) == Some(Event::Request(Request::GetCpuTime)) {
        decision.word &= 0xFF;
    }
}

fn goes_round_late(before: &Node, field: &[u8], _: &mut Tables, decision: &mut Decision) {
    if makes(field, decision) && decision.word < before.name_given_last().into() {
        decision.word = 254;
    }
}

/// The names in use from 0 on are not passed over.
fn stops_behind_253(before: &Node, field: &[u8], _: &mut Tables, decision: &mut Decision) {
    if makes(field, decision) && decision.word < before.name_given_last().into() {
        decision.word = 0;
    }
}

/// It may be below the name given last.
fn gives_the_lowest(before: &Node, field: &[u8], _: &mut Tables, decision: &mut Decision) {
    if makes(field, decision) {
        decision.word = (0..NAMES).find(|&name| !before.is_live(name)).unwrap_or(NOBODY).into();
    }
}

/// Is a thread made, so that the word is its name?
fn makes(field: &[u8], decision: &Decision) -> bool {
    let made =
        matches!(event::read(field), Some(Event::Request(Request::CreateSon | Request::CreateBrother)));
    made && decision.refusal == 0
}

fn picks_the_highest(before: &Node, field: &[u8], tables: &mut Tables, decision: &mut Decision) {
    picks(before, field, tables, decision, |pending| 63 - pending.leading_zeros());
}

fn picks_the_lowest_number(before: &Node, field: &[u8], tables: &mut Tables, decision: &mut Decision) {
    picks(before, field, tables, decision, u64::trailing_zeros);
}

fn picks_receivers_first(before: &Node, field: &[u8], tables: &mut Tables, decision: &mut Decision) {
    picks(before, field, tables, decision, |pending| {
        let mut order = (0..32).chain((33..48).step_by(2)).chain((32..48).step_by(2));
        order.find(|device| pending & (1 << device) != 0).unwrap_or(0)
    });
}

/// What an accepted interrupt would have done with another of its pending devices.
fn picks(
    before: &Node,
    field: &[u8],
    tables: &mut Tables,
    decision: &mut Decision,
    device: impl Fn(u64) -> u32,
) {
    let Some(Event::Interrupt { status, .. }) = event::read(field) else { return };
    let pending = field[3..11].iter().fold(0u64, |number, &byte| number << 8 | u64::from(byte));
    let mut other = before.clone();
    *decision = other.step(&bytes::interrupt(1 << device(pending), status));
    *tables = other.tables();
}

fn sender_gone_with_a_word(_: &Node, _: &[u8], _: &mut Tables, decision: &mut Decision) {
    if decision.kind == 3 {
        decision.word = decision.sender.into();
    }
}

// ---- the programs ----

/// The event program with a slip, by its name; false for an unknown name.
pub fn node(name: &str, input: impl Read, output: impl Write) -> io::Result<bool> {
    if let Some((_, slip)) = IN_STEP.iter().find(|(known, _)| *known == name) {
        return step_with(*slip, input, output).map(|()| true);
    }
    if IN_LINES.contains(&name) {
        return lines_with(name, input, output).map(|()| true);
    }
    Ok(false)
}

fn step_with(slip: Slip, input: impl Read, mut output: impl Write) -> io::Result<()> {
    let mut node = Node::start();
    let mut fields = FieldReader::new(input);
    let mut field = Vec::new();
    let mut number = 0;
    let mut status = 0;
    while fields.next_field(&mut field)? {
        number += 1;
        let before = node.clone();
        let mut decision = node.step(&field);
        let mut tables = node.tables();
        slip(&before, &field, &mut tables, &mut decision);
        // Tables that no node can have are left as they were.
        node = Node::from_tables(&tables).unwrap_or(node);
        status = decision.status;
        writeln!(output, "{}", program::line(number, &decision))?;
    }
    let last = ["SYSTEM UP", "SYSTEM UP", "SYSTEM HALTED", "KERNEL PANIC"];
    writeln!(output, "{}", last[usize::from(status)])?;
    output.flush()
}

fn lines_with(name: &str, mut input: impl Read, mut output: impl Write) -> io::Result<()> {
    let mut file = Vec::new();
    input.read_to_end(&mut file)?;
    if name == "does not answer a field cut off" {
        let fields = program::fields_of(&file);
        let whole = fields.iter().filter(|field| event::first_field(field).is_some());
        file = whole.flatten().copied().collect();
    }
    let mut written = Vec::new();
    program::run(&file[..], &mut written)?;
    let mut lines: Vec<String> =
        String::from_utf8_lossy(&written).lines().map(|line| format!("{line}\n")).collect();
    match name {
        "no last line" => drop(lines.pop()),
        "no newline at the end" => lines.last_mut().map(String::pop).map_or((), drop),
        "a line more" => lines.push("SYSTEM UP\n".to_string()),
        "ends after 30 lines" | "hangs after 30 lines" => lines.truncate(30),
        "two spaces" => {
            lines.iter_mut().skip(29).take(1).for_each(|line| *line = line.replacen(' ', "  ", 1))
        }
        "counts lines from 0" => lines.iter_mut().for_each(|line| *line = one_lower(line)),
        _ => {}
    }
    output.write_all(lines.concat().as_bytes())?;
    output.flush()?;
    match name {
        "hangs after 30 lines" if lines.len() == 30 => {
            std::thread::sleep(std::time::Duration::from_secs(3_600))
        }
        "ends with status 3" => std::process::exit(3),
        _ => {}
    }
    Ok(())
}

fn one_lower(line: &str) -> String {
    match line.split_once(' ').map(|(number, rest)| (number.parse::<u64>(), rest)) {
        Some((Ok(number), rest)) => format!("{} {rest}", number - 1),
        _ => line.to_string(),
    }
}

pub fn snapshot(name: &str, input: impl Read, mut output: impl Write) -> io::Result<bool> {
    let mut tables = program::run_silently(input)?.tables();
    match name {
        "a byte behind" => {}
        "no held words" => tables.held.clear(),
        "counts in a byte" => tables.threads.iter_mut().for_each(|thread| thread.count &= 0xFF),
        "inboxes newest first" => {
            tables.messages.reverse();
            tables.messages.sort_by_key(|message| message.receiver);
        }
        _ => return Ok(false),
    }
    let mut bytes = dump::write(&tables);
    bytes.extend((name == "a byte behind").then_some(0));
    output.write_all(&bytes)?;
    output.flush()?;
    Ok(true)
}

/// Inspect with a slip; the name of a cause leaves that cause out.
pub fn inspect(name: &str, mut input: impl Read, mut output: impl Write) -> io::Result<bool> {
    let mut bytes = Vec::new();
    input.read_to_end(&mut bytes)?;
    let forgets = fault::CAUSES.iter().any(|cause| format!("{cause:?}") == name);
    if !forgets && !IN_INSPECT.contains(&name) {
        return Ok(false);
    }
    let text = match verdict_with(name, &bytes) {
        Some((refusal, offset)) => format!("{refusal} {offset}\n"),
        None => dump::read(&bytes).map_or("0 0\n".to_string(), |tables| dump::accepted(&tables)),
    };
    let text = match name {
        "no first line" => text.replacen("0 0\n", "", 1),
        "prints words below 0" => text.split_inclusive([' ', '\n']).map(with_sign).collect(),
        _ => text,
    };
    output.write_all(text.as_bytes())?;
    output.flush()?;
    Ok(true)
}

/// A number of 32 bits as one with a sign.
fn with_sign(number: &str) -> String {
    let end = number.len() - 1;
    match number[..end].parse::<u32>() {
        Ok(word) => format!("{}{}", word as i32, &number[end..]),
        Err(_) => number.to_string(),
    }
}

/// Number and place of the fault that counts, if it finds any.
fn verdict_with(name: &str, bytes: &[u8]) -> Option<(u8, usize)> {
    let mut found: Vec<(u8, usize)> = fault::faults(bytes)
        .iter()
        .filter(|fault| !is_forgotten(name, fault.cause))
        .map(|fault| (number_with(name, fault.cause), place_with(name, fault, bytes)))
        .collect();
    found.extend(found_beside(name, bytes));
    let counts = |&(number, place): &(u8, usize)| match (name, number) {
        ("counts tags before lengths", 15) => (16, place),
        ("counts tags before lengths", 16) => (15, place),
        ("counts names before ranges", 17) => (18, place),
        ("counts names before ranges", 18) => (17, place),
        ("counts the earliest field of all", _) => (0, place),
        ("counts the last field of a number", _) => (number, usize::MAX - place),
        _ => (number, place),
    };
    let (number, place) = found.into_iter().min_by_key(counts)?;
    match name {
        "one number for all" => Some((15, place)),
        "takes the offset in 8 bits" => Some((number, place & 0xFF)),
        _ => Some((number, if number == 19 { 0 } else { place })),
    }
}

fn is_forgotten(name: &str, cause: Cause) -> bool {
    let of_order = matches!(cause, Cause::ThreadsNotRising | Cause::MessagesNotRising | Cause::HeldNotRising);
    match name {
        "asks for no rule" => cause.refusal() > Refusal::OutOfPlace && !of_order,
        "asks for no order" => of_order,
        _ => format!("{cause:?}") == name,
    }
}

fn number_with(name: &str, cause: Cause) -> u8 {
    match (name, cause) {
        ("takes no manager of a trapped thread for another rule", Cause::NoManagerOfTrapped) => 19,
        ("takes dead names in queues for another rule", Cause::ReadyNotLive | Cause::ClockNotLive) => 19,
        ("takes the slice for another rule", Cause::SliceOfRunner | Cause::SliceOfNobody) => 19,
        ("takes answers of threads not ready for a range", Cause::AnswerOfNotReady) => 17,
        _ => cause.refusal().number(),
    }
}

fn place_with(name: &str, fault: &Fault, bytes: &[u8]) -> usize {
    let ends = || complete_fields(bytes).into_iter().map(<[u8]>::len);
    match (name, fault.cause) {
        ("gives the place of a cut field", Cause::CutField | Cause::StrayBytes) => ends().sum(),
        ("gives 0 for a missing field", Cause::Missing(_)) => 0,
        ("gives the field that came too early", Cause::OutOfOrder) => field_before(bytes, fault.offset),
        ("gives the place of the value", _) if fault.offset < bytes.len() => fault.offset + 3,
        _ => fault.offset,
    }
}

/// Where the field before the one at this place begins.
fn field_before(bytes: &[u8], place: usize) -> usize {
    let before = complete_fields(&bytes[..place]);
    place - before.last().map_or(0, |field| field.len())
}

/// Faults where there are none.
fn found_beside(name: &str, bytes: &[u8]) -> Option<(u8, usize)> {
    let fields = complete_fields(bytes);
    let end = fields.iter().map(|field| field.len()).sum::<usize>();
    match name {
        "measures a field that is cut" => {
            let length = dump::length_of(*bytes.get(end)?)?;
            let declared = bytes.get(end + 1..end + 3)?;
            (declared != (length as u16).to_be_bytes()).then_some((15, end))
        }
        "wants the name given last to be live" => {
            let tables = dump::read(bytes)?;
            (!tables.is_live(tables.name_given_last)).then_some((18, 0))
        }
        "wants senders of answers to be live" => {
            let tables = dump::read(bytes)?;
            let dead = |kind, sender| matches!(kind, 1..=3) && !tables.is_live(sender);
            let place = tables.threads.iter().position(|t| dead(t.answer_kind, t.answer_sender))?;
            Some((18, fields[0].len() + fields[1..=place].iter().map(|field| field.len()).sum::<usize>()))
        }
        _ => None,
    }
}
