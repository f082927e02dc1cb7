//! 17: values outside their range; the slice by the runner, the detail by the state, the answer by its kind. Manager bytes, counts, beats
//! and words of messages and devices may be anything.

use super::{Cause, Fault, Field};
use crate::dump::{
    read_head, read_held, read_message, read_thread, CLOCK, HEAD, HELD, MESSAGE, READY, THREAD,
};
use crate::numbers::{BEAT, DEVICES, KINDS, NOBODY, SLICE, SSI};
use crate::tables::{is_name, is_name_or_nobody, state, RawMessage, RawThread, Tables};

/// Of one field. A value of a wrong length is not looked at.
pub fn faults(field: &Field) -> Vec<Fault> {
    let value = field.value;
    let causes = match field.tag {
        HEAD => read_head(value).map(|tables| of_head(&tables)),
        THREAD => read_thread(value).map(|thread| of_thread(&thread)),
        READY => Some(of_queue(value, Cause::ReadyName)),
        CLOCK => Some(of_queue(value, Cause::ClockName)),
        MESSAGE => read_message(value).map(|message| of_message(&message)),
        HELD => read_held(value).map(|held| broken(&[(Cause::HeldDevice, held.device < DEVICES)])),
        _ => None,
    };
    let fault = |cause| Fault { cause, offset: field.offset };
    causes.unwrap_or_default().into_iter().map(fault).collect()
}

/// Those that do not hold.
fn broken(judged: &[(Cause, bool)]) -> Vec<Cause> {
    judged.iter().filter(|(_, holds)| !holds).map(|&(cause, _)| cause).collect()
}

fn of_head(head: &Tables) -> Vec<Cause> {
    let runs = head.runner != NOBODY;
    broken(&[
        (Cause::Status, head.status <= 3),
        (Cause::GivenLast, is_name(head.name_given_last)),
        (Cause::Runner, is_name_or_nobody(head.runner)),
        (Cause::SliceOfRunner, !runs || (1..=SLICE).contains(&head.slice)),
        (Cause::SliceOfNobody, runs || head.slice == 0),
        (Cause::TicksSinceBeat, head.ticks_since_beat < BEAT),
    ])
}

fn of_thread(thread: &RawThread) -> Vec<Cause> {
    let mut causes = broken(&[
        (Cause::ThreadName, is_name(thread.name)),
        (Cause::Parent, is_name_or_nobody(thread.parent)),
        (Cause::State, thread.state <= state::TRAPPED),
        (Cause::Detail(thread.state), detail_holds(thread)),
    ]);
    causes.extend(of_answer(thread));
    causes
}

/// Of a state that there is.
fn detail_holds(thread: &RawThread) -> bool {
    match thread.state {
        state::RUNNING | state::READY | state::CLOCK => thread.detail == 0,
        state::RECEIVING => is_name_or_nobody(thread.detail),
        state::DEVICE => thread.detail < DEVICES,
        state::TRAPPED => thread.detail < KINDS,
        _ => true,
    }
}

/// "None is 0, 255, 0. Kind 3 has word 0; kind 4 has sender 254", and "kinds 1 to 3 with a sender 0 to 253".
fn of_answer(thread: &RawThread) -> Vec<Cause> {
    let RawThread { answer_kind: kind, answer_sender: sender, answer_word: word, .. } = *thread;
    let (sender_holds, word_holds) = match kind {
        0 => (sender == NOBODY, word == 0),
        1 | 2 => (is_name(sender), true),
        3 => (is_name(sender), word == 0),
        4 => (sender == SSI, true),
        _ => return vec![Cause::AnswerKind],
    };
    broken(&[(Cause::AnswerSender(kind), sender_holds), (Cause::AnswerWord(kind), word_holds)])
}

fn of_queue(names: &[u8], cause: Cause) -> Vec<Cause> {
    broken(&[(cause, names.iter().all(|&name| is_name(name)))])
}

fn of_message(message: &RawMessage) -> Vec<Cause> {
    broken(&[
        (Cause::MessageReceiver, is_name(message.receiver)),
        (Cause::MessageSender, is_name(message.sender)),
        (Cause::MessageKind, matches!(message.kind, 1 | 2)),
    ])
}
