//! 19: every other rule.

use super::Cause;
use crate::dump;
use crate::numbers::{FIRST, NOBODY, THREADS};
use crate::tables::{manager_waited_for, state, RawMessage, RawThread, Tables};

/// Of bytes whose form is right; of others nothing can be said.
pub fn causes(bytes: &[u8]) -> Vec<Cause> {
    let Some(tables) = dump::read(bytes) else { return Vec::new() };
    let names: Vec<u8> = tables.threads.iter().map(|thread| thread.name).collect();
    let receivers: Vec<u8> = tables.messages.iter().map(|message| message.receiver).collect();
    let held: Vec<u8> = tables.held.iter().map(|held| held.device).collect();
    let awaited = awaited(&tables);
    let broken = [
        (Cause::NameTwice, has_twice(&names)),
        (Cause::TooManyThreads, names.len() > THREADS),
        (Cause::WrongRoot, tables.threads.iter().any(is_wrong_root)),
        (Cause::CycleOfParents, !tables.threads.iter().all(|thread| tables.line_of_parents_ends(thread))),
        (Cause::RunnerDisagrees, !tables.are_in_state(&tables.runners(), state::RUNNING)),
        (Cause::ReadyDisagrees, !tables.are_in_state(&tables.ready, state::READY)),
        (Cause::ClockDisagrees, !tables.are_in_state(&tables.clock, state::CLOCK)),
        (Cause::TwoWaiters, has_twice(&awaited)),
        (Cause::HeldAndAwaited, held.iter().any(|device| awaited.contains(device))),
        (Cause::HeldTwice, has_twice(&held)),
        (Cause::OwnManager, tables.threads.iter().any(|thread| thread.managers.contains(&thread.name))),
        (Cause::MatchInInbox, !tables.inboxes_hold_no_match()),
        (Cause::TooManyMessages, !tables.message_count_holds()),
        (Cause::NoticeOfNotTrapped, notices(&tables).any(|notice| !is_trapped(&tables, notice.sender))),
        (Cause::NoticeElsewhere, notices(&tables).any(|notice| is_elsewhere(&tables, notice))),
        (Cause::NoticeTwice, has_twice(&notices(&tables).map(|notice| notice.sender).collect::<Vec<u8>>())),
        (Cause::WrongStatus, tables.status != tables.status_by_dispatch()),
        (Cause::ReadyWithoutRunner, !tables.has_runner() && tables.anybody_ready()),
        (
            Cause::AnswerOfNotReady,
            tables.threads.iter().any(|t| t.answer_kind != 0 && t.state != state::READY),
        ),
        (Cause::ThreadsNotRising, falls(&names)),
        (Cause::MessagesNotRising, falls(&receivers)),
        (Cause::HeldNotRising, falls(&held)),
    ];
    broken.iter().filter(|(_, broken)| *broken).map(|&(cause, _)| cause).collect()
}

fn has_twice(row: &[u8]) -> bool {
    let mut row = row.to_vec();
    row.sort_unstable();
    row.windows(2).any(|pair| pair[0] == pair[1])
}

fn falls(row: &[u8]) -> bool {
    row.windows(2).any(|pair| pair[1] < pair[0])
}

fn is_wrong_root(thread: &RawThread) -> bool {
    (thread.parent == NOBODY) != (thread.name == FIRST)
}

/// The devices that threads wait for.
fn awaited(tables: &Tables) -> Vec<u8> {
    let waiters = tables.threads.iter().filter(|thread| thread.state == state::DEVICE);
    waiters.map(|thread| thread.detail).collect()
}

fn notices(tables: &Tables) -> impl Iterator<Item = &RawMessage> {
    tables.messages.iter().filter(|message| message.kind == 2)
}

fn is_trapped(tables: &Tables, name: u8) -> bool {
    tables.thread(name).is_some_and(|thread| thread.state == state::TRAPPED)
}

/// Its sender is trapped, but waits for another one.
fn is_elsewhere(tables: &Tables, notice: &RawMessage) -> bool {
    let manager = tables.thread(notice.sender).and_then(manager_waited_for);
    is_trapped(tables, notice.sender) && manager != Some(notice.receiver)
}
