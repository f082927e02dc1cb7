//! Why bytes are no dump.

use crate::numbers::Refusal;

/// The causes of each number. A number in brackets is a tag, a state or a kind of answer.
#[derive(Clone, Copy, Debug, PartialEq, Eq, PartialOrd, Ord)]
pub enum Cause {
    // ---- 15
    /// The value of the last field is not all there.
    CutField,
    /// One or two bytes at the end.
    StrayBytes,
    /// A field of this tag has another length than it must have.
    WrongLength(u8),
    /// There is no field of this tag.
    Missing(u8),
    // ---- 16
    UnknownTag,
    /// The tag ranks below the one before it.
    OutOfOrder,
    /// A field of this tag stands before it.
    Second(u8),
    // ---- 17
    Status,
    GivenLast,
    Runner,
    /// Not 1 to 5 with a runner.
    SliceOfRunner,
    /// Not 0 without one.
    SliceOfNobody,
    TicksSinceBeat,
    ThreadName,
    Parent,
    State,
    /// The detail of this state.
    Detail(u8),
    AnswerKind,
    /// The sender of an answer of this kind.
    AnswerSender(u8),
    /// The word of an answer of this kind.
    AnswerWord(u8),
    ReadyName,
    ClockName,
    MessageReceiver,
    MessageSender,
    MessageKind,
    HeldDevice,
    // ---- 18
    RunnerNotLive,
    ParentNotLive,
    WantedNotLive,
    ManagerNotLive,
    /// The entry that a trapped thread waits for is none or gone.
    NoManagerOfTrapped,
    ReadyNotLive,
    ClockNotLive,
    ReceiverNotLive,
    SenderNotLive,
    // ---- 19
    NameTwice,
    TooManyThreads,
    /// "0 alone has none": another thread has no parent, or 0 has one.
    WrongRoot,
    CycleOfParents,
    /// The runner and the threads that run do not agree.
    RunnerDisagrees,
    ReadyDisagrees,
    ClockDisagrees,
    TwoWaiters,
    HeldAndAwaited,
    HeldTwice,
    OwnManager,
    MatchInInbox,
    TooManyMessages,
    /// A notice of a thread that is not trapped.
    NoticeOfNotTrapped,
    /// A notice in the inbox of another thread than the manager waited for.
    NoticeElsewhere,
    NoticeTwice,
    /// Another status than Dispatch says.
    WrongStatus,
    ReadyWithoutRunner,
    /// A well-formed answer of a thread that is not ready.
    AnswerOfNotReady,
    ThreadsNotRising,
    MessagesNotRising,
    HeldNotRising,
}

use Cause::*;

/// Every cause.
#[rustfmt::skip]
pub const CAUSES: [Cause; 74] = [
    CutField, StrayBytes, WrongLength(1), WrongLength(2), WrongLength(5), WrongLength(6), Missing(1), Missing(3), Missing(4),
    UnknownTag, OutOfOrder, Second(1), Second(3), Second(4),
    Status, GivenLast, Runner, SliceOfRunner, SliceOfNobody, TicksSinceBeat, ThreadName, Parent, State,
    Detail(0), Detail(1), Detail(2), Detail(3), Detail(4), Detail(5), AnswerKind,
    AnswerSender(0), AnswerSender(1), AnswerSender(2), AnswerSender(3), AnswerSender(4), AnswerWord(0), AnswerWord(3),
    ReadyName, ClockName, MessageReceiver, MessageSender, MessageKind, HeldDevice,
    RunnerNotLive, ParentNotLive, WantedNotLive, ManagerNotLive, NoManagerOfTrapped, ReadyNotLive, ClockNotLive,
    ReceiverNotLive, SenderNotLive,
    NameTwice, TooManyThreads, WrongRoot, CycleOfParents, RunnerDisagrees, ReadyDisagrees, ClockDisagrees, TwoWaiters,
    HeldAndAwaited, HeldTwice, OwnManager, MatchInInbox, TooManyMessages, NoticeOfNotTrapped, NoticeElsewhere, NoticeTwice,
    WrongStatus, ReadyWithoutRunner, AnswerOfNotReady, ThreadsNotRising, MessagesNotRising, HeldNotRising,
];

impl Cause {
    /// The number under which it is refused.
    pub fn refusal(self) -> Refusal {
        match self {
            CutField | StrayBytes | WrongLength(_) | Missing(_) => Refusal::CutShort,
            UnknownTag | OutOfOrder | Second(_) => Refusal::OutOfPlace,
            Status | GivenLast | Runner | SliceOfRunner | SliceOfNobody | TicksSinceBeat => {
                Refusal::OutOfRange
            }
            ThreadName | Parent | State | Detail(_) => Refusal::OutOfRange,
            AnswerKind | AnswerSender(_) | AnswerWord(_) => Refusal::OutOfRange,
            ReadyName | ClockName | MessageReceiver | MessageSender | MessageKind | HeldDevice => {
                Refusal::OutOfRange
            }
            RunnerNotLive | ParentNotLive | WantedNotLive | ManagerNotLive | NoManagerOfTrapped => {
                Refusal::NameNotLive
            }
            ReadyNotLive | ClockNotLive | ReceiverNotLive | SenderNotLive => Refusal::NameNotLive,
            _ => Refusal::OtherRule,
        }
    }
}
