//! The moods of a run: what is likely in each.

use super::actions::Action;
use super::actions::Action::*;

#[derive(Clone, Copy, Debug, PartialEq, Eq)]
pub enum Mood {
    Grow,
    Flood,
    Drain,
    Listen,
    Manage,
    Trap,
    /// Threads manage each other in rings and trap on trapped ones.
    Ring,
    Judge,
    End,
    Clock,
    Device,
    /// Words come for devices that nobody waits for.
    Hold,
    Idle,
    Churn,
    Wrong,
    Mixed,
    /// Only when hardly anybody can act.
    Rescue,
    /// Only where it is asked for: time goes on, and threads ask about it.
    Count,
}

pub const MOODS: [(u64, Mood); 16] = [
    (14, Mood::Grow),
    (9, Mood::Flood),
    (5, Mood::Drain),
    (6, Mood::Listen),
    (8, Mood::Manage),
    (10, Mood::Trap),
    (8, Mood::Ring),
    (12, Mood::Judge),
    (9, Mood::End),
    (8, Mood::Clock),
    (6, Mood::Device),
    (1, Mood::Hold),
    (7, Mood::Idle),
    (4, Mood::Churn),
    (4, Mood::Wrong),
    (12, Mood::Mixed),
];

/// The weighted actions of a mood.
#[rustfmt::skip]
pub fn actions(mood: Mood) -> &'static [(u64, Action)] {
    match mood {
        Mood::Grow => &[
            (50, Son), (12, Brother), (18, Tick), (5, SendAny), (4, SetManager), (3, CpuTime), (3, WaitClock),
            (2, WaitDevice), (2, Interrupt), (1, BrotherOfFirst),
        ],
        Mood::Flood => &[
            (45, SendBusy), (12, SendSelf), (8, SendAny), (4, SendTrapped), (10, Tick), (6, Trap), (5, Continue),
            (3, ReceiveHere), (3, SetManager), (2, EndTrapped), (2, BadDecision),
        ],
        Mood::Drain => &[
            (30, ReceiveHere), (12, ReceiveAny), (20, Tick), (8, SendWaiting), (4, SendBusy), (3, ReceiveFrom),
        ],
        Mood::Listen => &[
            (25, ReceiveFrom), (10, ReceiveAny), (3, ReceiveSelf), (12, Tick), (10, SendWaiting), (6, SendBusy),
            (4, EndAny), (4, Son), (3, Trap), (2, EndSelf), (3, SendTrapped),
        ],
        Mood::Manage => &[
            (20, SetManager), (20, SetNext), (10, SetSon), (25, Tick), (4, Son), (3, ReceiveAny), (1, SetAgain),
            (2, OwnManager), (3, Trap), (2, SendAny),
        ],
        Mood::Trap => &[
            (40, Trap), (10, SetNext), (8, SetManager), (4, SetSon), (14, Tick), (3, ReceiveAny), (2, ReceiveFrom),
            (3, Son), (3, SendTrapped), (2, SendBusy), (1, TrapAlone), (4, WaitClock),
        ],
        Mood::Ring => &[
            (25, SetRing), (10, SetNext), (30, TrapOnTrapped), (12, Trap), (16, Tick), (4, Son), (4, SendTrapped),
            (2, SendBusy),
        ],
        Mood::Judge => &[
            (22, Continue), (14, EndTrapped), (10, BadDecision), (10, Trap), (8, ReceiveHere), (5, ReceiveAny),
            (30, PassOn), (5, Tick), (6, SendTrapped), (5, SetManager), (3, Son), (1, CpuTime),
        ],
        Mood::End => &[
            (12, EndAny), (8, EndMany), (5, EndSelf), (5, TrapAlone), (7, SetAgain), (5, EndTrapped), (24, UseGone),
            (15, Tick), (15, Son), (5, SendBusy), (5, ReceiveFrom), (4, SetManager), (4, Trap),
        ],
        Mood::Clock => &[
            (24, WaitClockBeside), (2, WaitClock), (30, Tick), (50, TickToBeat), (4, CpuTime), (3, Son), (3, SendBusy),
            (3, ReceiveHere), (2, SendSelf),
        ],
        Mood::Device => &[
            (10, WaitDevice), (14, WaitFree), (25, TakeHeld), (25, Interrupt), (6, WaitTaken), (14, Tick), (4, Son), (3, SendAny),
            (2, EndAny),
        ],
        Mood::Hold => &[(80, HoldNew), (10, Interrupt), (10, Tick)],
        Mood::Idle => &[
            (25, WaitClock), (15, WaitDevice), (10, WaitFree), (12, ReceiveFrom), (8, Trap), (6, ReceiveAny), (4, Tick), (2, Son),
        ],
        Mood::Churn => &[(45, SonInRoom), (45, EndNewest), (1, Son), (3, Brother), (3, Tick), (2, SendBusy), (1, SetManager)],
        Mood::Wrong => &[
            (10, DeadName), (10, OddName), (6, OwnManager), (6, BrotherOfFirst), (10, BadValue), (10, Malformed),
            (5, WaitTaken), (5, BadDecision), (15, Tick), (4, Son), (4, SendBusy),
        ],
        Mood::Rescue => &[
            (30, EndMany), (15, EndAny), (20, SendWaiting), (20, Continue), (10, Son), (10, Tick), (5, ReceiveHere),
        ],
        Mood::Count => &[
            (40, Tick), (40, TickToBeat), (40, CpuTime), (24, WaitClockBeside), (5, WaitClock), (3, Son), (2, SendBusy),
            (2, ReceiveHere), (1, Interrupt),
        ],
        Mood::Mixed => &[
            (4, Son), (2, Brother), (5, SendAny), (2, SendSelf), (4, SendBusy), (5, SendWaiting), (2, SendTrapped),
            (4, ReceiveAny), (4, ReceiveHere), (4, ReceiveFrom), (1, ReceiveSelf), (3, SetManager), (3, SetNext),
            (1, SetSon), (1, SetRing), (1, SetAgain), (5, Trap), (1, TrapAlone), (1, TrapOnTrapped), (4, Continue), (2, EndTrapped),
            (1, BadDecision), (1, EndAny), (1, EndMany), (1, EndSelf), (3, CpuTime), (3, WaitClock), (3, WaitDevice),
            (1, WaitTaken), (3, TakeHeld), (12, Tick), (4, TickToBeat), (4, Interrupt), (1, DeadName), (1, OddName), (1, OwnManager),
            (1, BrotherOfFirst), (1, BadValue), (2, UseGone),
        ],
    }
}

/// Actions that bring a panic near.
pub const TOWARDS_PANIC: [(u64, Action); 5] =
    [(60, ReceiveAny), (20, Trap), (10, ReceiveFrom), (5, ReceiveSelf), (5, Tick)];

/// Actions that bring a halt near.
pub const TOWARDS_HALT: [(u64, Action); 5] =
    [(3, EndSelf), (3, EndMany), (2, TrapAlone), (2, SetAgain), (2, EndAny)];
