"""A part of a run, as tools/picture shows it: what happened in it. Messages and notices, who was made and who ended, who was served.

It knows no rule of the nucleus. States, inboxes and answers that wait are those of the tables after each event. What is handed over and
what is refused is what node prints. What was sent is what the tables have anew, held against the event that came between.
"""
import sys
from collections import namedtuple

import runs
from command import Wrong

MOST_EVENTS = 200  # so many are shown if nothing is said

# The first and the last event that is shown, and how many the run has. By the number of an event: the words that write it, its answer,
# and the tables after it. The tables before the first event that is shown are there too.
Part = namedtuple("Part", "first last total words answers tables")


def part_of(path, first, last):
    data = runs.events_of(path)
    fields = runs.cut(data)
    first, last = shown(len(fields), first, last)
    answers, _ = runs.answers(data)
    ends = [0]
    for field in fields:
        ends.append(ends[-1] + len(field))
    tables = {k: runs.tables_after(data[: ends[k]]) for k in range(first - 1, last + 1)}
    words = {k: runs.written(fields[k - 1]).split() for k in range(first, last + 1)}
    return Part(first, last, len(fields), words, {answer.line: answer for answer in answers}, tables)


def shown(total, first, last):
    """The first and the last event of the picture."""
    begin = first or 1
    if begin > max(total, 1):
        raise Wrong(f"there is no event {begin}: the run has {total}")
    end = min(last or begin + MOST_EVENTS - 1, total)
    if not last and end < total:
        print(f"picture: shows events {begin} to {end} of {total}; --from and --to choose others", file=sys.stderr)
    return begin, end


def events(part):
    return range(part.first, part.last + 1)


def accepted(part, k, word):
    """Whether event k is such a one and was not refused."""
    return part.answers[k].refusal == 0 and part.words[k][0] == word


def runner_before(part, k):
    return part.tables[k - 1].node.runner


# ---- Messages and notices: where each was sent, and what became of it.

MAIL = (runs.MESSAGE, runs.NOTICE)
MAIL_CLASS = {runs.MESSAGE: "message", runs.NOTICE: "notice"}
WAITS, HANDED, DISCARDED = "waits", "handed", "discarded"


class Mail:
    """A message or a notice, sent by event `sent` (None: before the part). After event `over` it waits no more (None: it waits still)."""

    def __init__(self, key, sent):
        self.key, self.sent, self.over, self.fate = key, sent, None, WAITS
        self.due, self.receiver, self.sender, self.kind, self.word = key

    def ends(self, k, fate):
        self.over, self.fate = k, fate


def waiting_in(tables):
    """A key for each mail that waits: whether it is an answer that is due, then receiver, sender, kind and word; oldest first."""
    due = [(thread.name, thread.answer) for thread in tables.threads if thread.answer.kind in MAIL]
    keys = [(True, name, answer.sender, answer.kind, answer.word) for name, answer in due]
    return keys + [(False, *message) for message in tables.messages]


def parted(before, keys):
    """Of the mails that waited before: those that wait still, those that do not. And the keys that none of them has. Mails that cannot be
    told apart go in the order in which they were sent."""
    gone, still, new = list(before), [], []
    for key in reversed(keys):
        at = max((i for i, mail in enumerate(gone) if mail.key == key), default=None)
        if at is None:
            new.insert(0, key)
        else:
            still.insert(0, gone.pop(at))
    return still, gone, new


def is_sent_by(part, k, mail):
    """Whether event k, by its bytes and by whoever ran before it, sends this mail."""
    words = part.words[k]
    if mail.sender != runner_before(part, k):
        return False
    if mail.kind == runs.MESSAGE:
        return accepted(part, k, "send") and words[1:] == [str(mail.receiver), str(mail.word)]
    return accepted(part, k, "trap") and words[2] == str(mail.word)


def handed_by(answer, gone):
    """The mail that an answer hands over, of those that wait no more: one that was due, else the oldest."""
    key = (answer.runner, answer.sender, answer.kind, answer.word)
    return next((mail for mail in sorted(gone, key=lambda mail: not mail.due) if mail.key[1:] == key), None)


def one_event(part, k, before):
    """The mails that wait after event k, and those that it sent. The fate of the others is written into them."""
    answer = part.answers[k]
    still, gone, new = parted(before, waiting_in(part.tables[k]))
    sent = [Mail(key, k) for key in new]
    handed = handed_by(answer, gone)
    if answer.kind in MAIL and handed is None:
        handed = Mail((True, answer.runner, answer.sender, answer.kind, answer.word), k)
        sent.append(handed)
    for mail in gone:
        mail.ends(k, DISCARDED)
    if handed:
        handed.ends(k, HANDED)
    if not all(is_sent_by(part, k, mail) for mail in sent):
        raise Wrong(f"event {k}: the tables have a message or a notice that no event has sent")
    return still + [mail for mail in sent if mail.fate == WAITS], sent


def mails_of(part):
    """Every mail that waited or was handed over in the part."""
    waiting = [Mail(key, None) for key in waiting_in(part.tables[part.first - 1])]
    found = list(waiting)
    for k in events(part):
        waiting, sent = one_event(part, k, waiting)
        found += sent
    return found


# A send without a mail, event k. `refused` says which of the two it is: refused, or a manager's decision on a trapped thread.
Bare = namedtuple("Bare", "k sender receiver word refused")


def bare_sends(part, mails):
    """The sends that put no message anywhere, if somebody ran who can have sent."""
    sent = {mail.sent for mail in mails}
    return [
        Bare(k, runner_before(part, k), int(part.words[k][1]), int(part.words[k][2]), part.answers[k].refusal != 0)
        for k in events(part)
        if part.words[k][0] == "send" and k not in sent and runner_before(part, k) != runs.NOBODY
    ]


# ---- What else the tables say.


def names_in(tables):
    return {thread.name: thread for thread in tables.threads}


def names_of(part):
    """Every thread that lived in the part."""
    return sorted({name for tables in part.tables.values() for name in names_in(tables)})


def created_by(part, k):
    """The threads that event k made, each with its parent."""
    before = names_in(part.tables[k - 1])
    return [(name, thread.parent) for name, thread in names_in(part.tables[k]).items() if name not in before]


def ended_by(part, k):
    return [name for name in names_in(part.tables[k - 1]) if name not in names_in(part.tables[k])]


def state_of(tables, name):
    """State and detail, or None where there is no such thread."""
    thread = names_in(tables).get(name)
    return thread and (thread.state, thread.detail)


def served_by(part, k):
    """The device that an interrupt served, as far as the tables tell: one that a thread no more waits for, or one whose held word is new;
    else all pending ones whose held word is the one that came. And whether somebody waited."""
    before, after = part.tables[k - 1], part.tables[k]
    _, devices, _, word = part.words[k]
    pending = [int(device) for device in devices.split(",")]
    waited = {t.detail: t.name for t in before.threads if t.state == runs.AT_DEVICE}
    for device in pending:
        if device in waited and state_of(after, waited[device]) != (runs.AT_DEVICE, device):
            return [device], True
    fresh = [held.device for held in after.held if held not in before.held]
    return fresh or [held.device for held in after.held if held.device in pending and held.word == int(word)], False


def look(tables):
    """What the picture shows of the tables: not what every tick counts."""
    threads = [(t.name, t.state, t.detail, t.answer) for t in tables.threads]
    return threads, tables.node.status, tables.node.beats, tables.messages, tables.held


def folds(part, k):
    """Whether event k is a tick behind a tick, answered alike, after which nothing that is shown is other than before."""
    if k == part.first or not part.words[k] == part.words[k - 1] == ["tick"]:
        return False
    same = part.answers[k].refusal == part.answers[k - 1].refusal and part.answers[k].kind == runs.NONE
    return same and look(part.tables[k]) == look(part.tables[k - 1])
