"""How tools/picture draws a part of a run: where things stand, and the SVG for each."""
import math
from collections import namedtuple

import runs
from part import DISCARDED, HANDED, MAIL, MAIL_CLASS, WAITS
from part import accepted, bare_sends, created_by, ended_by, events, folds, mails_of, names_of, runner_before, served_by, state_of

# ---- Where things stand.

COLUMN, FOLDED = 58, 1.5  # the least width of a column, where "from any" fits in, and how much wider one of folded ticks is
STUB = 54  # the state before the first event
GUTTER, GUTTER_EVERY = 34, 20  # lane names again, every so many columns
BAR, TRACK, LABEL, GAP = 19, 9, 14, 9  # heights in a lane
TEXT = 8  # a text in a bar begins so far behind the event, where lines end
EDGE = 16  # around all
READABLE = 1200  # the legend and the list of refusals are no wider than this
CHARACTER = 6.6  # a wide guess, at 11 px
LINE = 16
SLANT = math.radians(45)

Column = namedtuple("Column", "first last x width")
Lane = namedtuple("Lane", "name top bar bottom track")
# From one x to another: what holds after these events.
Span = namedtuple("Span", "begin end first last value")


def wide(said):
    return len(said) * CHARACTER


def clipped(said, most):
    return said if len(said) <= most else said[: most - 2] + ".."


def numbers_of(column):
    return str(column.first) if column.first == column.last else f"{column.first}-{column.last}"


def head_of(part, column):
    """What stands above a column: its event, and what refused it."""
    refusal = part.answers[column.first].refusal
    said = clipped(" ".join(part.words[column.first]), 24 if refusal else 36)
    if column.last > column.first:
        said = f"tick x {column.last - column.first + 1}"
    return f"{said}: refused with {refusal}" if refusal else said


def label_of(answer):
    return f"gone {answer.sender}" if answer.kind == runs.SENDER_GONE else str(answer.word)


def column_width(part):
    """So wide that every word in the picture fits in."""
    labels = [label_of(part.answers[k]) for k in events(part) if part.answers[k].kind]
    labels += [part.words[k][2] for k in events(part) if part.words[k][0] in ("send", "trap")]
    return max([COLUMN] + [round(wide(label)) + 19 for label in labels])


def columns_of(part, left):
    """The columns, one behind the other. `left` is where the lanes begin, with the state before the first event."""
    width, x, columns = column_width(part), left + STUB, []
    for k in events(part):
        if folds(part, k):
            last = columns.pop()
            x = last.x + width * FOLDED
            columns.append(Column(last.first, k, last.x, width * FOLDED))
            continue
        if columns and len(columns) % GUTTER_EVERY == 0:
            x += GUTTER
        columns.append(Column(k, k, x, width))
        x += width
    return columns


def tracks_of(mails, name):
    """Which track above the bar each mail to the thread takes: the lowest that is free from its sending to its end. What is handed over at
    once takes none."""
    taken, track = [], {}
    waited = [mail for mail in mails if mail.receiver == name and (mail.sent is None or mail.sent != mail.over)]
    for mail in sorted(waited, key=lambda mail: mail.sent or 0):
        begin, end = mail.sent or 0, mail.over or math.inf
        free = next((i for i, until in enumerate(taken) if until < begin), len(taken))
        taken[free : free + 1] = [end]
        track[mail] = free
    return track, len(taken)


def lanes_of(part, mails, sends, top):
    """A lane for each thread: tracks of its inbox, the bar of its state, and room for the words that it sends."""
    senders = {mail.sender for mail in mails if mail.sent} | {send.sender for send in sends}
    lanes = {}
    for name in names_of(part):
        track, count = tracks_of(mails, name)
        bar = top + 4 + TRACK * count
        bottom = bar + BAR + (LABEL if name in senders else 0) + GAP
        lanes[name] = Lane(name, top, bar, bottom, track)
        top = bottom
    return lanes


class Plan:
    """Part, mails and sends without, and where everything of them stands."""

    def __init__(self, part, names, title):
        """`names` are words beside threads' numbers."""
        self.part, self.names, self.title = part, names, title
        self.mails = mails_of(part)
        self.sends = bare_sends(part, self.mails)
        self.left = EDGE + 14 + max([46] + [wide(self.lane_title(name)) * 12 / 11 for name in names_of(part)])
        self.columns = columns_of(part, self.left)
        self.right = self.columns[-1].x + self.columns[-1].width if self.columns else self.left + STUB
        heads = [head_of(part, column) for column in self.columns]
        self.overhang = max([0] + [c.x + wide(h) * math.cos(SLANT) + 14 - self.right for c, h in zip(self.columns, heads)])
        self.head = EDGE + (30 if title else 0) + max([20] + [wide(head) * math.sin(SLANT) for head in heads]) + 14
        self.lanes = lanes_of(part, self.mails, self.sends, self.head + 24)
        self.bottom = max(lane.bottom for lane in self.lanes.values()) if self.lanes else self.head + 24
        self.width = round(max(self.right + self.overhang, 560, EDGE + wide(title) * 16 / 11) + EDGE)
        self.column_of = {k: column for column in self.columns for k in range(column.first, column.last + 1)}
        self.x_of = {k: column.x for k, column in self.column_of.items()}

    def lane_title(self, name):
        return f"{name} {self.names[name]}" if name in self.names else f"thread {name}"

    def spans(self, shown_of):
        """Columns in a row for which shown_of gives the same of the tables, and something."""
        starts = [(self.left, self.part.first - 1)] + [(column.x, column.first) for column in self.columns]
        spans = []
        for x, k in starts:
            value = shown_of(self.part.tables[k])
            if not spans or spans[-1].value != value:
                spans.append(Span(x, self.right, k, self.part.last, value))
        cut = [span._replace(end=then.begin, last=then.first - 1) for span, then in zip(spans, spans[1:])]
        return [span for span in cut + spans[-1:] if span.value is not None]


# ---- Pieces of SVG.


def number(value):
    return f"{value:.1f}".rstrip("0").rstrip(".")


def escaped(said):
    """As XML writes it. What XML cannot write is a question mark."""
    said = "".join(c if " " <= c < "\ud800" or "\ue000" <= c <= "\ufffd" or c > "\uffff" else "?" for c in str(said))
    return said.replace("&", "&amp;").replace("<", "&lt;").replace(">", "&gt;").replace('"', "&quot;")


def element(tag, inside="", **attributes):
    """An element. 'class_' is class, 'data_word' is data-word, numbers are written short."""
    said = ""
    for name, value in attributes.items():
        value = number(value) if isinstance(value, (int, float)) else escaped(value)
        said += f' {name.rstrip("_").replace("_", "-")}="{value}"'
    return f"<{tag}{said}>{inside}</{tag}>" if inside else f"<{tag}{said}/>"


def text(x, y, said, class_="", **more):
    return element("text", escaped(said), x=x, y=y, **({"class_": class_} if class_ else {}), **more)


def path(steps, class_, **more):
    """Steps are words and numbers of a path."""
    return element("path", d=" ".join(step if isinstance(step, str) else number(step) for step in steps), class_=class_, **more)


def group(pieces, class_, says="", **data):
    title = [element("title", escaped(says))] if says else []
    return element("g", "".join(title + pieces), class_=class_, **data)


def line(steps, kind):
    return path(steps, "line " + kind)


def cross(x, y, kind, size=4):
    return path(["M", x - size, y - size, "L", x + size, y + size, "M", x - size, y + size, "L", x + size, y - size], "cross " + kind)


def dot(x, y, kind):
    return element("circle", cx=x, cy=y, r=3.2, class_="mark " + kind)


def ring(x, y):
    return element("circle", cx=x, cy=y, r=5, class_="mark created")


def stop(x, y, height):
    return element("rect", x=x - 2.5, y=y, width=5, height=height, class_="mark ended")


def into(x, y, kind, way=1):
    """An arrowhead whose point stands at y: downwards, or upwards for -1."""
    return path(["M", x - 4, y - 6 * way, "L", x + 4, y - 6 * way, "L", x, y, "Z"], "mark " + kind)


def diamond(x, y, size=5):
    return path(["M", x - size, y, "L", x, y - size, "L", x + size, y, "L", x, y + size, "Z"], "mark decision")


def triangle(x, y, class_):
    return path(["M", x - 5, y, "L", x + 5, y, "L", x, y - 10, "Z"], class_)


def tick_mark(x, y):
    return path(["M", x, y, "V", y + 6], "scale")


def beat_mark(x, y):
    return path(["M", x, y, "V", y + 17], "beat")


def badge(x, y, half):
    return element("rect", x=x - half, y=y, width=2 * half, height=18, rx=3, class_="badge")


# ---- Lanes and states.

STATE_CLASS = ("running", "ready", "receiving", "clock", "device", "trapped")
HATCHED = (runs.RECEIVING, runs.AT_CLOCK, runs.AT_DEVICE, runs.TRAPPED)


def state_text(state, detail):
    """What a bar says: shortly, and whole."""
    name = "anybody" if detail == runs.ANYBODY else detail
    kind = runs.TRAP_WORDS[detail] if state == runs.TRAPPED else ""
    return {
        runs.RUNNING: ("runs", "runs"),
        runs.READY: ("ready", "ready: waits for its turn"),
        runs.RECEIVING: ("from any" if name == "anybody" else f"from {name}", f"waits for a message from {name}"),
        runs.AT_CLOCK: ("clock", "waits for the beat of the clock"),
        runs.AT_DEVICE: (f"dev {detail}", f"waits for device {detail}"),
        runs.TRAPPED: ("trapped", f"trapped ({kind}): waits for its manager's decision"),
    }[state]


def draw_state(plan, lane, span):
    """A bar; what the thread waits for stands in it, behind lane names again, or what it was handed."""
    state, detail = span.value
    short, said = state_text(state, detail)
    answer = plan.part.answers[span.first] if span.first >= plan.part.first else None
    box = dict(x=span.begin, y=lane.bar, width=span.end - span.begin, height=BAR)
    pieces = [element("rect", class_="bar " + STATE_CLASS[state], **box)]
    if state in HATCHED:
        pieces.append(element("rect", fill=f"url(#{STATE_CLASS[state]})", **box))
    begins = [] if answer and answer.kind and answer.runner == lane.name else [span.begin]
    if state != runs.RUNNING:
        begins += [column.x for column in gutter_columns(plan) if span.begin < column.x < span.end]
    pieces += [text(x + TEXT, lane.bar + 14, short, "in") for x in begins]
    data = dict(data_state=STATE_CLASS[state], data_detail=detail, data_first=span.first, data_last=span.last)
    return group(pieces, "state", f"{plan.lane_title(lane.name)}: {said}", **data)


def gutter_columns(plan):
    """The columns before which the lane names stand again."""
    return plan.columns[GUTTER_EVERY::GUTTER_EVERY]


def lane_names(plan, lane):
    """The name at the left, and again before every so many columns."""
    name = plan.names.get(lane.name)
    pieces = [text(EDGE, lane.bar + 14, lane.name if name else f"thread {lane.name}", "name")]
    if name:
        pieces.append(text(EDGE + 8 + 8 * len(str(lane.name)), lane.bar + 14, name, "name"))
    for column in gutter_columns(plan):
        pieces.append(text(column.x - GUTTER / 2, lane.bar + 14, lane.name, "name again"))
    return pieces


def draw_lane(plan, lane):
    middle = lane.bar + BAR / 2
    pieces = [path(["M", plan.left, middle, "H", plan.right], "away")]
    pieces += [draw_state(plan, lane, span) for span in plan.spans(lambda tables: state_of(tables, lane.name))]
    return group(pieces + lane_names(plan, lane), "lane", data_thread=lane.name)


# ---- What goes between lanes.


def wire(plan, k, source, at, kind):
    """A line from the bar of one thread, at event k, to a height in the lane of another."""
    bar = plan.lanes[source].bar
    return line(["M", plan.x_of[k], bar + BAR if at > bar else bar, "V", at], kind)


def draw_mail(plan, mail):
    """From the sender to the inbox, along it, and down into the bar or into a cross."""
    lane, kind = plan.lanes[mail.receiver], MAIL_CLASS[mail.kind]
    y = lane.bar - 5 - TRACK * lane.track.get(mail, 0)
    begin = plan.x_of[mail.sent] if mail.sent else plan.left
    end = plan.x_of[mail.over] if mail.over else plan.right
    pieces = [line(["M", begin, y, "H", end], kind + " waits")] if begin != end else []
    if mail.sent:
        pieces += draw_sending(plan, mail, y)
    if mail.fate == HANDED and mail.sent != mail.over:
        pieces += [line(["M", end, y, "V", lane.bar], kind), into(end, lane.bar + 3, kind)]
    elif mail.fate == DISCARDED:
        pieces.append(cross(end, y, kind, 3))
    return group(pieces, "mail", mail_title(mail), **mail_data(mail))


def draw_sending(plan, mail, y):
    """The line from the sender: to a dot in the inbox, or into the bar if it is handed over at once."""
    kind, x, lane, sender = MAIL_CLASS[mail.kind], plan.x_of[mail.sent], plan.lanes[mail.receiver], plan.lanes[mail.sender]
    down = sender.bar < lane.bar
    label = text(x + 6, sender.bar + BAR + 12, mail.word, "sent " + kind)
    if mail.sent != mail.over:
        return [wire(plan, mail.sent, mail.sender, y, kind), dot(x, y, kind), label]
    end = lane.bar - 4 if down else lane.bar + BAR + 4
    head = into(x, lane.bar + 3, kind) if down else into(x, lane.bar + BAR - 3, kind, -1)
    return [wire(plan, mail.sent, mail.sender, end, kind), head, label]


def mail_title(mail):
    what = "message" if mail.kind == runs.MESSAGE else "notice of a trap"
    sent = f"sent by event {mail.sent}" if mail.sent else "sent before"
    over = {WAITS: "waits still", HANDED: f"handed over by event {mail.over}", DISCARDED: f"discarded by event {mail.over}"}[mail.fate]
    return f"{what} {mail.word} from {mail.sender} to {mail.receiver}: {sent}, {over}"


def mail_data(mail):
    over = {f"data_{mail.fate}": mail.over} if mail.over else {}
    sent = {"data_sent": mail.sent} if mail.sent else {}
    return dict(data_sender=mail.sender, data_receiver=mail.receiver, data_kind=mail.kind, data_word=mail.word, **sent, **over)


def end_of(plan, send):
    """How far the line of a send without a mail goes: into the bar of the receiver. To oneself, or where there is no such lane, not far."""
    lane = plan.lanes[send.sender]
    if send.receiver not in plan.lanes:
        return lane.bar + BAR + LABEL - 5
    return lane.bar - 6 if send.receiver == send.sender else plan.lanes[send.receiver].bar + BAR / 2


def draw_send(plan, send):
    """A send that was refused, or that was a decision."""
    lane, x, end = plan.lanes[send.sender], plan.x_of[send.k], end_of(plan, send)
    class_ = "refused" if send.refused else "decision"
    pieces = [text(x + TEXT + 1, lane.bar + BAR + 12, send.word, "sent " + class_)]
    pieces.append(wire(plan, send.k, send.sender, end, class_))
    pieces.append(cross(x, end, "refused", 6) if send.refused else diamond(x, end))
    if send.receiver in plan.lanes and send.refused and not state_of(plan.part.tables[send.k], send.receiver):
        pieces.append(text(x + 10, plan.lanes[send.receiver].bar + 14, "nobody", "missed"))
    fate = f"refused with {plan.part.answers[send.k].refusal}" if send.refused else "a decision on a trapped thread"
    says = f"{send.word} from {send.sender} to {send.receiver}, event {send.k}: {fate}"
    return group(pieces, class_, says, data_event=send.k, data_sender=send.sender, data_receiver=send.receiver, data_word=send.word)


def draw_created(plan, k, name, parent):
    lane = plan.lanes[name]
    x, y = plan.x_of[k], lane.bar + BAR / 2
    pieces = [wire(plan, k, parent, y, "created")] if parent in plan.lanes else []
    pieces.append(ring(x, y))
    return group(pieces, "creation", f"event {k}: thread {name} is made, its parent is {parent}", data_event=k, data_thread=name)


def draw_ended(plan, k, name):
    lane, by = plan.lanes[name], runner_before(plan.part, k)
    x = plan.x_of[k]
    pieces = [wire(plan, k, by, lane.bar + BAR / 2, "ended")] if by in plan.lanes and by != name else []
    pieces.append(stop(x, lane.bar - 2, BAR + 4))
    pieces.append(text(x + 7, lane.bar + 14, "ended", "in"))
    return group(pieces, "ending", f"event {k}: thread {name} ends", data_event=k, data_thread=name)


def sign(kind, x, y):
    """A service's answer, or that the sender is gone."""
    if kind == runs.RESULT:
        return element("rect", x=x - 3.5, y=y - 3.5, width=7, height=7, class_="result")
    return element("circle", cx=x, cy=y, r=4, class_="result") + path(["M", x - 3, y + 3, "L", x + 3, y - 3], "slash")


def draw_answer(plan, answer):
    lane, x = plan.lanes[answer.runner], plan.x_of[answer.line]
    if answer.kind in MAIL:
        pieces = [text(x + TEXT, lane.bar + 14, label_of(answer), "in word")]
    else:
        pieces = [sign(answer.kind, x + 8, lane.bar + BAR / 2), text(x + 15, lane.bar + 14, label_of(answer), "in word")]
    what = f"the {runs.KIND_WORDS[answer.kind]} {answer.word}" + (f" of {answer.sender}" if answer.kind in MAIL else "")
    if answer.kind == runs.SENDER_GONE:
        what = f"that {answer.sender} is gone"
    says = f"event {answer.line}: thread {answer.runner} is handed {what}"
    data = dict(data_event=answer.line, data_thread=answer.runner, data_kind=answer.kind, data_sender=answer.sender, data_word=answer.word)
    return group(pieces, "answer", says, **data)


# ---- Above and below the lanes.


def draw_head(plan, column):
    part = plan.part
    refused = part.answers[column.first].refusal != 0
    span = numbers_of(column)
    turn = f"translate({number(column.x + 2)} {number(plan.head - 2)}) rotate(-45)"
    pieces = [
        path(["M", column.x, plan.head + 18, "V", plan.bottom], "grid"),
        text(column.x, plan.head + 13, span, "number bad" if refused else "number"),
        element("text", escaped(head_of(part, column)), transform=turn, **({"class_": "bad"} if refused else {})),
    ]
    says = f"event {span}: " + clipped(" ".join(part.words[column.first]), 200)
    return group(pieces, "head", says, data_first=column.first, data_last=column.last)


def draw_refusal(plan, column, refusals):
    """A badge behind the number, and a band through all lanes, behind everything."""
    number_, x = plan.part.answers[column.first].refusal, column.x
    name, sentence = refusals.get(number_, ("unknown", ""))
    half = 4 + wide(numbers_of(column)) / 2 + 2
    pieces = [
        badge(x, plan.head, half),
        element("rect", x=x - half, y=plan.head + 18, width=2 * half, height=plan.bottom - plan.head - 18, class_="band"),
    ]
    says = f"event {numbers_of(column)} is refused with {number_}, {name}: {sentence}"
    return group(pieces, "refusal", says, data_first=column.first, data_last=column.last, data_refusal=number_)


def draw_node(plan, y):
    """A row for the node: when nobody can run."""
    pieces = [text(EDGE, y + 13, "node")]
    for span in plan.spans(lambda tables: tables.node.status or None):
        word = runs.STATUS_WORDS[span.value]
        shape = element("rect", x=span.begin, y=y, width=span.end - span.begin, height=17, class_=word)
        said = text(span.begin + TEXT, y + 13, word, "in" if word == "idle" else "in stopped")
        pieces.append(group([shape, said], "status", data_status=span.value, data_first=span.first, data_last=span.last))
    return group(pieces, "statuses")


def draw_ticks(plan, y):
    """A scale: a mark for each tick, a longer one for a beat, with its number."""
    ticks = [k for k in events(plan.part) if accepted(plan.part, k, "tick")]
    pieces = [text(EDGE, y + 13, "clock"), path(["M", plan.left, y + 4, "H", plan.right], "scale")]
    return group(pieces + [draw_tick(plan, k, y) for k in ticks], "ticks")


def draw_tick(plan, k, y):
    """In a column of folded ticks each has its place."""
    column, node = plan.column_of[k], plan.part.tables[k].node
    x = column.x + (k - column.first) * column.width / (column.last - column.first + 1)
    if node.beats == plan.part.tables[k - 1].node.beats:
        return group([tick_mark(x, y + 4)], "tick", data_event=k)
    return group([beat_mark(x, y + 4), text(x + 5, y + 21, f"beat {node.beats}")], "tick", data_event=k, data_beat=node.beats)


def draw_interrupts(plan, y):
    pieces = [text(EDGE, y + 13, "devices")]
    for k in events(plan.part):
        if accepted(plan.part, k, "interrupt"):
            devices, waited = served_by(plan.part, k)
            x, said = plan.x_of[k], ",".join(str(device) for device in devices)
            fate = "wakes a thread" if waited else "the word is held"
            marks = [triangle(x, y + 14, "woke" if waited else "held"), text(x + TEXT, y + 14, clipped(said, 7))]
            pieces.append(group(marks, "interrupt", f"event {k}: device {said} interrupts, {fate}", data_event=k, data_device=said))
    return group(pieces, "devices")


def rows_below(plan, y):
    """The rows that the part has something for, and where they end."""
    part, pieces = plan.part, []
    kinds = {part.words[k][0] for k in events(part) if part.answers[k].refusal == 0}
    stopped = any(tables.node.status for tables in part.tables.values())
    for wanted, draw_row in ((stopped, draw_node), ("tick" in kinds, draw_ticks), ("interrupt" in kinds, draw_interrupts)):
        if wanted:
            pieces.append(draw_row(plan, y))
            y += 27
    return pieces, y


# ---- The legend and the list of refusals.


def swatch(state):
    def drawn(x, y):
        box = dict(x=x, y=y - 11, width=24, height=14)
        hatch = element("rect", fill=f"url(#{STATE_CLASS[state]})", **box) if state in HATCHED else ""
        return element("rect", class_="bar " + STATE_CLASS[state], **box) + hatch

    return drawn


def stroke(class_, end):
    return lambda x, y: line(["M", x, y - 4, "H", x + 19], class_) + end(x + 19, y - 4)


def on_scale(mark):
    return lambda x, y: path(["M", x, y - 10, "H", x + 24], "scale") + mark(x + 12, y - 10)


def waiting_sign(x, y):
    return dot(x + 3, y - 6, "message") + line(["M", x, y - 6, "H", x + 18, "V", y], "message waits") + into(x + 18, y + 3, "message")


# What the legend can have: a class that the drawing must have for it, how the sign is drawn, and what it says.
LEGEND = [
    ('data-state="running"', swatch(runs.RUNNING), "runs"),
    ('data-state="ready"', swatch(runs.READY), "ready"),
    ('data-state="receiving"', swatch(runs.RECEIVING), "waits for a message"),
    ('data-state="clock"', swatch(runs.AT_CLOCK), "waits for the clock"),
    ('data-state="device"', swatch(runs.AT_DEVICE), "waits for a device"),
    ('data-state="trapped"', swatch(runs.TRAPPED), "trapped"),
    ('class="creation"', stroke("created", ring), "is made (line: its parent)"),
    ('class="ending"', stroke("ended", lambda x, y: stop(x, y - 7, 14)), "ends (line: who ran)"),
    ('data-kind="1"', waiting_sign, "message: sent, waits, handed over"),
    ('data-discarded="', stroke("message waits", lambda x, y: cross(x, y, "message", 3)), "discarded"),
    ('data-kind="2"', stroke("notice", lambda x, y: dot(x, y, "notice")), "notice of a trap"),
    ('class="decision"', stroke("decision", diamond), "manager's decision"),
    ('data-kind="4"', lambda x, y: sign(runs.RESULT, x + 12, y - 4), "a service's answer"),
    ('data-kind="3"', lambda x, y: sign(runs.SENDER_GONE, x + 12, y - 4), "the awaited sender is gone"),
    ('class="refusal"', lambda x, y: badge(x + 12, y - 13, 9), "refused: nothing changes"),
    ('class="refused"', stroke("refused", lambda x, y: cross(x, y, "refused", 5)), "refused send"),
    ('class="tick"', on_scale(tick_mark), "tick"),
    ('data-beat="', on_scale(beat_mark), "beat"),
    ('class="woke"', lambda x, y: triangle(x + 12, y, "woke"), "interrupt that wakes a thread"),
    ('class="held"', lambda x, y: triangle(x + 12, y, "held"), "interrupt whose word is held"),
]


def draw_legend(plan, drawn, y):
    """Only what the picture has, in as many lines as its width takes."""
    pieces, x = [], EDGE
    for mark, draw, says in LEGEND:
        if mark not in drawn:
            continue
        if x + 32 + wide(says) > min(plan.width, READABLE) - EDGE:
            x, y = EDGE, y + 24
        pieces += [draw(x, y), text(x + 32, y, says)]
        x += 32 + wide(says) + 20
    return group(pieces, "legend"), y + 12


def in_lines(said, most):
    """The words of a sentence in lines of at most so many characters."""
    lines = [""]
    for word in said.split():
        if len(lines[-1]) + 1 + len(word) > most and lines[-1]:
            lines.append("")
        lines[-1] = f"{lines[-1]} {word}".strip()
    return lines


def in_ranges(numbers):
    """Rising numbers, with 'to' for those that follow each other: 1, 4 to 9."""
    ranges = []
    for k in numbers:
        if ranges and ranges[-1][1] == k - 1:
            ranges[-1][1] = k
        else:
            ranges.append([k, k])
    return ", ".join(str(first) if first == last else f"{first}{' to ' if last - first > 1 else ', '}{last}" for first, last in ranges)


def said_of(plan, number_, refusals):
    """The lines for one number of refusal, each with its class: which it is, the events that got it, and what it says."""
    name, sentence = refusals.get(number_, ("unknown", ""))
    refused = [k for k in events(plan.part) if plan.part.answers[k].refusal == number_]
    which = ("event " if len(refused) == 1 else "events ") + in_ranges(refused)
    most = int((min(plan.width, READABLE) - 2 * EDGE) / CHARACTER)
    heads = in_lines(f"refused with {number_}, {name}: {which}", most)
    return [(said, "bad") for said in heads] + [(said, "") for said in in_lines(sentence, most)]


def draw_list(plan, refusals, y):
    pieces = []
    for number_ in sorted({plan.part.answers[k].refusal for k in events(plan.part)} - {0}):
        lines = said_of(plan, number_, refusals)
        said = [text(EDGE, y + LINE * (i + 1), words, class_) for i, (words, class_) in enumerate(lines)]
        pieces.append(group(said, "said", data_refusal=number_))
        y += LINE * len(lines) + 4
    return group(pieces, "refusals") if pieces else "", y


# ---- The whole.

STYLE = """
text { font-family: Helvetica, Arial, sans-serif; font-size: 11px; fill: #222 }
.title { font-size: 16px; font-weight: bold }
.name { font-size: 12px; font-weight: bold }
.again { text-anchor: middle; paint-order: stroke; stroke: #fff; stroke-width: 3px }
.number { text-anchor: middle; font-weight: bold }
.word, .sent { font-weight: bold }
.bad { fill: #b34700; font-weight: bold }
.number.bad, .stopped { fill: #fff }
.grid { stroke: #e3e3e3 }
.away { stroke: #c8c8c8; stroke-dasharray: 1 4 }
.scale, .slash { stroke: #555; fill: none }
.beat { stroke: #222; stroke-width: 2.5 }
.bar { stroke: #fff }
.running { fill: #4fc3a1 }
.ready { fill: #f6ee8c }
.receiving, .clock, .device { fill: #cfe6f5 }
.trapped { fill: #e3b5cf }
.idle { fill: #e6e6e6 }
.halted, .panicked { fill: #444 }
.line { fill: none; stroke-width: 1.8 }
.line.waits { stroke-width: 1.3 }
.cross { fill: none; stroke-width: 2 }
.line.message, .cross.message { stroke: #0072b2 }
.mark.message { fill: #0072b2 }
.sent.message { fill: #005a8c }
.line.notice, .cross.notice { stroke: #8f3d70 }
.line.notice { stroke-dasharray: 4 2 }
.mark.notice { fill: #fff; stroke: #8f3d70; stroke-width: 1.6 }
.sent.notice { fill: #8f3d70 }
.line.decision { stroke: #222; stroke-dasharray: 1.5 2.5 }
.mark.decision { fill: #222 }
.line.refused { stroke: #d55e00; stroke-width: 2.4; stroke-dasharray: 5 3 }
.cross.refused { stroke: #d55e00; stroke-width: 3.2 }
.sent.refused, .missed { fill: #b34700 }
.line.created { stroke: #777; stroke-width: 1.2 }
.mark.created { fill: #fff; stroke: #444; stroke-width: 1.8 }
.line.ended { stroke: #222; stroke-width: 1.2 }
.mark.ended { fill: #222 }
.result { fill: #fff; stroke: #333; stroke-width: 1.3 }
.badge { fill: #d55e00 }
.band { fill: #d55e00; fill-opacity: 0.13 }
.woke { fill: #e69f00; stroke: #7a5500 }
.held { fill: #fff; stroke: #7a5500 }
"""


def hatch(name, inside):
    return element("pattern", inside, id=name, width=6, height=6, patternUnits="userSpaceOnUse")


HATCHES = (
    hatch("receiving", '<circle cx="3" cy="3" r="0.8" fill="#8fb9d6"/>')
    + hatch("clock", '<path d="M3 0V6" stroke="#8fb9d6"/>')
    + hatch("device", '<path d="M-1 1L1 -1M0 6L6 0M5 7L7 5" stroke="#8fb9d6"/>')
    + hatch("trapped", '<path d="M0 0L6 6M0 6L6 0" stroke="#c98bb0" stroke-width="0.8"/>')
)


def draw_crossings(plan):
    """What goes from lane to lane, the more important the later."""
    part, pieces = plan.part, []
    for k in events(part):
        pieces += [draw_created(plan, k, name, parent) for name, parent in created_by(part, k)]
        pieces += [draw_ended(plan, k, name) for name in ended_by(part, k)]
    pieces += [draw_mail(plan, mail) for mail in plan.mails]
    pieces += [draw_send(plan, send) for send in plan.sends]
    return pieces + [draw_answer(plan, part.answers[k]) for k in events(part) if part.answers[k].kind]


def draw(plan, refusals):
    part = plan.part
    pieces = [draw_refusal(plan, column, refusals) for column in plan.columns if part.answers[column.first].refusal]
    pieces += [draw_head(plan, column) for column in plan.columns]
    pieces += [draw_lane(plan, lane) for lane in plan.lanes.values()]
    rows, y = rows_below(plan, plan.bottom + 4)
    pieces += draw_crossings(plan) + rows
    legend, y = draw_legend(plan, "".join(pieces), y + 28)
    said, y = draw_list(plan, refusals, y)
    pieces += [legend, said]
    return whole(pieces + headline(plan), plan, round(y + EDGE))


def events_said(part):
    return f"events {part.first} to {part.last} of {part.total}" if part.total else "no events: how a node starts"


def headline(plan):
    """The title, and which events are shown if not all are, or if there are none."""
    part, pieces = plan.part, []
    if plan.title:
        pieces.append(text(EDGE, EDGE + 14, plan.title, "title"))
    if part.last - part.first + 1 < part.total or not part.total:
        pieces.append(text(EDGE, EDGE + (32 if plan.title else 10), events_said(part)))
    return pieces


def counted(number_, word):
    return f"{number_} {word}" if number_ == 1 else f"{number_} {word}s"


def description(plan):
    """For whoever cannot see the picture."""
    kinds = [mail.kind for mail in plan.mails]
    refused = [k for k in events(plan.part) if plan.part.answers[k].refusal]
    numbers = [counted(len(plan.lanes), "thread"), counted(kinds.count(runs.MESSAGE), "message")]
    numbers += [counted(kinds.count(runs.NOTICE), "notice"), counted(len(refused), "refusal")]
    return f"{events_said(plan.part)}. A lane for each thread, a column for each event: " + ", ".join(numbers) + "."


def whole(pieces, plan, height):
    size = f'width="{plan.width}" height="{height}" viewBox="0 0 {plan.width} {height}"'
    head = f'<svg xmlns="http://www.w3.org/2000/svg" {size} role="img" aria-labelledby="title" aria-describedby="description">'
    title = element("title", escaped(plan.title or events_said(plan.part)), id="title")
    says = element("desc", escaped(description(plan)), id="description")
    paper = element("rect", width=plan.width, height=height, fill="#fff")
    lines = [head, title, says, f"<style>{STYLE}</style>", f"<defs>{HATCHES}</defs>", paper]
    return "\n".join(lines + [piece for piece in pieces if piece] + ["</svg>", ""])
