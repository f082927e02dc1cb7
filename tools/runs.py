"""Runs the programs node, snapshot and inspect, and gives what they print as Python values. tools/explain and tools/picture stand on it.

It knows no rule of the nucleus. What it knows is how events, decisions and tables are written down: the forms and the numbers of
document 01. How an event is written as a line it has from tools/events, what a refusal says from include/nucleus.h.
"""
import functools
import importlib.machinery
import importlib.util
import os
import re
import subprocess
import sys
from collections import namedtuple

from command import Wrong

TOP = os.path.dirname(os.path.dirname(os.path.abspath(__file__)))
HEADER = os.path.join(TOP, "include", "nucleus.h")
PROGRAMS = ("node", "snapshot", "inspect")
# More event bytes than this are not run: answers and events are held whole.
MOST = 1 << 22


# The document's numbers.

ANYBODY = NOBODY = 255
SERVICE = GONE = 254
RUNNING, READY, RECEIVING, AT_CLOCK, AT_DEVICE, TRAPPED = range(6)
NONE, MESSAGE, NOTICE, SENDER_GONE, RESULT = range(5)
STATUS_WORDS = ("running", "idle", "halted", "panicked")
STATE_WORDS = ("running", "ready", "receiving", "at the clock", "at a device", "trapped")
KIND_WORDS = ("nothing", "message", "notice", "sender gone", "service result")
TRAP_WORDS = ("program", "tlb", "sysbp")
DUMP_RULE = 19  # the refusal of a dump that names no field: its offset is 0

# A line of node.
Answer = namedtuple("Answer", "line refusal status runner kind sender word")
# The lines of inspect. `managers` are three numbers, as TRAP_WORDS has them; `answer` is the one that waits, a Due.
Node = namedtuple("Node", "status last runner slice since beats")
Due = namedtuple("Due", "kind sender word")
Thread = namedtuple("Thread", "name parent state detail managers ticks answer")
Message = namedtuple("Message", "receiver sender kind word")
Held = namedtuple("Held", "device word")
# A Node, and tuples: of Threads, of names, of names, of Messages and of Helds.
Tables = namedtuple("Tables", "node threads ready clock messages held")


# Events.


def module_of(path):
    """The Python script there, as a module."""
    sys.dont_write_bytecode = True  # nothing is to be left beside the script
    loader = importlib.machinery.SourceFileLoader(os.path.basename(path), path)
    module = importlib.util.module_from_spec(importlib.util.spec_from_loader(loader.name, loader))
    loader.exec_module(module)
    return module


EVENTS = module_of(os.path.join(TOP, "tools", "events"))
TICK = EVENTS.TICK


def read(path):
    """The bytes of a file, or of standard input for '-'."""
    try:
        with open(0 if path == "-" else path, "rb") as source:
            return source.read()
    except OSError as error:
        raise Wrong(f"cannot read {named(path)}: {error.strerror}") from None


def named(path):
    return "standard input" if path == "-" else path


def is_text(data):
    """Text has no control byte but tab, line feed and return. An event has another: its tag. And it is UTF-8, but for its comments."""
    try:
        re.sub(rb"#.*", b"", data).decode("utf-8")
    except UnicodeDecodeError:
        return False
    return not re.search(rb"[\x00-\x08\x0b\x0c\x0e-\x1f\x7f]", data)


def events_of(path):
    """The event bytes of a file, which has them as bytes or as lines of tools/events."""
    data = read(path)
    if not is_text(data):
        pieces = [(data, 1)]
    else:
        try:
            pieces = EVENTS.fields_of_text(data)
        except Wrong as wrong:
            raise Wrong(f"{named(path)}, {wrong}") from None
    if sum(len(piece) * count for piece, count in pieces) > MOST:
        raise Wrong(f"{named(path)} has more than {MOST} bytes of events, too many to show")
    return b"".join(piece * count for piece, count in pieces)


def cut(data):
    """The fields in their order: tag 1, length 2, value. The last may be cut short."""
    fields, at = [], 0
    while at < len(data):
        end = at + 3 + int.from_bytes(data[at + 1 : at + 3], "big")
        fields.append(data[at:end])
        at = end
    return fields


def written(field):
    """The field as tools/events --back writes it."""
    return EVENTS.line_of(field)


def lack(field):
    """What a field that is cut off lacks; nothing if it is whole."""
    return EVENTS.lack(field)


# The programs.


def begun(command, **more):
    """A command, run to its end."""
    try:
        return subprocess.run(command, **more)
    except OSError as error:
        raise Wrong(f"cannot run {os.path.relpath(command[0], TOP)}: {error.strerror}") from None


def built(name):
    return os.path.join(TOP, "target", "bin", name)


def build():
    """./run --build, whose progress is for whoever waits."""
    if begun([os.path.join(TOP, "run"), "--build"], stdin=subprocess.DEVNULL, stdout=sys.stderr).returncode != 0:
        raise Wrong("the programs could not be built")


@functools.lru_cache(maxsize=None)
def words_before():
    """Sees once to it that the programs are there. Gives what stands before them here: an emulator, or nothing."""
    build()
    for name in PROGRAMS:
        if not os.access(built(name), os.X_OK):
            raise Wrong(f"target/bin/{name} is missing; './run --build' builds it")
    said = begun([os.path.join(TOP, "tests", "with-programs")], stdout=subprocess.PIPE)
    if said.returncode != 0:
        raise Wrong("the programs cannot be run on this processor")
    return said.stdout.decode().splitlines()


def output(name, given):
    """What a program prints. It says something on standard error exactly if it cannot go on."""
    settings = {word: value for word, value in os.environ.items() if not word.startswith("QEMU_")}
    done = begun(words_before() + [built(name)], input=given, stdout=subprocess.PIPE, stderr=subprocess.PIPE, env=settings)
    if done.returncode != 0 or done.stderr:
        said = done.stderr.decode(errors="replace").strip() or f"{name}: ended with status {done.returncode}"
        raise Wrong(said.splitlines()[0])
    return done.stdout


def rows(lines):
    return [tuple(int(word) for word in line.split()) for line in lines]


def answers(data):
    """An Answer for each field, and the last line."""
    lines = output("node", data).decode().splitlines()
    found = [Answer(*row) for row in rows(lines[:-1])]
    if not lines or [answer.line for answer in found] != list(range(1, len(cut(data)) + 1)):
        raise Wrong(f"node gave {len(found)} answers to {len(cut(data))} events")
    return found, lines[-1]


def tables_after(data):
    """The tables after these events."""
    refusal, offset, tables = inspected(output("snapshot", data))
    if tables is None:
        raise Wrong(f"inspect refuses the dump of snapshot: {refusal} at {offset}")
    return tables


def inspected(dump):
    """Refusal, offset, and the Tables of a dump; or None where the bytes are none."""
    (refusal, offset), *fields = rows(output("inspect", dump).decode().splitlines())
    return refusal, offset, None if refusal else tables_of(fields)


def tables_of(fields):
    """From inspect's lines behind the first: the tag of a field, then its values."""
    of = {tag: [values for first, *values in fields if first == tag] for tag in range(1, 7)}
    return Tables(
        node=Node(*of[1][0]),
        threads=tuple(Thread(*row[:4], tuple(row[4:7]), row[7], Due(*row[8:])) for row in of[2]),
        ready=tuple(of[3][0]),
        clock=tuple(of[4][0]),
        messages=tuple(Message(*row) for row in of[5]),
        held=tuple(Held(*row) for row in of[6]),
    )


# Refusals.


@functools.lru_cache(maxsize=None)
def refusals(header=HEADER):
    """The name and the sentence of each refusal by its number, as the header for C says them: 4 is 'no such thread'."""
    text = read(header).decode()
    names = re.search(r"enum nucleus_refusal \{(.*?)\};", text, re.S)[1]
    sentences = dict(re.findall(r'case NUCLEUS_(\w+):\s*return "((?:[^"\\]|\\.)*)";', body_of("nucleus_refusal_sentence", text)))
    numbers = {name: int(number) for name, number in re.findall(r"NUCLEUS_(\w+) = (\d+)", names)}
    return {number: (name.lower().replace("_", " "), sentences.get(name, "")) for name, number in numbers.items()}


def body_of(function, text):
    """A function of the header, up to the brace that ends it at the line's begin."""
    found = re.search(rf"\b{function}\(unsigned \w+\)\s*\{{(.*?)^\}}", text, re.S | re.M)
    if not found:
        raise Wrong(f"include/nucleus.h has no {function}")
    return found[1]
