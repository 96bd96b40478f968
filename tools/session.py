"""What happened in a session at the console, from its steps and their answers: tools/picture draws it, tools/beside prints it."""
import os
import re
import subprocess
import sys
from itertools import groupby
from pathlib import Path

from alarms import Alarms, named
from sources import sources
from ssi import CODES, DATA, reads_of

ROOT = Path(__file__).resolve().parent.parent

FIELDS = ("VOFFS", "IOFFS", "VGAIN", "IGAIN", "PHASE", "IRMSOFFS", "SQUELCH", "POFFS")
REGISTERS = {0x2B: "VA_RMS", 0x3E: "IA_RMS", 0x46: "IA_PEAK", 0x4B: "WATT_A", 0x4E: "VA_A", 0x65: "PFA", 0x8B: "IA_CREST",
             0x8F: "PA_POS_CNT", 0x92: "PA_NEG_CNT", 0x3F: "IB_RMS", 0x47: "IB_PEAK", 0x4C: "WATT_B", 0x4F: "VA_B", 0x66: "PFB",
             0x8C: "IB_CREST", 0x95: "PB_POS_CNT", 0x98: "PB_NEG_CNT", **{0x71 + k: f"MIN{k + 1}" for k in range(6)},
             **{0x77 + k: f"MAX{k + 1}" for k in range(6)}}
FIELD_NAMES = {name: k for k, name in enumerate(FIELDS, 1)}
WORDS = {name: word for word, name in REGISTERS.items()}
BYTES = {name: 3 * word for word, name in REGISTERS.items()}
COUNTS = ("PA_POS_CNT", "PA_NEG_CNT", "PB_POS_CNT", "PB_NEG_CNT")     # never below 0, where every other register has a sign
STEPS = ("start", "open", "write", "commit", "drop", "hold", "read", "poll", "block", "reset", "cards")
NO_PORT = ("start", "poll", "block", "reset", "cards")
LANES = {"module": "the module", "fitter 0": "fitter, port 0", "fitter 1": "fitter, port 1",
         "reader 0": "reader, port 0", "reader 1": "reader, port 1"}
# A colour for lines and text, and a light one for areas; cards take them in turn.
COLOURS = (("#1f5f9e", "#dcebf8"), ("#b4570b", "#fce8d2"), ("#2c7a3d", "#def2df"), ("#7b3fa0", "#efe2f6"), ("#0b7a7a", "#d8f1f0"),
           ("#a3294e", "#fae0e8"), ("#6b6311", "#f3f0cf"))
NO_CARD = ("#555555", "#eeeeee")
INK, FAINT, RED = "#22262b", "#8a9099", "#c0151b"


class Wrong(Exception):
    """Script and answers that do not fit each other."""


def number(word, names=()):
    """What a word of an accepted line is worth; a name of `names` is worth its place there."""
    if word in names:
        return names[word]
    found = re.fullmatch(r"(-?)0*([0-9]+)|0x([0-9a-fA-F]+)", word)
    if not found:
        raise Wrong(f"{word[:40]!r} is no number that can be drawn")
    return int(found[3], 16) if found[3] else int(found[1] + found[2])


def corrected(raw, offset, gain):
    """A sample as a card makes it, before clipping."""
    return (raw - offset) * gain >> 21


def clipped(value):
    return max(-2**23, min(2**23 - 1, value))


def outside(raws, offset, gain):
    """How many of the samples are outside the 24-bit range before clipping."""
    return sum(value != clipped(value) for value in (corrected(raw, offset, gain) for raw in raws))


def several(count, what):
    return f"{count:,} {what}{'' if count == 1 else 's'}"


def polled(packet, reply):
    """The registers of a reply with data, by name and with their values: those that the packet reads."""
    names = [REGISTERS[byte // 3] for byte in reads_of(packet)]
    if len(reply) != 3 * len(names) + 3:
        raise Wrong(f"the packet reads {several(len(names), 'register')}")
    return [(name, int.from_bytes(reply[2 + 3 * k:5 + 3 * k], "little", signed=name not in COUNTS)) for k, name in enumerate(names)]


class Card:
    """A card of a session: its fields, those that are not told yet, where it was committed and from which sample on it counts."""

    def __init__(self, serial, port):
        self.serial, self.port, self.fields, self.unsaid = serial, port, {}, {}
        self.committed = self.first = None
        self.end, self.colour, self.name = "still open", NO_CARD, serial


class Box:
    """Steps at one place and lane: lines of text with a colour each; a line may be a function, worked when all is known. Its own colour
    is that of the card that it is about. In a box that is full no other step is told."""

    def __init__(self, lane, at):
        self.lane, self.at, self.lines, self.card, self.full = lane, at, [], None, False

    @property
    def colour(self):
        return self.card.colour if self.card else NO_CARD

    def text(self):
        return [(line() if callable(line) else line, colour) for line, colour in self.lines]


class Session:
    """What happened, from the steps and their answers."""

    def __init__(self, steps):
        self.volts, self.s1, self.s3 = [], [], []
        self.intervals, self.all_cards, self.boxes, self.starts = [], [], [], []
        self.alarmed = []       # for each sample, the alarms that the half cycle gives after it and those that are set
        self.resets = []        # where alarms were cleared, and which
        self.levels = False     # whether a start had a level
        self.running = None     # where the interval that runs began
        self.desks = {}
        self.begin(1, 0)
        for line, answer in steps:
            self.line, self.answer, self.ok = line, answer, answer.split(" ")[0] == "ok"
            words = line.split(" ")
            if answer.startswith("UNREAD"):
                self.say_no("module", line[:28])
            elif words[0] in STEPS:
                ports = [] if words[0] in NO_PORT else [number(words[1])]
                getattr(self, words[0])(*ports, *words[1 + len(ports):])
        self.begin(1, len(self.volts))

    def begin(self, n, at, *settings):
        """A fresh module; an interval that runs is cut off."""
        if self.running is not None:
            self.intervals.append((self.running, at, None, self.force))
        self.say_written()
        self.n, self.origin, self.since = n, at, len(self.boxes)
        self.waiting = self.force = self.running = None
        self.count, self.desks, self.held, self.closed, self.alarms = 0, {}, {}, None, Alarms(*settings)

    def last_box(self, lane):
        """The lane's last box, if it stands where the session is now."""
        last = next((box for box in reversed(self.boxes[self.since:]) if box.lane == lane), None)
        return last if last and last.at == len(self.volts) else None

    def say(self, lane, line, colour=INK, card=None):
        """Tells a line in the lane's box at this place; with a card, in one that is about that card."""
        lane = lane if lane in LANES else "module"      # there is no other port
        box = self.last_box(lane)
        if box is None or box.full or (card and box.card not in (None, card)):
            box = Box(lane, len(self.volts))
            self.boxes.append(box)
        box.card = card or box.card
        box.lines.append((line, colour))
        return box

    def say_no(self, lane, said):
        """The answer's word and number, and its reason on a line of its own."""
        no, colon, why = self.answer.partition(":")
        self.say(lane, f"{said}: {no}{colon}", RED)
        if why:
            self.say(lane, why.strip(), RED)

    def refused(self, lane, said):
        if not self.ok:
            self.say_written(lane)
            self.say_no(lane, said)
        return not self.ok

    def start(self, n, bucket, *items):
        at, slots, settings, config = len(self.volts), items[:6], items[6:10], items[10:] or ("0",)
        if self.refused("module", "start"):
            return
        self.starts.append(at)
        self.begin(number(n), at, *map(number, settings))
        self.say("module", f"start: {number(n):,} samples an interval")
        self.say("module", f"bucket {number(bucket):,}")
        tracked = [f"{k + 1} {REGISTERS[number(word, WORDS)]}" for k, word in enumerate(slots) if number(word, WORDS)]
        self.say("module", f"tracks in slot {', '.join(tracked)}" if tracked else "no slot tracks")
        self.say("module", sources(*map(number, config)))
        self.levels = self.levels or self.alarms.on
        for line in self.alarms.levels():
            self.say("module", line)

    def open(self, port, *text):
        lane, serial = f"fitter {port}", " ".join(text)
        if not self.refused(lane, f"open {serial}"):
            if self.last_box(lane):
                self.last_box(lane).full = True
            self.desks[port] = card = Card(serial, port)
            self.say(lane, f"card {serial} is begun", INK, card)

    def write(self, port, field, value):
        field = number(field, FIELD_NAMES)
        name = FIELDS[field - 1] if 1 <= field <= 8 else f"field {field}"
        if self.refused(f"fitter {port}", f"{name} {number(value):,}"):
            return
        card = self.desks[port]
        card.fields[field] = card.unsaid[field] = number(value)

    def say_written(self, *lanes):
        """Tells the fields that were written since they were last told, in these lanes or in all."""
        for lane, card in ((f"fitter {port}", card) for port, card in self.desks.items()):
            if lanes and lane not in lanes:
                continue
            for field, value in sorted(card.unsaid.items()):
                if value:
                    times = f" (times {value / 2**21:.6g})" if field in (3, 4) else ""
                    self.say(lane, f"{FIELDS[field - 1]} {value:,}{times}", INK, card)
            zero = [FIELDS[field - 1] for field, value in sorted(card.unsaid.items()) if value == 0]
            if zero:
                names = ", ".join(zero) if len(zero) < 4 else f"{len(zero)} fields"
                self.say(lane, f"the other {len(zero)} fields 0" if len(card.unsaid) == 8 else f"{names} 0", INK, card)
            card.unsaid = {}

    def commit(self, port):
        lane = f"fitter {port}"
        if self.refused(lane, "commit"):
            return
        self.say_written(lane)
        card = self.desks.pop(port)
        if self.waiting:
            self.waiting.end = "replaced before any sample"
        self.waiting, card.committed, card.end = card, len(self.volts), "waits to the end"
        self.all_cards.append(card)
        self.say(lane, lambda: f"committed, {card.end}", INK, card).full = True

    def drop(self, port):
        lane = f"fitter {port}"
        if not self.refused(lane, "drop"):
            self.say_written(lane)
            self.say(lane, "dropped", INK, self.desks.pop(port)).full = True

    def block(self, *words):
        sides = [side.split() for side in " ".join(words).split("|")]
        if self.refused("module", f"block of {len(sides[0])}"):
            return
        self.say_written()
        for sample in zip(*sides, strict=True):
            self.sample(*map(number, sample))

    def sample(self, volts, s1, s3):
        if self.running is None:
            self.first_sample()
        self.volts.append(volts)
        self.s1.append(s1)
        self.s3.append(s3)
        self.alarms.sample(clipped(corrected(volts, self.force.fields[1], self.force.fields[3])))
        self.alarmed.append((self.alarms.met, self.alarms.set))
        if len(self.volts) - self.running == self.n:
            self.count += 1
            self.closed = (self.running, len(self.volts), self.count, self.force)
            self.intervals.append(self.closed)
            self.running = None

    def first_sample(self):
        self.running = at = len(self.volts)
        if self.waiting:
            self.force, self.waiting = self.waiting, None
            same = sum(card.serial == self.force.serial and card.first is not None for card in self.all_cards)
            self.force.first, self.force.end = at, f"counts from sample {at - self.origin + 1} on"
            self.force.colour = COLOURS[sum(card.first is not None for card in self.all_cards[:-1]) % len(COLOURS)]
            self.force.name += f" (no. {same + 1})" if same else ""

    def reset(self, mask):
        if self.refused("module", f"reset {mask[:28]}"):
            return
        mask = number(mask)
        self.resets.append((len(self.volts), self.alarms.set & mask))
        self.alarms.reset(mask)
        self.say("module", f"reset: {named(mask)}")

    def cards(self):
        force, waiting = (card.serial if card else "-" for card in (self.force, self.waiting))
        if self.answer != f"ok {force} {waiting}":
            raise Wrong(f"{self.line}: answered {self.answer!r}, but by the steps before it that is {force} in force and {waiting} waiting")
        force, waiting = (serial.replace("-", "none") for serial in (force, waiting))
        self.say("module", f"cards: {force} in force, {waiting} waits")

    def last_closed(self):
        if not self.closed:
            raise Wrong(f"{self.line}: answered {self.answer!r}, but by the steps before it no interval has closed")
        return self.closed

    def hold(self, port):
        if self.refused(f"reader {port}", "hold"):
            return
        first, end, count, card = self.last_closed()
        voltages = outside(self.volts[first:end], card.fields[1], card.fields[3])
        s1, s3 = (outside(raws[first:end], card.fields[2], card.fields[4]) for raws in (self.s1, self.s3))
        counts = f"{several(voltages, 'voltage')}, {s1:,} of S1, {s3:,} of S3"
        if self.answer != f"ok {count} {card.serial} {voltages} {s1} {s3} {self.alarms.answer()}":
            raise Wrong(f"{self.line}: answered {self.answer!r}, but by the steps before it the last interval is {count} with card "
                        f"{card.serial}, clipped: {counts}; alarms set: {named(self.alarms.set)}")
        self.held[port] = self.closed
        self.say(f"reader {port}", f"hold: interval {count}, card {card.serial}", card.colour[0], card)
        if voltages or s1 or s3:
            self.say(f"reader {port}", f"clipped: {counts}", INK, card)
        if self.alarms.on:
            self.say(f"reader {port}", f"set at the hold: {named(self.alarms.set)}", INK, card)

    def read(self, port, address):
        lane = f"reader {port}"
        byte = number(address, BYTES)
        name = REGISTERS.get(byte // 3, address) if byte % 3 == 0 else address
        if self.refused(lane, f"read {name}"):
            return
        _, _, count, card = self.held[port]
        box = self.last_box(lane)
        if box is None or box.card is not card:
            self.say(lane, f"still holds interval {count}", card.colour[0], card)
        self.say(lane, f"{name} {int(self.answer.split(' ')[1]):,}", INK, card)

    def poll(self, _, *packet):
        """A packet that reads registers is a hold at port 1 and its reads (document 02, A4); any other changes nothing."""
        if self.refused("reader 1", "poll"):
            return
        reply = bytes.fromhex(self.answer.removeprefix("ok"))
        if reply[:1] != bytes([DATA]):
            self.say("reader 1", f"poll: {CODES[reply[0]] if reply else 'no reply'}")
            return
        _, _, count, card = self.held[1] = self.last_closed()
        try:
            registers = polled(bytes.fromhex("".join(packet)), reply)
        except Wrong as why:
            raise Wrong(f"{self.line[:80]}: answered {self.answer[:80]!r}, but {why}") from why
        self.say("reader 1", f"poll: interval {count}, card {card.serial}", card.colour[0], card)
        for name, value in registers:
            self.say("reader 1", f"{name} {value:,}", INK, card)


def pairs_of(script, answers):
    """Each line of the script with the lines of its answer: of `help` those that begin with #, of a line with no answer none."""
    lines = [line.removesuffix("\r") for line in script.removesuffix("\n").split("\n")]
    asked, given = [line for line in lines if line and not line.startswith("#")], answers.split("\n")[:-1]
    wrong = Wrong(f"{len(asked)} steps and {len(given)} lines of answers, which do not fit each other")
    asked = [(helps, list(some)) for helps, some in groupby(asked, lambda line: line == "help")]
    given = [(helps, list(some)) for helps, some in groupby(given, lambda said: said.startswith("#"))]
    if [helps for helps, _ in asked] != [helps for helps, _ in given]:
        raise wrong
    told = []
    for (helps, some), (_, said) in zip(asked, given):
        each, rest = divmod(len(said), len(some))
        if rest or not each or (each > 1 and not helps):
            raise wrong
        told += [said[k:k + each] for k in range(0, len(said), each)]
    told = iter(told)
    return [(line, next(told) if line and not line.startswith("#") else []) for line in lines]


def steps_of(pairs):
    """Each step with its answer; `help` is left out."""
    return [(line, said[0]) for line, said in pairs if said and line != "help"]


def add_arguments(parser):
    """A script, and where its answers come from."""
    parser.add_argument("script", type=Path, help="steps for the console, a line each")
    parser.add_argument("--answers", type=Path, metavar="FILE", help="take the answers from FILE")
    parser.add_argument("--console", nargs="+", metavar="PROGRAM", default=[ROOT / "run", "console"],
                        help="take the answers from PROGRAM (./run console)")


def pairs_asked(arguments):
    """The script's lines with their answers, as the arguments ask."""
    if arguments.answers:
        answers = arguments.answers.read_bytes()
    else:
        with arguments.script.open("rb") as given:
            answers = subprocess.run(arguments.console, stdin=given, stdout=subprocess.PIPE, check=True).stdout
    return pairs_of(arguments.script.read_bytes().decode("latin-1"), answers.decode("latin-1"))


def written(tool, text):
    """Writes to standard output; 0, or 2 where that cannot be."""
    try:
        sys.stdout.buffer.write(text.encode())
        sys.stdout.buffer.flush()
        return 0
    except OSError as error:
        print(f"{tool}: standard output: {error.strerror}", file=sys.stderr)
        os.dup2(os.open(os.devnull, os.O_WRONLY), sys.stdout.fileno())      # for what is left in the buffer
        return 2


def session_of(steps):
    """The session, where the answers fit the steps."""
    try:
        return Session(steps)
    except (LookupError, AttributeError, TypeError, ValueError, StopIteration) as error:
        raise Wrong(f"the answers do not fit the steps ({error!r})") from error
