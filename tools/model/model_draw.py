"""Random inputs of tools/model, but for worlds (model_world.py) and files (model_files.py).

An input is a trial: the words, what the program reads, and what it has to write by plain.py.
"""
import json
import random
from dataclasses import dataclass, field

from plain import PLACES, Course, Facts, Feed, bound, rank, runs, span
from plain_json import object_of

TAIL = PLACES - 1


@dataclass
class Trial:
    """The words, standard input and files of a run, and its output, errors and status. If the input consists of lines,
    `lines` has each of them with its answers."""

    words: list
    text: bytes
    out: bytes
    err: bytes = b""
    status: int = 0
    files: dict = field(default_factory=dict)
    lines: list = field(default_factory=list)

    @staticmethod
    def of(words, lines, files=None):
        """The trial of an input of lines, of which a line that is nothing is the end of the input."""
        text = "".join(f"{line}\n" for line, _ in lines if line is not None)
        told = [answer for _, answers in lines for answer in answers]
        out = "".join(f"{it}\n" for it in told)
        status = int(any(it.startswith("refused") for it in told))
        data = text.encode(errors="surrogateescape")
        return Trial(words, data, out.encode(), status=status, files=files or {}, lines=lines)


class Draw(random.Random):
    """What is drawn at random."""

    def plan(self, parts, tail=None):
        """A plan of up to ten ranges; the tail is that partition's if one is said."""
        cuts = sorted(self.sample(range(1, PLACES), self.randrange(10)))
        owners = [part for lo, hi in zip([0, *cuts], [*cuts, PLACES]) for part in [self.randrange(parts)] * (hi - lo)]
        return tuple(owners if tail is None else [*owners[:TAIL], tail])

    def entries(self, plan):
        """Entries that give a plan, some ranges in two pieces, in any order."""
        cuts = set(self.sample(range(1, PLACES), 3))
        pieces = runs([(part, sum(cut <= at for cut in cuts)) for at, part in enumerate(plan)])
        return self.sample([(part, lo, hi) for lo, hi, (part, _) in pieces], len(pieces))

    def text(self, entries):
        """The text of a plan of these entries, on one line."""
        to = lambda hi: "end" if hi == PLACES and self.random() < 0.8 else self.pair(hi)
        told = [{"part": part, "from": self.pair(lo), "to": to(hi)} for part, lo, hi in entries]
        return json.dumps({"plan": told}, separators=self.choice([(",", ":"), (", ", ": ")]))

    def pair(self, place):
        return [4294967295, 0] if place == PLACES else [0, place]

    def key(self, place):
        """The text of a key of the place."""
        others = ["0:40", "0:4294967295", "7:3", "4294967294:4294967295"]
        return self.choice(others) if place == TAIL else f"0:{place}"

    def span(self):
        lo, hi = sorted(self.sample(range(PLACES + 1), 2))
        return lo, min(hi, lo + 9) if self.random() < 0.8 else hi

    def report(self, facts, plans):
        """A report, which the facts take: its line."""
        number = self.choice([1, 1, 1, 2, 3, 4])
        sub, part = self.randrange(3), self.randrange(4)
        kind = self.choice(["loaded"] * 5 + ["done", "opened", "issued" if plans else "loaded"])
        if kind == "loaded":
            lo, hi = self.span()
            facts.load((number, sub, part), range(lo, hi))
            return f"loaded {number} {sub} {part} {bound(lo)} {bound(hi)}"
        if kind == "done":
            facts.done.add((number, sub, part))
            return f"done {number} {sub} {part}"
        if kind == "opened":
            facts.open(number, sub)
            return f"opened {number} {sub}"
        new = self.choice(plans)
        facts.issue(number, plans[0], new)
        return f"issued {number} {self.text(self.entries(new))}"

    def spoilt(self, frame):
        """The frame with a byte changed, cut out or put in, mostly among the first."""
        at = self.randrange(min(len(frame), self.choice([8, 48, 1000])))
        byte = bytes([self.choice([0, 1, 2, 255, self.randrange(256)])])
        return frame[:at] + self.choice([byte, b"", byte + frame[at:at + 1]]) + frame[at + 1:]


class Lines(list):
    """The lines of an input, each with what it answers."""

    def ask(self, line, *answers):
        self.append((line, answers))

    def begin(self, draw, old, new):
        for word, plan in (("old", old), ("new", new)):
            self.ask(f"{word} {draw.text(draw.entries(plan))}", f"{word} {len(runs(plan))}")
        return Course(1, old, new)


def scenario(draw):
    """Reports and frames, as they come to one router, and what it answers."""
    lines, facts, feed = Lines(), Facts(), Feed()
    old = draw.plan(4)
    plans = [draw.plan(4) for _ in range(3)]
    first = lines.begin(draw, old, plans[0])
    stream = b""
    for _ in range(draw.randrange(60)):
        if draw.random() < 0.6:
            lines.ask(draw.report(facts, plans), "taken")
        else:
            other = Facts()
            for _ in range(draw.randrange(6)):
                draw.report(other, plans)
            stream += draw.choice([other.frame, other.frame, other.digest_frame])()
        while stream and draw.random() < 0.7:
            stream = hear(draw, lines, facts, feed, stream)
        show(draw, lines, facts, first)
    return Trial.of([], lines)


def frame(draw):
    """A frame that is spoilt, and what follows it."""
    lines, facts, feed = Lines(), Facts(), Feed()
    plans = [draw.plan(4) for _ in range(2)]
    lines.begin(draw, *plans)
    for _ in range(draw.randrange(6)):
        draw.report(facts, plans)
    hear(draw, lines, facts, feed, draw.spoilt(draw.choice([facts.frame, facts.digest_frame])()), 1000)
    lines.ask("hear 53", *heard_lines(feed, b"S"))
    return Trial.of([], lines)


def hear(draw, lines, facts, feed, stream, least=1):
    """The feed takes a piece of the stream, and the facts what it brings; what is left."""
    cut = min(len(stream), draw.randint(least, max(least, 60)))
    text = stream[:cut].hex()
    lines.ask(f"hear {draw.choice([text, text.upper()])}", *heard_lines(feed, stream[:cut], facts))
    return stream[cut:]


def heard_lines(feed, piece, facts=None):
    if feed.failed:
        return ["no Failed"]
    heard, fault = feed.push(piece)
    for kind, told in heard:
        if kind == "delta" and facts:
            facts.join(told)
    shown = [f"heard {kind}" for kind, _ in heard] + ([f"fault {fault}"] if fault else [])
    return shown or ["heard nothing"]


def show(draw, lines, facts, first):
    """Asks for something that depends on what was told."""
    routes = facts.routes(first)
    kind = draw.randrange(4)
    if kind == 0:
        lines.ask("board", *facts.lines())
    elif kind == 1:
        lines.ask("frame", f"frame {facts.frame().hex()}")
    elif kind == 2:
        lo, hi = sorted(draw.sample(range(PLACES + 1), 2))
        legs = [f"leg {span(lo + at, lo + end)} {part}" for at, end, part in runs(routes[lo:hi])]
        lines.ask(f"legs {bound(lo)} {bound(hi)}", *legs)
    else:
        for place, part in enumerate(routes):
            key = draw.key(place)
            lines.ask(f"route {key}", f"route {key} {part}")


def race(draw):
    """A race: what its lines come to, whatever the schedule of its threads."""
    lines, facts = Lines(), Facts()
    first = lines.begin(draw, draw.plan(4), draw.plan(4))
    senders = draw.randint(1, 8)
    for word, number in (("senders", senders), ("capacity", draw.randint(1, 4)), ("readers", draw.randrange(4))):
        lines.ask(f"{word} {number}")
    for _ in range(draw.randrange(60)):
        lines.ask(f"{draw.randrange(senders)} {draw.report(facts, [])}")
    keys = [(place, draw.key(place)) for place in draw.sample(range(PLACES), 6)]
    for _, key in keys:
        lines.ask(f"key {key}")
    routes = facts.routes(first)
    told = [*facts.lines(), *(f"route {key} {routes[place]}" for place, key in keys)]
    return Trial.of(["race", "-"], [*((line, ()) for line, _ in lines), (None, told)])


def in_a_form(draw, trial):
    """The trial, in one of three cases with the answer as JSON."""
    if not draw.randrange(3):
        command, *words = trial.words
        trial.words = [command, "--json", *words]
        trial.out, trial.lines = f"{object_of(command, trial.out.decode().splitlines())}\n".encode(), []
    return trial


def plan(draw):
    """The text of a plan, or of entries that overlap, leave a gap, or are no ranges."""
    entries = draw.entries(draw.plan(4))
    for _ in range(draw.randrange(3)):
        at = draw.randrange(len(entries))
        part, lo, hi = entries[at]
        entries[at] = draw.choice([(part, lo, draw.randrange(PLACES + 1)), (draw.choice([9999, 10000]), lo, hi)])
    return in_a_form(draw, Trial.of(["check", "-"], [(draw.text(entries), judged(entries))]))


def judged(entries):
    """What `squall check` writes for the entries."""
    faults = [f"BadPart {at}" for at, (part, _, _) in enumerate(entries) if part > 9999]
    faults += [f"EmptyRange {at}" for at, (_, lo, hi) in enumerate(entries) if rank(lo) >= rank(hi)]
    owners = [[part for part, lo, hi in entries if lo <= place < hi] for place in range(PLACES)]
    faults += [f"Overlap {bound(place)}" for place, found in enumerate(owners) if len(found) > 1]
    faults += [f"Gap {bound(place)}" for place, found in enumerate(owners) if not found]
    if faults:
        return [f"refused {faults[0]}"]
    ranges = runs(part for part, in owners)
    return [*(f"range {part} {span(lo, hi)}" for lo, hi, part in ranges), f"plan {len(ranges)}"]


def course(draw):
    """What moves between two plans."""
    old, new = draw.plan(5), draw.plan(5)
    text = draw.text(draw.entries(new))
    files = {"old.json": draw.text(draw.entries(old)).encode()}
    return in_a_form(draw, Trial.of(["course", "old.json", "-"], [(text, Course(1, old, new).lines())], files))
