"""Logs of random runs for `squall audit`, for tools/model: as they are, or with a line changed, left out or moved, or cut off."""
import re

from model_draw import Trial
from model_world import Events
from plain import bound, spans_of
from plain_audit import WholeSteps, judged
from plain_log import Malformed, read_log, read_plan

# How many lines of scenarios the runs take.
EVENTS = [20, 40, 100, 200, 300]
# The causes of refused lines, by what the plain judge says.
CAUSES = {
    "the answer is": "Answer",
    "has not given": "NotGiven",
    "has not reported": "NotReported",
    "no plan names": "NoSuch",
    "not all keys are": "Running",
}
# Words that may come in the place of others.
WORDS = ["new", "again", "held", "behind", "elsewhere", "pending", "moved", "loaded", "done", "opened", "part", "x", "", "0", "2", "end"]


class Written(Events):
    """A world whose nodes write down what they do."""

    def __init__(self, draw):
        self.logs = {}
        super().__init__(draw)
        self.plans = [line.split(" ", 1)[1] for line, _ in self.lines[:2]]
        self.lines.ask = self.note

    def note(self, line, answer):
        """The line of a scenario was so answered: its node writes that down, if it was not refused."""
        words, said = line.split(), answer.split()
        if said[0] != "no" and (words[0] in WRITE or words[0] == "deliver"):
            self.lines.append((line, [answer]))
            if words[0] == "deliver":
                self.heard(words[2], self.world.messages[int(words[1])])
            else:
                self.write(*WRITE[words[0]](self.world, line, words, said))

    def write(self, node, line):
        """The node writes a line."""
        self.logs.setdefault(node, []).append(line)

    def heard(self, node, facts):
        """The node writes the reports of a message."""
        for number, pairs in facts.issued.items():
            for pair in pairs:
                self.write(node, f"heard issued {number} {' '.join(self.draw.text(self.draw.entries(it)) for it in pair)}")
        for number, count in facts.opened.items():
            self.write(node, f"heard opened {number} {count - 1}")
        for cell, places in facts.loaded.items():
            for lo, hi in spans_of(places):
                self.write(node, f"heard loaded {' '.join(map(str, cell))} {bound(lo)} {bound(hi)}")
        for cell in sorted(facts.done):
            self.write(node, f"heard done {' '.join(map(str, cell))}")


def begin(world, line, words, said):
    """The leader began a course: its plans are what follows the first word."""
    return "l", f"{words[0]} {said[1]} {said[2]} {line.split(' ', 1)[1]}"


def give(world, line, words, said):
    """A partition gave a chunk, the last one."""
    number, sub, source, dest, lo, hi = world.chunks[-1]
    return f"p{source}", f"give {bound(lo)} {bound(hi)} to {dest} course {number} sub {sub}"


def load(world, line, words, said):
    """A chunk came to its destination."""
    number, sub, source, dest, lo, hi = world.chunks[int(words[1])]
    how = "again" if said == ["again"] else "new"
    return f"p{dest}", f"load {bound(lo)} {bound(hi)} from {source} course {number} sub {sub} {how}"


def finish(world, line, words, said):
    """A partition reported that it has all of a sub-plan."""
    return f"p{words[1]}", f"done {world.newest('p' + words[1]).number} {words[2]}"


def serve(world, line, words, said):
    """A partition replied for a key."""
    return f"p{words[1]}", f"serve {words[2]} after {words[3] if len(words) > 3 else 0} {' '.join(said)}"


# The node and the line that it writes, by the first word of a scenario's line.
WRITE = {
    "open": lambda world, line, words, said: ("l", f"open {said[1]}"),
    "begin": begin,
    "begin-from": begin,
    "give": give,
    "giveat": give,
    "load": load,
    "finish": finish,
    "close": lambda world, line, words, said: (f"p{words[1]}", f"close {said[1]}"),
    "route": lambda world, line, words, said: (f"r{words[1]}", f"route {words[2]} {said[2]}"),
    "serve": serve,
}


def changed(draw, lines):
    """The lines with one change, mostly late."""
    at = max(0, len(lines) - 1 - draw.randrange(12)) if draw.randrange(2) else draw.randrange(len(lines))
    before, line, behind = lines[:at], lines[at], lines[at + 1 :]
    kind = draw.randrange(5)
    if kind == 0:
        return before
    if kind == 1:
        return before + behind
    if kind == 2:
        return before + behind[:1] + [line] + behind[1:]
    if kind == 3:
        return before + [draw.choice(lines)] + behind
    return before + [spoilt(draw, line)] + behind


def spoilt(draw, line):
    """The line with a word or a number changed, none of a plan's text."""
    end = line.index("{") if "{" in line else len(line)
    spots = [it for it in re.finditer(r"\d+|[a-z-]+", line) if it.start() < end]
    spot = draw.choice(spots[1:] or spots)
    word = spot[0]
    other = str(max(0, int(word) + draw.choice([-1, 1, 1]))) if word.isdigit() and draw.randrange(4) else draw.choice(WORDS)
    return line[: spot.start()] + other + line[spot.end() :]


def told(draw, node, lines):
    """The text of a node's log, with remarks here and there."""
    name = "node leader" if node == "l" else f"node {'part' if node[0] == 'p' else 'router'} {node[1:]}"
    kinds = ["# remark", " ", *(["forget 0:1 0:2 to 1 course 1"] if node[0] == "p" else [])]
    remarks = lambda: [draw.choice(kinds)] if not draw.randrange(40) else []
    return "".join(f"{it}\n" for it in [name, *(it for line in lines for it in [*remarks(), line])])


def events_of(log):
    """The log without the lines that `squall audit` passes over."""
    return log._replace(lines=[it for it in log.lines if not it.form.startswith("forget")])


def in_a_word(line):
    """The line of the verdict with its cause in a word, as `squall audit` says it."""
    head, _, why = line.partition(": ")
    cause = next((word for text, word in CAUSES.items() if text in why), None)
    return f"{head} {cause}" if cause else head


def audit(draw):
    """Logs of a run, most of them changed, and the verdict of the plain judge."""
    run, count = Written(draw), draw.choice(EVENTS)
    while len(run.lines) < count:
        if draw.randrange(12):
            run.drawn()
        else:
            run.drive()
            run.ask_all()
    logs = run.logs
    changes = draw.randrange(4) if logs else 0
    for _ in range(changes):
        node = draw.choice([it for it in sorted(logs) if logs[it]] or ["l"])
        logs[node] = changed(draw, logs.get(node) or ["open 0"])
    if not draw.randrange(4):
        logs.setdefault(f"p{draw.randrange(9)}", [])
    order = draw.sample(sorted(logs), len(logs))
    files = {f"{node}.log": told(draw, node, logs[node]) for node in order}
    try:
        is_accepted, lines = judged(*map(read_plan, run.plans), [events_of(read_log(*it)) for it in files.items()], WholeSteps)
    except Malformed as fault:
        is_accepted, lines = False, [f"bad {str(fault).split(':', maxsplit=1)[0]}"]
    if not changes and not is_accepted:
        raise AssertionError(f"the logs of a run are refused: {lines}")
    data = {name: text.encode() for name, text in files.items()}
    plans = {"old.json": run.plans[0].encode(), "new.json": run.plans[1].encode()}
    out = "".join(f"{in_a_word(line)}\n" for line in lines)
    return Trial(["audit", *plans, *data], b"", out.encode(), status=int(not is_accepted), files={**plans, **data})
