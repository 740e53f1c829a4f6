"""Judges logs of what nodes did, as docs/AUDIT.md says: whether a run of the world has them.

The world and its steps are those of plain_world.py. Its places are the longest spans of keys that no line tells apart. A step on a span
is done place by place: the keys of a line may be given in one chunk or in several, and so they may be loaded.
"""
from __future__ import annotations

from bisect import bisect_left, bisect_right

from plain import Facts
from plain_frames import TOP
from plain_log import Line, Log, Plan, bounds_of
from plain_world import Refused, World

# A chunk of one place: its course, sub-plan, source, destination and place.
Chunk = tuple[int, int, int, int, int]


class NotYet(Exception):
    """What a line waits for, which other nodes may still do."""


class Wrong(Exception):
    """Why a line never comes: the node does something else then."""


class Places:
    """Which keys are one place: ranks cut them."""

    def __init__(self, ranks: set[int]) -> None:
        self.cuts = sorted({0, TOP, *ranks})

    def within(self, line: Line) -> range:
        """The places of the span of a line."""
        return range(bisect_left(self.cuts, line.number("LO")), bisect_left(self.cuts, line.number("HI")))

    def at(self, key: int) -> int:
        """The place of a key."""
        return bisect_right(self.cuts, key) - 1

    def owners(self, plan: Plan) -> tuple[int, ...]:
        """The partition of each place."""
        ends = [end for end, _ in plan]
        return tuple(plan[bisect_right(ends, lo)][1] for lo in self.cuts[:-1])


class Steps:
    """A world, in which lines happen. What is asked of it that has not happened raises NotYet, or Refused with the world's own word."""

    def __init__(self, old: Plan, new: Plan, routers: int, places: Places) -> None:
        self.places = places
        self.world = World(places.owners(old), places.owners(new), routers)
        self.chunks: dict[Chunk, int] = {}
        self.whole: dict[tuple[int, int, int, int, range], int] = {}

    def happen(self, node: str, line: Line) -> None:
        """The node does what the line says."""
        if node not in self.world.facts:
            raise NotYet(f"no plan names partition {node[1:]}")
        kind = line.form.split(" ", 1)[0]
        if kind == "heard":
            self.hear(node, line)
        elif node == "l":
            self.lead(kind, line)
        elif node[0] == "r":
            part = self.world.route(int(node[1:]), self.places.at(line.number("K")))
            said(f"route to {part}", f"route to {line.number('P')}")
        else:
            getattr(self, STEPS.get(kind, kind))(int(node[1:]), line)

    # ---- the leader

    def lead(self, kind: str, line: Line) -> None:
        """The leader begins a course or opens a sub-plan."""
        world = self.world
        if kind == "open":
            world.open()
            said(f"opened {world.opened - 1}", f"opened {line.number('S')}")
            return
        new = self.places.owners(line.plan("NEW"))
        if kind == "begin":
            world.begin(new)
        else:
            try:
                world.begin_from(self.places.owners(line.plan("OLD")), new)
            except Refused:
                raise NotYet("not all keys are where the course begins") from None
        parts = sum(it[0] == "p" for it in world.facts)
        said(f"begun {world.last}, partitions {parts}", f"begun {line.number('N')}, partitions {line.number('C')}")

    # ---- partitions

    def give(self, part: int, line: Line) -> None:
        """The partition gives keys."""
        for place in self.places.within(line):
            self.world.giveat(part, place)
            number, sub, _, dest, _, _ = self.world.chunks[-1]
            said(f"to {dest} course {number} sub {sub}", line.rest(3))
            self.chunks[number, sub, part, dest, place] = len(self.world.chunks) - 1

    def load(self, part: int, line: Line) -> None:
        """The partition loads keys that were given."""
        number, sub, source = (line.number(it) for it in "NSP")
        indices = [self.chunks.get((number, sub, source, part, place)) for place in self.places.within(line)]
        if None in indices:
            raise NotYet(f"partition {source} has not given {line.span()} to {part} in sub-plan {sub} of course {number}")
        answers = [self.world.load(index) for index in indices]
        said("again" if set(answers) == {"again"} else "new", str(line.values["HOW"]))

    def forget(self, part: int, line: Line) -> None:
        """The partition has removed rows, whose keys it gave and another one has loaded."""
        number, dest, places = line.number("N"), line.number("P"), set(self.places.within(line))
        if not places <= self.world.given.get((number, part), set()):
            raise Wrong(f"it has not given {line.span()} in course {number}")
        if not places <= self.world.loaded.get((number, dest), set()):
            raise NotYet(f"partition {dest} has not loaded {line.span()} in course {number}")

    def finish(self, part: int, line: Line) -> None:
        """The partition reports that it has all keys of a sub-plan."""
        try:
            self.world.finish(part, line.number("S"))
        except Refused as why:
            raise Wrong(f"the answer is `no {str(why).split()[0]}`") from None
        said(f"done in course {self.world.newest(f'p{part}').number}", f"done in course {line.number('N')}")

    def close(self, part: int, line: Line) -> None:
        """The partition gives no more in its course."""
        said(self.world.close(part), f"closed {line.number('N')}")

    def serve(self, part: int, line: Line) -> None:
        """The partition replies for a key."""
        kind, named = self.world.serve(part, self.places.at(line.number("K")), line.number("A"))
        said(" ".join(map(str, [kind, *named])), line.rest(4))

    # ---- what is heard

    def hear(self, node: str, line: Line) -> None:
        """The node hears a report, which the node of which it tells can send."""
        report, origin = self.report(line)
        try:
            self.world.send_part(origin, report)
        except Refused:
            raise NotYet(f"{name_of(origin)} has not reported `{line.rest(1)}`") from None
        self.world.deliver(len(self.world.messages) - 1, node)
        self.world.messages.pop()

    def report(self, line: Line) -> tuple[Facts, str]:
        """The facts of the line, and the node that makes them."""
        facts, kind, number = Facts(), line.form.split()[1], line.number("N")
        if kind == "issued":
            facts.issue(number, *(self.places.owners(line.plan(it)) for it in ("OLD", "NEW")))
            return facts, "l"
        if kind == "opened":
            facts.open(number, line.number("S"))
            return facts, "l"
        cell = number, line.number("S"), line.number("P")
        if kind == "done":
            facts.done.add(cell)
        else:
            facts.load(cell, self.places.within(line))
        return facts, f"p{cell[2]}"


# The steps of a partition whose names are not the first words of their lines.
STEPS = {"done": "finish"}


class WholeSteps(Steps):
    """The same as `squall audit` takes them: a line of a chunk is of a whole chunk, and a give of several keys is of the first that are
    left."""

    def give(self, part: int, line: Line) -> None:
        """The partition gives the key, or the first keys."""
        places = self.places.within(line)
        if line.number("HI") - line.number("LO") == 1:
            self.world.giveat(part, places.start)
        else:
            self.world.give(part, len(places))
        number, sub, _, dest, lo, hi = self.world.chunks[-1]
        chunk = range(lo, hi)
        said(f"{chunk} to {dest} course {number} sub {sub}", f"{places} {line.rest(3)}")
        self.whole[number, sub, part, dest, chunk] = len(self.world.chunks) - 1

    def load(self, part: int, line: Line) -> None:
        """The partition loads a chunk."""
        number, sub, source = (line.number(it) for it in "NSP")
        index = self.whole.get((number, sub, source, part, self.places.within(line)))
        if index is None:
            raise NotYet(f"partition {source} has not given {line.span()} to {part} in sub-plan {sub} of course {number}")
        said("again" if self.world.load(index) == "again" else "new", str(line.values["HOW"]))


def said(answer: str, line: str) -> None:
    """Nothing, if the answer is that of the line."""
    if answer != line:
        raise Wrong(f"the answer is `{answer}`, and not `{line}`")


def name_of(node: str) -> str:
    """A node in words."""
    return "the leader" if node == "l" else f"partition {node[1:]}"


class Merging:
    """Logs, of which lines are taken as they can come."""

    def __init__(self, old: Plan, new: Plan, logs: list[Log], kind: type[Steps] = Steps) -> None:
        self.old, self.new, self.logs, self.kind = old, new, logs, kind
        ranks = {rank for plan in (old, new) for rank, _ in plan}
        self.places = Places(ranks.union(*(bounds_of(line) for log in logs for line in log.lines)))
        self.routers = max([0, *(int(log.node[1:]) + 1 for log in logs if log.node[0] == "r")])
        self.steps = self.begin()
        # What was taken: each time the index of the log. How many lines of each, and why the next one does not come. Logs whose next
        # line never comes.
        self.order: list[int] = []
        self.counts, self.waits = [0] * len(logs), [""] * len(logs)
        self.ended: set[int] = set()

    def begin(self) -> Steps:
        """The world before the first line."""
        return self.kind(self.old, self.new, self.routers, self.places)

    def take(self, at: int) -> bool:
        """Takes the next line of a log, if it can come: whether it did."""
        log, count = self.logs[at], self.counts[at]
        if count == len(log.lines) or at in self.ended:
            return False
        try:
            self.steps.happen(log.node, log.lines[count])
        except NotYet as why:
            self.waits[at] = str(why)
            return False
        except (Wrong, Refused) as why:
            # By its own log the node does something else, whatever others do. What the step has done is undone.
            self.waits[at] = str(why) if isinstance(why, Wrong) else f"the answer is `no {why}`"
            self.ended.add(at)
            self.undo()
            return False
        self.order.append(at)
        self.counts[at] += 1
        return True

    def undo(self) -> None:
        """Makes the world of the lines that were taken anew."""
        self.steps, counts = self.begin(), [0] * len(self.logs)
        for at in self.order:
            self.steps.happen(self.logs[at].node, self.logs[at].lines[counts[at]])
            counts[at] += 1

    def take_all(self) -> None:
        """Takes lines until none can come."""
        is_moving = True
        while is_moving:
            is_moving = False
            for at in range(len(self.logs)):
                while self.take(at):
                    is_moving = True

    def verdict(self) -> tuple[bool, list[str]]:
        """Whether all lines were taken, and the lines of the verdict."""
        stuck = [at for at, log in enumerate(self.logs) if self.counts[at] < len(log.lines)]
        if not stuck:
            return True, [f"accepted {len(self.order)} lines of {len(self.logs)} logs"]
        heads = [(self.logs[at].file, self.logs[at].lines[self.counts[at]].at, self.waits[at]) for at in stuck]
        return False, [f"refused {file} {at}: {why}" for file, at, why in heads]


def judged(old: Plan, new: Plan, logs: list[Log], kind: type[Steps] = Steps) -> tuple[bool, list[str]]:
    """The verdict on logs of a world that begins with these plans, in which lines are steps of this kind."""
    merging = Merging(old, new, logs, kind)
    merging.take_all()
    return merging.verdict()
