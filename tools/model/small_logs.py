"""All logs of short runs in small worlds, for tools/model/orders. The steps are those of plain_world.py."""
from __future__ import annotations

from collections.abc import Iterator
from copy import copy
from itertools import combinations, product
from typing import NamedTuple

from plain import Facts, bound, runs
from plain_world import Refused, World

# The owner of each key. Of each node that did anything its name and the texts of its lines.
Owners = tuple[int, ...]
Logs = tuple[tuple[str, tuple[str, ...]], ...]


class Size(NamedTuple):
    """A small world: the plans of course 1, the other plans to which a course may lead, how many routers there are and how many courses, and
    how many lines of a run may be of what changes nothing."""

    old: Owners
    new: Owners
    plans: tuple[Owners, ...]
    routers: int
    courses: int
    idle: int


class Step(NamedTuple):
    """A node, a line of it, the world after it, and whether that is another one."""

    node: str
    line: str
    world: World
    is_change: bool


def json_of(owners: Owners) -> str:
    """The text of a plan. The last key has all keys above it."""
    rank = lambda at: f"[0,{at}]"
    last = len(owners)
    ranges = [f'{{"part":{part},"from":{rank(lo)},"to":{chr(34) + "end" + chr(34) if hi == last else rank(hi)}}}' for lo, hi, part in runs(owners)]
    return f'{{"plan":[{",".join(ranges)}]}}'


def parts_of(world: World) -> int:
    """How many partitions plans have named."""
    return sum(name[0] == "p" for name in world.facts)


def twin(world: World) -> World:
    """A world like this one."""
    other = copy(world)
    other.courses, other.counts = dict(world.courses), dict(world.counts)
    for name in ("held", "given", "loaded"):
        setattr(other, name, {at: set(keys) for at, keys in getattr(world, name).items()})
    other.closed, other.chunks = set(world.closed), list(world.chunks)
    other.facts = {name: facts.copied() for name, facts in world.facts.items()}
    other.messages, other.copies, other.rows = [], [{} for _ in world.chunks], {part: {} for part in world.rows}
    return other


def spans(keys: list[int]) -> Iterator[range]:
    """All spans of a list of keys."""
    for lo, hi in combinations(range(keys[0], keys[-1] + 2) if keys else [], 2):
        if set(range(lo, hi)) <= set(keys):
            yield range(lo, hi)


class Small:
    """The runs of a small world, line by line."""

    def __init__(self, size: Size) -> None:
        self.size = size
        self.last = len(size.old)

    def start(self) -> World:
        """The world before the first line."""
        return World(self.size.old, self.size.new, self.size.routers)

    def shown(self, keys: range) -> str:
        """The bounds of a span."""
        end = "end" if keys.stop == self.last else bound(keys.stop)
        return f"{bound(keys.start)} {end}"

    def steps(self, world: World) -> Iterator[Step]:
        """All lines that may come next, with what they make of the world."""
        for node in world.facts:
            for line, events in self.lines(world, node):
                after = twin(world)
                try:
                    answers = [event(after) for event in events]
                except Refused:
                    continue
                text = line(after, answers)
                if text is not None:
                    yield Step(node, text, after, is_other(world, after, node))

    def lines(self, world: World, node: str):  # type: ignore[no-untyped-def]
        """What the node may do: its line, of the world after it and the answers, and the events, one after another."""
        yield from self.hearings(world, node)
        if node == "l":
            yield from self.leading()
        elif node[0] == "r":
            for key in range(self.last):
                route = lambda it, key=key: it.route(int(node[1:]), key)
                yield lambda _, said, key=key: f"route {bound(key)} {said[0]}", [route]
        else:
            yield from self.giving(world, int(node[1:]))
            yield from self.answering(world, int(node[1:]))

    def leading(self):  # type: ignore[no-untyped-def]
        """What the leader may do."""
        is_within = lambda it: it.last <= self.size.courses
        yield lambda it, _: f"open {it.opened - 1}", [lambda it: it.open()]
        for new in self.size.plans:
            begin = lambda it, _, new=new: f"begin {it.last} {parts_of(it)} {json_of(new)}" if is_within(it) else None
            yield begin, [lambda it, new=new: it.begin(new)]
        for old, new in product(self.size.plans, repeat=2):
            line = lambda it, _, old=old, new=new: f"begin-from {it.last} {parts_of(it)} {json_of(old)} {json_of(new)}" if is_within(it) else None
            yield line, [lambda it, old=old, new=new: it.begin_from(old, new)]

    def giving(self, world: World, part: int):  # type: ignore[no-untyped-def]
        """Gives and loads, of any span, key by key."""
        for keys in spans(sorted(world.held[part])):
            line = lambda it, _, keys=keys: self.given(it, keys)
            yield line, [lambda it, key=key: it.giveat(part, key) for key in keys]
        edges = {chunk[:3] for chunk in world.chunks if chunk[3] == part}
        for number, sub, source in sorted(edges):
            at = {chunk[4]: index for index, chunk in enumerate(world.chunks) if chunk[:4] == (number, sub, source, part)}
            for keys in spans(sorted(at)):
                head = f"load {self.shown(keys)} from {source} course {number} sub {sub}"
                line = lambda _, said, head=head: f"{head} {'again' if set(said) == {'again'} else 'new'}"
                yield line, [lambda it, key=key, at=at: it.load(at[key]) for key in keys]

    def given(self, world: World, keys: range) -> str | None:
        """The line of keys that were given last, if all go to one partition."""
        kinds = {(chunk[0], chunk[1], chunk[3]) for chunk in world.chunks[-len(keys) :]}
        if len(kinds) > 1:
            return None
        number, sub, dest = kinds.pop()
        return f"give {self.shown(keys)} to {dest} course {number} sub {sub}"

    def answering(self, world: World, part: int):  # type: ignore[no-untyped-def]
        """Completions, closings and replies."""
        newest = lambda it: it.newest(f"p{part}").number
        for sub in range(world.newest(f"p{part}").count):
            yield lambda it, _, sub=sub: f"done {newest(it)} {sub}", [lambda it, sub=sub: it.finish(part, sub)]
        yield lambda it, _: f"close {newest(it)}", [lambda it: it.close(part)]
        for key, after in product(range(self.last), range(self.size.courses + 1)):
            head = f"serve {bound(key)} after {after}"
            line = lambda _, said, head=head: " ".join(map(str, [head, said[0][0], *said[0][1]]))
            yield line, [lambda it, key=key, after=after: it.serve(part, key, after)]

    def hearings(self, world: World, node: str):  # type: ignore[no-untyped-def]
        """Each report that some node knows, heard by this one."""
        for text, report, origin in self.reports(world):
            send = lambda it, origin=origin, report=report: it.send_part(origin, report)
            yield lambda _, said, text=text: f"heard {text}", [send, lambda it: it.deliver(0, node)]

    def reports(self, world: World) -> Iterator[tuple[str, Facts, str]]:
        """All reports that were made, of loads those of all spans."""
        for number in world.courses:
            course = world.courses[number]
            yield f"issued {number} {json_of(course.old)} {json_of(course.new)}", made("issue", number, course.old, course.new), "l"
            for sub in range(world.counts[number]):
                yield f"opened {number} {sub}", made("open", number, sub), "l"
        for name, facts in world.facts.items():
            for cell, places in facts.loaded.items():
                for keys in spans(sorted(places)) if name == f"p{cell[2]}" else []:
                    yield f"loaded {cell[0]} {cell[1]} {cell[2]} {self.shown(keys)}", made("load", cell, keys), name
            for cell in facts.done if name[0] == "p" else []:
                if name == f"p{cell[2]}":
                    report = Facts()
                    report.done.add(cell)
                    yield f"done {cell[0]} {cell[1]} {cell[2]}", report, name


def made(kind: str, *words) -> Facts:  # type: ignore[no-untyped-def]
    """The facts of one report."""
    facts = Facts()
    getattr(facts, kind)(*words)
    return facts


def is_other(before: World, after: World, node: str) -> bool:
    """Whether a step of the node has changed anything."""
    same = ("held", "given", "loaded", "closed", "counts", "last")
    return any(getattr(before, it) != getattr(after, it) for it in same) or not before.facts[node].covers(after.facts[node])


class Found(NamedTuple):
    """The logs of runs of so many lines, how many of these changed nothing, and the steps by which each goes on: the logs after them."""

    idle: dict[Logs, int]
    edges: dict[Logs, dict[tuple[str, str], Logs]]


def with_line(logs: Logs, node: str, line: str) -> Logs:
    """Logs with a line more, of that node."""
    own = dict(logs)
    return tuple(sorted({**own, node: (*own.get(node, ()), line)}.items()))


def all_logs(small: Small, most: int) -> Found:
    """The logs of all runs of at most so many lines."""
    found = Found({(): 0}, {})
    level: dict[Logs, World] = {(): small.start()}
    for count in range(most + 1):
        after: dict[Logs, World] = {}
        for logs, world in level.items():
            edges = found.edges.setdefault(logs, {})
            for step in small.steps(world) if count < most else []:
                idle = found.idle[logs] + (not step.is_change)
                if idle <= small.size.idle:
                    longer = with_line(logs, step.node, step.line)
                    edges[step.node, step.line] = longer
                    found.idle.setdefault(longer, idle)
                    after.setdefault(longer, step.world)
        level = after
    return found
