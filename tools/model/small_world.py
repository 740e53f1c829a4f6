"""Small worlds, for tools/model/search: what may happen in them, as docs/SCENARIOS.md says, and what partitions reply.

A world has a few partitions and keys. It begins a few courses, each of which may end early. Under some variants one of the
partitions may die for good. What is left out changes no answer:
- Messages. A partition hears any single fact, in any order, at any time or never. So it may hear less than a board says.
- What the leader hears. It hears each completion at once, and may still open or begin later.
- Routers. The promises take each answer that some router could give.
- Chunks of several keys. Such a chunk is the same as several chunks of one key.
"""
from collections.abc import Iterable, Iterator
from dataclasses import dataclass
from functools import cache
from itertools import permutations, product
from typing import NamedTuple

# How the rules may be changed, and by which fault.
VARIANTS = {
    "rules": "the rules as they are",
    "any-coming": "a partition waits for keys of any course that it knows, and not only of the newest",
    "flag": "the leader does not ask in which course a partition gives no more",
    "no-close": "a course may end early although its sources still give",
    "in-flight": "a course may end early while keys are on their way: the next plan has them at their source",
    "in-flight-new": "a course may end early while keys are on their way: the next plan has them at their destination",
    "back": "after an early end the old plan is the old one of the course before, and not where the keys are",
    "bury": "a partition may die, and the next course gives its keys to others once all refuse what it gave",
    "bury-late": "the same, but partitions load what it gave later on",
    "bury-alive": "the same, but it has not died",
}

# The owner of each key.
Plan = tuple[int, ...]
# Pairs of numbers: a partition and a key, a course and a key, or a course and a partition.
Pairs = frozenset[tuple[int, int]]


class Course(NamedTuple):
    """Both plans of a course, for each key its sub-plan if it moves, and how many sub-plans there are."""

    old: Plan
    new: Plan
    subs: tuple[int | None, ...]
    sub_count: int

    def brings(self, key: int, part: int) -> bool:
        """Whether the key comes to the partition."""
        return self.subs[key] is not None and self.new[key] == part

    def uses(self, part: int) -> bool:
        """Whether a key comes to the partition or goes from it."""
        return any(sub is not None and part in (old, new) for old, new, sub in zip(self.old, self.new, self.subs))


@cache
def course_between(old: Plan, new: Plan) -> Course:
    """The course from one plan to another. A source feeds its destinations one after another, in rising number."""
    pairs = list(zip(old, new))
    fed = {source: sorted({dest for it, dest in pairs if it == source != dest}) for source in old}
    subs = tuple(fed[source].index(dest) if source != dest else None for source, dest in pairs)
    return Course(old, new, subs, max(map(len, fed.values())))


@cache
def parts_of(courses: tuple[Course, ...]) -> frozenset[int]:
    """The partitions that are there: those of the first two plans, and of each new plan."""
    return frozenset(courses[0].old).union(*(course.new for course in courses))


class Told(NamedTuple):
    """What a partition was told: the numbers issued, and how many sub-plans of each course were opened."""

    issued: frozenset[int]
    opened: tuple[int, ...]


class World(NamedTuple):
    """A leader, partitions and keys."""

    # The courses begun, and how many sub-plans of each the leader opened.
    courses: tuple[Course, ...]
    opened: tuple[int, ...]
    # What each partition was told.
    told: tuple[Told, ...]
    # Partitions and keys that they hold. Courses and keys that were given, or loaded, in them.
    held: Pairs
    given: Pairs
    loaded: Pairs
    # Courses and partitions that give no more in them.
    closed: Pairs
    # Completions: the course, the sub-plan and the partition.
    done: frozenset[tuple[int, int, int]]
    # Partitions that have died, and those of them that are buried: a course was begun without them.
    dead: frozenset[int] = frozenset()
    buried: frozenset[int] = frozenset()
    # Courses and partitions that refuse in them what a dead partition gave. Courses and keys that a burial ended on their way.
    refused: Pairs = frozenset()
    lost: Pairs = frozenset()

    @property
    def last(self) -> int:
        """The number of the course begun last."""
        return len(self.courses)

    @property
    def parts(self) -> frozenset[int]:
        """The partitions that are there."""
        return parts_of(self.courses)

    def course(self, number: int) -> Course:
        """The course of the number."""
        return self.courses[number - 1]

    def newest(self, part: int) -> int:
        """The number of the newest course that the partition knows."""
        return max(self.told[part].issued)

    @property
    def living(self) -> frozenset[int]:
        """Those of them that have not died."""
        return self.parts - self.dead

    def flying(self) -> Pairs:
        """Courses and keys that are on their way."""
        return self.given - self.loaded - self.lost

    def is_waiting(self) -> bool:
        """Whether the leader waits for a partition that has not all keys of the sub-plan opened last."""
        course, sub = self.courses[-1], self.opened[self.last - 1] - 1
        return any(it == sub and (self.last, sub, course.new[key]) not in self.done for key, it in enumerate(course.subs))

    def is_over(self) -> bool:
        """Whether the course begun last is over."""
        return self.opened[self.last - 1] == self.courses[-1].sub_count and not self.is_waiting()


class Reply(NamedTuple):
    """What a partition replies for a key: the kind, the partition that it names, and of a move the course."""

    kind: str
    part: int = 0
    number: int = 0


# What happens, and the world after it.
Step = tuple[str, World]


def changed(values: tuple[int, ...], at: int, value: int) -> tuple[int, ...]:
    """The values with another one at an index."""
    return (*values[:at], value, *values[at + 1 :])


@dataclass(frozen=True)
class Rules:
    """How many partitions, keys and courses there may be, and what may happen under a variant of the rules."""

    parts: int
    keys: int
    courses: int
    variant: str

    def plans(self) -> list[Plan]:
        """All plans."""
        return list(product(range(self.parts), repeat=self.keys))

    def plans_without(self, dead: frozenset[int]) -> list[Plan]:
        """All plans that name none of these partitions."""
        return [plan for plan in self.plans() if dead.isdisjoint(plan)]

    def start(self, course: Course) -> World:
        """The world as it begins: each key is where the old plan has it."""
        none: Pairs = frozenset()
        told = Told(frozenset({1}), (0,) * self.courses)
        held = frozenset((part, key) for key, part in enumerate(course.old))
        return World((course,), told.opened, (told,) * self.parts, held, none, none, none, frozenset())

    def starts(self) -> Iterator[World]:
        """The worlds as they begin, one of those that differ by names alone.

        Sub-plans depend on the order of partitions if a source may have two destinations. Then only keys are renamed.
        """
        are_ordered = self.keys > 1 and self.parts > 2
        names = [tuple(range(self.parts))] if are_ordered else list(permutations(range(self.parts)))
        orders = list(permutations(range(self.keys)))
        for old, new in product(self.plans(), repeat=2):
            forms = [[tuple(name[plan[it]] for it in order) for plan in (old, new)] for name in names for order in orders]
            if [old, new] == min(forms):
                yield self.start(course_between(old, new))

    # ---- replies

    def reply(self, world: World, part: int, key: int, after: int) -> Reply:
        """What the partition replies for the key, asked with the number of the last move that was followed."""
        if (part, key) in world.held:
            return Reply("held")
        known = world.told[part].issued
        newest = max(known)
        gave = max([0, *[it for it in known if (it, key) in world.given and world.courses[it - 1].old[key] == part]])
        due = known if self.variant == "any-coming" else [newest]
        comes = max([0, *[it for it in due if (it, key) not in world.loaded and world.courses[it - 1].brings(key, part)]])
        if gave < comes:
            return Reply("pending", world.course(comes).old[key])
        if after < gave:
            return Reply("moved", world.course(gave).new[key], gave)
        return Reply("behind") if newest < after else Reply("elsewhere", world.course(newest).old[key])

    # ---- events

    def steps(self, world: World) -> Iterator[Step]:
        """All that may happen next."""
        yield from self.bury_steps(world) if world.dead != world.buried else self.leader_steps(world)
        for part in world.parts if self.variant == "bury-alive" else world.living:
            yield from self.death_steps(world, part)
            yield from self.close_steps(world, part)
            yield from self.give_steps(world, part)
            yield from self.load_steps(world, part)
            yield from self.finish_steps(world, part)
            yield from self.hear_steps(world, part)

    def leader_steps(self, world: World) -> Iterator[Step]:
        """What the leader may do. Once a course is over, an early end of it gives the same plan."""
        last, opened = world.last, world.opened[world.last - 1]
        if opened < world.courses[-1].sub_count and not world.is_waiting():
            counts = changed(world.opened, last - 1, opened + 1)
            yield f"the leader opens sub-plan {opened} of course {last}", world._replace(opened=counts)
        if last == self.courses:
            return
        is_over = world.is_over()
        old = world.courses[-1].new if is_over else self.where_left(world)
        for plan in self.plans_without(world.dead) if old is not None else []:
            begun = world._replace(courses=(*world.courses, course_between(old, plan)))
            yield f"the leader begins course {last + 1}{'' if is_over else ' early'} from {old} to {plan}", begun

    def where_left(self, world: World) -> Plan | None:
        """The plan that has each key where the course begun last leaves it, if it leaves each somewhere by now."""
        left = [self.left_at(world, key) for key in range(self.keys)]
        if None in left:
            return None
        return world.courses[-1].old if self.variant == "back" else tuple(it for it in left if it is not None)

    def left_at(self, world: World, key: int) -> int | None:
        """Where the course begun last leaves the key."""
        course, at = world.courses[-1], (world.last, key)
        if course.subs[key] is None or at in world.loaded:
            return course.new[key]
        if at in world.given:
            return {"in-flight": course.old[key], "in-flight-new": course.new[key]}.get(self.variant)
        return course.old[key] if self.may_leave(world, course.old[key]) else None

    def may_leave(self, world: World, source: int) -> bool:
        """Whether the leader takes it that the source gives no more in the course begun last."""
        number = world.newest(source) if self.variant == "flag" else world.last
        return self.variant == "no-close" or (number, source) in world.closed

    # ---- burials

    def death_steps(self, world: World, part: int) -> Iterator[Step]:
        """The partition dies, once in a run, or refuses what a dead one gave in the newest course that it knows."""
        if self.variant.startswith("bury") and not world.dead:
            held = world.held if self.variant == "bury-alive" else frozenset(it for it in world.held if it[0] != part)
            yield f"partition {part} dies", world._replace(dead=frozenset({part}), held=held)
        number = world.newest(part)
        if world.dead != world.buried and (number, part) not in world.refused:
            refused = world.refused | {(number, part)}
            yield f"partition {part} refuses what a dead one gave in course {number}", world._replace(refused=refused)

    def bury_steps(self, world: World) -> Iterator[Step]:
        """The leader begins a course that leaves dead partitions out, and each key without a holder gets one.

        All that live give no more in the course before.
        """
        may_begin = world.last < self.courses and all((world.last, part) in world.closed for part in world.living)
        for old in product(*(self.homes_of(world, key) for key in range(self.keys))) if may_begin else []:
            held = world.held | {(part, key) for key, part in enumerate(old)}
            lost = world.lost | {(number, key) for number, key in world.given - world.loaded}
            for plan in self.plans_without(world.dead):
                courses = (*world.courses, course_between(old, plan))
                begun = world._replace(courses=courses, held=held, lost=lost, buried=world.dead)
                yield f"the leader buries {set(world.dead)}: it begins course {world.last + 1} from {old} to {plan}", begun

    def homes_of(self, world: World, key: int) -> frozenset[int]:
        """Where the next course may have the key: where it is left, or anywhere if it was lost. Nowhere if that is not decided."""
        course, at = world.courses[-1], (world.last, key)
        source, dest = course.old[key], course.new[key]
        is_flying = at in world.given and at not in world.loaded
        if is_flying and dest not in world.dead:
            refuses = source in world.dead and (world.last, dest) in world.refused
            return world.living if refuses else frozenset()
        left = dest if at in world.loaded else source
        return frozenset({left}) if (left, key) in world.held else world.living

    # ---- partitions

    def close_steps(self, world: World, part: int) -> Iterator[Step]:
        """The partition gives no more in the newest course that it knows.

        No answer depends on it if it has nothing to give there, except under the variant `flag`, and if a partition has died.
        """
        number = world.newest(part)
        keys = [key for key, old in enumerate(world.course(number).old) if old == part]
        gives = any(world.course(number).subs[key] is not None and (number, key) not in world.given for key in keys)
        if (number, part) not in world.closed and self.variant != "no-close" and (gives or self.variant == "flag" or world.dead):
            yield f"partition {part} gives no more in course {number}", world._replace(closed=world.closed | {(number, part)})

    def give_steps(self, world: World, part: int) -> Iterator[Step]:
        """The partition gives a key in the newest course that it knows and the sub-plan opened last there."""
        number = world.newest(part)
        course, sub = world.course(number), world.told[part].opened[number - 1] - 1
        for key, it in enumerate(course.subs):
            if it == sub and course.old[key] == part and (part, key) in world.held and (number, part) not in world.closed:
                after = world._replace(held=world.held - {(part, key)}, given=world.given | {(number, key)})
                yield f"partition {part} gives key {key} in course {number}", after

    def load_steps(self, world: World, part: int) -> Iterator[Step]:
        """The partition loads a key that is on its way there, in any course that it knows."""
        issued, opened = world.told[part]
        for number, key in world.given - world.loaded if self.variant == "bury-late" else world.flying():
            course = world.course(number)
            if (number, part) in world.refused and course.old[key] in world.dead and self.variant != "bury-late":
                continue
            if course.brings(key, part) and number in issued and course.subs[key] in range(opened[number - 1]):
                after = world._replace(held=world.held | {(part, key)}, loaded=world.loaded | {(number, key)})
                yield f"partition {part} loads key {key} of course {number}", after

    def finish_steps(self, world: World, part: int) -> Iterator[Step]:
        """The partition reports that it has all keys of a sub-plan of the newest course that it knows."""
        number = world.newest(part)
        course = world.course(number)
        for sub in range(world.told[part].opened[number - 1]):
            due = incoming(course, sub, part)
            if due and (number, sub, part) not in world.done and all((number, key) in world.loaded for key in due):
                after = world._replace(done=world.done | {(number, sub, part)})
                yield f"partition {part} has all of sub-plan {sub} of course {number}", after

    def hear_steps(self, world: World, part: int) -> Iterator[Step]:
        """The partition hears one fact. Of a course that does not use it, no answer depends on what is opened."""
        issued, opened = world.told[part]
        for number, course in enumerate(world.courses, 1):
            if number not in issued:
                yield f"partition {part} hears of course {number}", heard(world, part, Told(issued | {number}, opened))
            counts = range(opened[number - 1] + 1, world.opened[number - 1] + 1)
            for count in counts if counts and course.uses(part) else []:
                told = Told(issued, changed(opened, number - 1, count))
                yield f"partition {part} hears that sub-plan {count - 1} of course {number} is open", heard(world, part, told)


def heard(world: World, part: int, told: Told) -> World:
    """The world once the partition was told that."""
    return world._replace(told=(*world.told[:part], told, *world.told[part + 1 :]))


def incoming(course: Course, sub: int, part: int) -> Iterable[int]:
    """The keys that come to the partition in the sub-plan."""
    return [key for key, it in enumerate(course.subs) if it == sub and course.new[key] == part]
