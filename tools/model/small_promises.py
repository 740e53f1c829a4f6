"""What is promised of each small world (small_world.py), by the names of crates/squall_protocol/specs/Promises.antt.

Some promises speak of an answer at a moment and at every later one. Each world is tested with each answer that was
given by then, so later worlds test those of earlier ones again.

If a partition may die, they are promised of those that live. Until a dead one is buried, its keys have no carrier.
"""
from collections.abc import Iterator

from small_world import Rules, World, incoming


def one_carrier(rules: Rules, world: World) -> Iterator[str]:
    """Each key has exactly one carrier: a partition that holds it, or a chunk on its way."""
    for key in range(rules.keys):
        carriers = sum(it == key for _, it in world.held) + sum(it == key for _, it in world.flying())
        if carriers > 1 or carriers == 0 and world.dead == world.buried:
            yield f"key {key} has {carriers} carriers"


def true_reports(_: Rules, world: World) -> Iterator[str]:
    """What is told did happen."""
    for number, sub, part in world.done:
        missing = [key for key in incoming(world.course(number), sub, part) if (number, key) not in world.loaded]
        if missing:
            yield f"partition {part} has not all of sub-plan {sub} of course {number}"
    for part, (issued, opened) in enumerate(world.told):
        if max(issued) > world.last:
            yield f"partition {part} knows a course that was not begun"
        if opened != world.opened and any(it > most for it, most in zip(opened, world.opened)):
            yield f"partition {part} knows a sub-plan that was not opened"


def routes(world: World, key: int) -> Iterator[tuple[int, int]]:
    """To which partition a router may send the key, by which course: its old one until it hears of a load there."""
    for number, course in enumerate(world.courses, 1):
        sub, new = course.subs[key], course.new[key]
        yield number, course.old[key]
        if sub is not None and ((number, key) in world.loaded or (number, sub, new) in world.done):
            yield number, new


def routed_is_loaded(rules: Rules, world: World) -> Iterator[str]:
    """A key that a router sends to another partition than the old one is loaded there."""
    for key in range(rules.keys):
        for number, part in routes(world, key):
            if part != world.course(number).old[key] and (number, key) not in world.loaded:
                yield f"by course {number} key {key} is sent to {part}, which has not loaded it"


def one_destination(_: Rules, world: World) -> Iterator[str]:
    """Keys on their way are of the sub-plan opened last, and those of one source have one destination."""
    dests: dict[int, int] = {}
    for number, key in world.flying():
        course = world.course(number)
        if number != world.last or course.subs[key] != world.opened[number - 1] - 1:
            yield f"key {key} is on its way in course {number}, although a later sub-plan is open or a later course begun"
        if dests.setdefault(course.old[key], course.new[key]) != course.new[key]:
            yield f"keys from {course.old[key]} are on their way to two destinations"


def chunks_have_nodes(_: Rules, world: World) -> Iterator[str]:
    """The source and the destination of each chunk are there."""
    for number, key in world.given:
        course = world.course(number)
        if not {course.old[key], course.new[key]} <= world.parts:
            yield f"key {key} of course {number} goes from or to a partition that is not there"


def routes_are_served(rules: Rules, world: World) -> Iterator[str]:
    """A partition to which a router sends a key holds it, or says that it moved or waits for it."""
    for key in range(rules.keys):
        for number, part in routes(world, key):
            reply = rules.reply(world, part, key, 0)
            if part in world.dead:
                continue
            if part not in world.parts or reply.kind not in ("held", "moved", "pending"):
                yield f"by course {number} key {key} is sent to {part}, which says {reply.kind}"


def moves_are_served(rules: Rules, world: World) -> Iterator[str]:
    """The partition that a move names does not send the key elsewhere, and names only later moves."""
    for number, key in world.given - world.lost:
        part = world.course(number).new[key]
        if part in world.dead:
            continue
        reply = rules.reply(world, part, key, number)
        is_back = reply.kind == "moved" and reply.number <= number
        if part not in world.parts or reply.kind == "elsewhere" or is_back:
            yield f"a move of course {number} names {part}, which says {reply.kind} for key {key}"


def awaited_comes(rules: Rules, world: World) -> Iterator[str]:
    """A key for which a partition waits is at the source that it names or comes from there, or the course has ended."""
    for part in world.living:
        for key in range(rules.keys):
            kind, source, _ = rules.reply(world, part, key, 0)
            if kind == "pending" and source not in world.dead and not comes(world, part, key, source):
                yield f"partition {part} waits for key {key}, which does not come from {source}"


def comes(world: World, part: int, key: int, source: int) -> bool:
    """Whether the source holds the key or it is on its way from there, or the newest course that the partition knows ended."""
    newest = world.newest(part)
    has_ended = newest < world.last and (newest, source) in world.closed
    numbers = [number for number, it in world.flying() if it == key]
    is_flying = any((world.course(it).old[key], world.course(it).new[key]) == (source, part) for it in numbers)
    return (source, key) in world.held or is_flying or has_ended


def over_is_there(rules: Rules, world: World) -> Iterator[str]:
    """Once the course begun last is over, each key is held where its new plan has it."""
    if world.is_over() and world.dead == world.buried:
        for key in range(rules.keys):
            if (world.courses[-1].new[key], key) not in world.held:
                yield f"course {world.last} is over, and key {key} is not at {world.courses[-1].new[key]}"


def first_routes_are_home(rules: Rules, world: World) -> Iterator[str]:
    """While there is one course, a partition to which a router sends a key holds it or has given it."""
    for key in range(rules.keys) if world.last == 1 else []:
        for _, part in routes(world, key):
            reply = rules.reply(world, part, key, 0)
            if part not in world.dead and reply.kind not in ("held", "moved"):
                yield f"key {key} is sent to {part}, which says {reply.kind}"


def first_moves_are_due(rules: Rules, world: World) -> Iterator[str]:
    """While there is one course, the partition that a move names holds the key or waits for it."""
    for number, key in world.given if world.last == 1 else []:
        part = world.course(number).new[key]
        reply = rules.reply(world, part, key, number)
        if part not in world.dead and reply.kind not in ("held", "pending"):
            yield f"a move names {part}, which says {reply.kind} for key {key}"


PROMISES = {
    "OneCarrier": one_carrier,
    "TrueReports": true_reports,
    "RoutedIsLoaded": routed_is_loaded,
    "OneDestination": one_destination,
    "ChunksHaveNodes": chunks_have_nodes,
    "RoutesAreServed": routes_are_served,
    "MovesAreServed": moves_are_served,
    "AwaitedComes": awaited_comes,
    "OverIsThere": over_is_there,
    "FirstRoutesAreHome": first_routes_are_home,
    "FirstMovesAreDue": first_moves_are_due,
}


def broken(rules: Rules, world: World) -> str | None:
    """The promise that does not hold in the world, if there is one, and how."""
    return next((f"{name}: {how}" for name, promise in PROMISES.items() for how in promise(rules, world)), None)
