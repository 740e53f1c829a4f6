"""What calls cost: the least time of each over several rounds, on this machine.

The router has two plans of 4,096 ranges, and keys are drawn by chance. The time is that of this
process on a processor, so that other programs count for less. A word, if there is one, is how many
rounds there are: a busy machine needs more.
"""

from __future__ import annotations

import random
import sys
import time
import timeit
from array import array
from typing import Callable, List, Tuple

from squall import END, Chunk, Course, Leader, Part, Plan, Rank, Reply, Router, frame, key_of

#: What is measured: its name, the call, and how often it is made in a round.
Cost = Tuple[str, Callable[[], object], int]

ROUNDS = int(sys.argv[1]) if len(sys.argv) > 1 else 7
RANGES = 4096


def plan(shift: int) -> Plan:
    """A plan of ranges of a root each, at 50 partitions in turn."""
    bounds = [Rank(it, 0) for it in range(RANGES)] + [END]
    parts = [(it + shift) % 50 for it in range(RANGES)]
    return Plan.of(list(zip(bounds, bounds[1:], parts)))


def least(call: Callable[[], object], times: int) -> float:
    """The microseconds of a call."""
    rounds = timeit.repeat(call, timer=time.process_time, number=times, repeat=ROUNDS)
    return min(rounds) / times * 1e6


def costs_of_courses(router: Router, keys: array[int]) -> List[Cost]:
    """The calls of courses, of places and of frames of reports."""
    view, course, out = router.view(), router.course(), array("I", [0] * 4 * len(keys))
    old, new = Plan.of(course.old_plan()), Plan.of(course.new_plan())
    return [
        ("View.place", lambda: view.place(keys[7]), 10000),
        ("View.locate, 1,000 keys", lambda: view.locate(keys), 100),
        ("View.locate_into, 1,000 keys", lambda: view.locate_into(keys, out), 1000),
        ("Router.course and close", lambda: router.course().close(), 10000),
        ("Course.moves, 4,096 moves", course.moves, 10),
        ("Course.receivers, 50 partitions", lambda: course.receivers(0), 1000),
        ("Course, two plans of 4,096 ranges", lambda: Course(1, old, new), 10),
        ("frame.loaded", lambda: frame.loaded(1, 0, 1, 0, 7), 10000),
    ]


def costs_of_partitions(course: Course) -> List[Cost]:
    """The calls of partitions, each of which has 82 ranges of the plans."""
    opened, done = frame.opened(1, 0), frame.done(1, 0, 7)
    source, dest, whole = Part(0, course), Part(1, course), Part(1, course)
    for part in source, dest, whole:
        part.hear(opened)
    for lo, hi, gives, loads, sub in course.moves():
        if loads == 1:
            whole.load(Chunk(lo, hi, 1, sub, gives, loads))
    return [
        ("Part, of 82 ranges, and close", lambda: Part(0, course).close(), 1000),
        ("Part.serve", lambda: source.serve(0), 10000),
        ("Part.give, one key", lambda: source.give(1), 1000),
        ("Part.load, of a gift of one key", lambda: dest.load(source.give(1)), 1000),
        ("Part.finish", lambda: whole.finish(0), 1000),
        ("Part.held, 164 spans", whole.held, 1000),
        ("Part.hear, a frame of one completion", lambda: source.hear(done), 1000),
        ("Part.board, 82 spans", whole.board, 1000),
    ]


def costs_of_leaders(course: Course) -> List[Cost]:
    """The calls of leaders."""
    old, new = Plan.of(course.old_plan()), Plan.of(course.new_plan())
    leader, done = Leader.resume(course), frame.done(1, 0, 7)
    leader.open_next()
    return [
        ("Leader, a plan of 4,096 ranges", lambda: Leader(old), 10),
        ("Leader and begin", lambda: Leader(old).begin(new), 10),
        ("Leader.resume and close", lambda: Leader.resume(course).close(), 1000),
        ("Leader.hear, a frame of one completion", lambda: leader.hear(done), 1000),
        ("Leader.finished", lambda: leader.finished, 10000),
        ("Leader.course and close", lambda: leader.course().close(), 10000),
    ]


def costs_of_answers(before: Router, after: Router) -> List[Cost]:
    """What a router says of itself, the changes of two views, and the keys of rows."""
    views, row = (before.view(), after.view()), b"user:{1001}:cart"
    same = before.view()
    return [
        ("key_of, 16 bytes with a hash tag", lambda: key_of(row), 10000),
        ("key_of, two numbers", lambda: key_of(b"2:7:cart"), 10000),
        ("Router.counts", after.counts, 1000),
        ("Router.clashed", after.clashed, 1000),
        ("Router.status_text, 4,096 moves", after.status_text, 10),
        ("Router.picture, 4,096 moves", after.picture, 1),
        ("View.changes, no span of 4,096 legs", lambda: views[0].changes(same), 100),
        ("View.changes, 82 spans", lambda: views[0].changes(views[1]), 100),
    ]


def after_a_course(old: Plan, new: Plan) -> Router:
    """A router that has heard that partition 1 has all its keys."""
    router = Router(1, old, new)
    router.opened(1, 0)
    router.done(1, 0, 1)
    return router


def main() -> None:
    """Prints a line for each call."""
    drawn = random.Random(1)
    old, new = plan(0), plan(1)
    router = Router(1, old, new)
    view = router.view()
    keys: List[int] = [drawn.randrange(RANGES << 32) for _ in range(1000)]
    batch, out, next_key = array("Q", keys), array("I", [0] * 1000), iter(keys * 10000).__next__
    outbox = Router(1, Plan.of([(0, END, 1)]), Plan.of([(0, END, 1)]))
    outbox.loaded(1, 0, 1, 0, Rank(1, 0))
    load = outbox.board()[0]
    changing = bytearray(load)
    print(f"Python {sys.version.split()[0]}, microseconds a call")
    for name, call, times in [
        ("a key drawn, which the next two hold", next_key, 10000),
        ("Router.route", lambda: router.route(next_key()), 10000),
        ("View.route", lambda: view.route(next_key()), 10000),
        ("View.routes, 1,000 keys", lambda: view.routes(batch), 1000),
        ("View.routes_into, 1,000 keys", lambda: view.routes_into(batch, out), 1000),
        ("View.legs, 4,096 legs", lambda: view.legs(0, END), 100),
        ("View.clone and close", lambda: view.clone().close(), 10000),
        ("View.errand, heed, close", lambda: view.errand(7).heed(Reply.HELD), 10000),
        ("Router.hear, a frame of one load", lambda: router.hear(load), 10000),
        ("the same as a bytearray", lambda: router.hear(changing), 10000),
        ("Router.view, 4,096 legs", router.view, 100),
        ("Router, two plans of 4,096 ranges", lambda: Router(1, old, new), 10),
        *costs_of_courses(router, batch),
        *costs_of_partitions(router.course()),
        *costs_of_leaders(router.course()),
        *costs_of_answers(Router(1, old, new), after_a_course(old, new)),
    ]:
        print(f"{least(call, times):12.2f}  {name}", flush=True)


if __name__ == "__main__":
    main()
