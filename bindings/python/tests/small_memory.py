"""What `test_memory` runs, over a library with the heap of heap.c.

These tests are in a file of their own since a process has one library.
"""

import ctypes
import itertools
import unittest
from array import array
from functools import partial
from typing import Any, Callable, List

from squall import Chunk, Course, FrameError, Leader, NoMemory, Part, Router
from squall import _library as lib
from squall import frame

from .worked import EMPTY_DIGEST, LOAD_FRAME, NEW, OLD, OPENING_FRAME, fresh, key

_heap: Any = lib._short
BLOCKS = ctypes.c_long.in_dll(_heap, "test_blocks")
ASKED = ctypes.c_long.in_dll(_heap, "test_asked")
REFUSED = ctypes.c_long.in_dll(_heap, "test_refused")
LARGEST = ctypes.c_size_t.in_dll(_heap, "test_largest")

CALLS: List[Callable[[Router], object]] = [
    lambda it: it.loaded(1, 0, 3, key(2), key(3)),
    lambda it: it.done(1, 0, 4),
    lambda it: it.opened(1, 0),
    lambda it: it.issued(2, OLD),
    lambda it: it.feed(LOAD_FRAME),
    lambda it: it.hear(bytearray(LOAD_FRAME)),
    lambda it: it.board(),
    lambda it: it.digest(),
    lambda it: it.repair(),
    lambda it: it.view(),
]

# Of a partition or a leader.
FRAME_CALLS: List[Callable[[Any], object]] = [
    lambda it: it.feed(LOAD_FRAME),
    lambda it: it.feed(bytearray(LOAD_FRAME)),
    lambda it: it.hear(LOAD_FRAME),
    lambda it: it.hear(bytearray(LOAD_FRAME)),
    lambda it: it.board(),
    lambda it: it.digest(),
    lambda it: it.repair(),
]

PART_CALLS: List[Callable[[Part], object]] = [
    lambda it: it.give(7),
    lambda it: it.give_at(key(7)),
    lambda it: it.fresh(Chunk(key(2), key(3), 1, 0, 1, 3)),
    lambda it: it.load(Chunk(key(2), key(3), 1, 0, 1, 3)),
    *FRAME_CALLS,
]

LEADER_CALLS: List[Callable[[Leader], object]] = [
    lambda it: it.begin(OLD),
    lambda it: it.begin_from(NEW, OLD),
    *FRAME_CALLS,
]


def busy() -> Router:
    """A router that knows something and has heard a digest."""
    router = fresh()
    router.loaded(1, 0, 3, 0, 7)
    router.hear(EMPTY_DIGEST)
    return router


def near() -> Router:
    """The same with so low a limit that a frame of its cell is joined to a copy of its board."""
    router = busy()
    router.limit(cells=1)
    return router


def seen(router: Router) -> List[object]:
    """What a caller can see of a router."""
    says = [router.legs(0, 2**63), router.number, router.taken]
    return [router.board(), router.repair(), says]


def busy_part() -> Part:
    """A partition that has heard that sub-plan 0 is opened, and a digest."""
    part = Part(3, Course(1, OLD, NEW))
    part.hear(OPENING_FRAME)
    part.hear(EMPTY_DIGEST)
    return part


def full_part() -> Part:
    """The same, once it has loaded all keys that come in."""
    part = busy_part()
    part.load(Chunk(key(2), key(3), 1, 0, 1, 3))
    return part


def seen_of_part(part: Part) -> List[object]:
    """What a caller can see of a partition."""
    lists = [part.held(), part.given(1), part.loaded(1)]
    return [part.board(), part.repair(), lists, part.serve(key(7))]


def busy_leader() -> Leader:
    """A leader the first course of which is over, and which has heard a digest."""
    leader = begun_leader()
    leader.open_next()
    for part in [3, 4]:
        leader.hear(frame.done(1, 0, part))
    return leader


def begun_leader() -> Leader:
    """A leader that has begun a course, and has heard a digest."""
    leader = Leader(OLD)
    leader.begin(NEW)
    leader.hear(EMPTY_DIGEST)
    return leader


def seen_of_leader(leader: Leader) -> List[object]:
    """What a caller can see of a leader."""
    return [leader.board(), leader.repair(), leader.finished, leader.course().number]


class SmallMemory(unittest.TestCase):
    """Each call, once for each of its allocations, with that one refused."""

    def setUp(self) -> None:
        self.assertEqual(BLOCKS.value, 0)

    def tearDown(self) -> None:
        # Each block was freed, though the tests close nothing.
        self.assertEqual(BLOCKS.value, 0)

    def fails(self, number: int, call: Callable[[], object]) -> bool:
        """Makes the call with its allocation of this number refused: whether it raised."""
        ASKED.value, REFUSED.value = 0, number
        try:
            call()
        except NoMemory as error:
            self.assertEqual(error.status, 1)
            self.assertIsInstance(error, MemoryError)
            return True
        finally:
            REFUSED.value = 0
        return False

    def failures(self, call: Callable[[], object]) -> int:
        """Makes the call once for each of its allocations, and says how often it raised."""
        failed = 0
        for number in itertools.count(1):
            failed += self.fails(number, call)
            if ASKED.value < number:
                break
        return failed

    def gives(self, call: Callable[[], object], wanted: object) -> None:
        """Looks whether a call that raises nothing gives this."""
        self.assertEqual(call(), wanted)

    def test_openings(self) -> None:
        self.assertGreater(self.failures(lambda: Router(1, OLD, NEW)), 5)
        self.assertGreater(self.failures(lambda: Course(1, OLD, NEW)), 5)
        course = Course(1, OLD, NEW)
        self.assertGreater(self.failures(lambda: Part(3, course)), 0)
        self.assertGreater(self.failures(lambda: Leader(OLD)), 0)
        self.assertGreater(self.failures(lambda: Leader.resume(course)), 0)

    def test_frames(self) -> None:
        calls: List[Callable[[], bytes]] = [
            Course(1, OLD, NEW).frame,
            lambda: frame.loaded(1, 0, 3, key(2), key(3)),
            lambda: frame.done(1, 0, 4),
            lambda: frame.opened(1, 0),
        ]
        for at, call in enumerate(calls):
            with self.subTest(call=at):
                self.assertGreater(self.failures(partial(self.gives, call, call())), 0)

    def test_receivers(self) -> None:
        course = Course(1, OLD, NEW)
        self.failures(lambda: self.gives(lambda: course.receivers(0), [3, 4]))
        # It tries once more with less, so that one refusal may be no failure.
        self.assertTrue(self.fails(-1, lambda: course.receivers(0)))
        self.assertEqual(course.receivers(0), [3, 4])

    def changes_nothing(
        self, call: Callable[[Any], object], makes: Callable[[], Any], sees: Callable[[Any], object]
    ) -> None:
        """Makes the call of what `makes` gives, once for each allocation: a failure is not seen."""
        before, done = sees(makes()), makes()
        call(done)
        wanted, failed = sees(done), 0
        for number in itertools.count(1):
            handle = makes()
            with self.subTest(number=number):
                is_failed = self.fails(number, partial(call, handle))
                is_last = ASKED.value < number
                if is_failed:
                    failed += 1
                    self.assertEqual(sees(handle), before)
                    call(handle)
                self.assertEqual(sees(handle), wanted)
            if is_last:
                break
        self.assertGreater(failed, 0)
        handle = makes()
        self.assertTrue(self.fails(-1, partial(call, handle)))
        self.assertEqual(sees(handle), before)

    def test_a_call_that_fails_changes_nothing(self) -> None:
        groups: List[Any] = [
            (CALLS, busy, seen),
            (CALLS, near, seen),
            (PART_CALLS, busy_part, seen_of_part),
            ([lambda it: it.finish(0)], full_part, seen_of_part),
            (LEADER_CALLS, busy_leader, seen_of_leader),
            ([lambda it: it.open_next()], begun_leader, seen_of_leader),
            ([lambda it: it.begin_from(OLD, NEW)], begun_leader, seen_of_leader),
        ]
        for calls, makes, sees in groups:
            for at, call in enumerate(calls):
                with self.subTest(makes=makes.__name__, call=at):
                    self.changes_nothing(call, makes, sees)

    def test_what_a_router_says_of_itself(self) -> None:
        router = busy()
        router.issued(2, OLD)
        router.issued(2, NEW)
        calls: List[Callable[[], object]] = [
            router.clashed,
            router.counts,
            router.status_text,
            router.picture,
        ]
        for at, call in enumerate(calls):
            with self.subTest(call=at):
                self.failures(partial(self.gives, call, call()))
                self.assertTrue(self.fails(-1, call))

    def test_what_allocates_nothing(self) -> None:
        router = busy()
        view = router.view()
        ASKED.value = 0
        with view.clone(), router.errand(0) as errand:
            self.assertEqual((router.route(7), view.route(7), errand.asked), (1, 1, 1))
            self.assertEqual(len(router.legs(0, 7)), 1)
        self.assertEqual(view.locate(array("Q", [7])), [view.place(7)])
        with router.course() as course, router.first_course():
            self.assertEqual((course.number, course.subplans, len(course.moves())), (1, 1, 2))
            self.assertEqual((len(course.old_plan()), len(course.new_plan())), (4, 5))
        self.assertEqual(view.changes(view.clone()), [])
        self.assertEqual(ASKED.value, 0)
        part, leader = busy_part(), begun_leader()
        ASKED.value = 0
        self.assertEqual((len(part.held()), part.given(1), part.loaded(1)), (1, [], []))
        self.assertEqual((part.serve(0).part, leader.finished), (1, False))
        self.assertEqual((part.close_course(), part.course_closed(1)), (1, True))
        with leader.course() as course:
            self.assertEqual(course.number, 1)
        self.assertEqual(ASKED.value, 0)

    def test_what_is_not_closed_is_freed(self) -> None:
        for _ in range(100):
            router = busy()
            handles: List[object] = [
                router.view(),
                router.view().clone(),
                router.course(),
                Course(1, OLD, NEW),
            ]
            self.assertGreater(BLOCKS.value, 0)
            handles += [full_part(), busy_leader()]
            router.board()
            del router, handles
            self.assertEqual(BLOCKS.value, 0)

    def test_counts_that_no_bytes_follow(self) -> None:
        """A frame that says of a list that it is the longest takes no memory for it."""
        busy_digest = busy().digest()
        for whole in [LOAD_FRAME, OPENING_FRAME, Course(2, OLD, NEW).frame(), busy_digest]:
            router, refused = fresh(), 0
            for at in range(8, len(whole) - 3):
                LARGEST.value = 0
                try:
                    router.hear(whole[:at] + b"\xff" * 4 + whole[at + 4 :])
                except FrameError:
                    refused += 1
                self.assertLess(LARGEST.value, 65536, at)
            self.assertGreater(refused, 4)


if __name__ == "__main__":
    unittest.main()
