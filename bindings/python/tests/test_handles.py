"""How handles are closed, and that no use of a closed one does harm."""

import copy
import ctypes
import gc
import pickle
import signal
import unittest
import weakref
from array import array
from contextlib import ExitStack
from types import FrameType
from typing import Any, Callable, Dict, List, Optional
from unittest import mock

from squall import Chunk, ClosedError, Course, Errand, Leader, Part, PlanError, Reply, Router, View
from squall import _library as lib
from squall._room import ErrandRoom, RouterRoom, ViewRoom

from .worked import EMPTY_DIGEST, FIVE, LOAD_FRAME, NEW, OLD, OPENING_FRAME, fresh, key, moved

ROUTER_CALLS: Dict[str, Callable[[Router], object]] = {
    "loaded": lambda it: it.loaded(1, 0, 3, key(2), key(3)),
    "done": lambda it: it.done(1, 0, 3),
    "opened": lambda it: it.opened(1, 0),
    "issued": lambda it: it.issued(2, OLD),
    "feed": lambda it: it.feed(LOAD_FRAME),
    "feed, kept": lambda it: it.feed(bytearray(LOAD_FRAME)),
    "hear": lambda it: it.hear(LOAD_FRAME),
    "hear, kept": lambda it: it.hear(memoryview(LOAD_FRAME)),
    "route": lambda it: it.route(0),
    "legs": lambda it: it.legs(0, 7),
    "number": lambda it: it.number,
    "limit": lambda it: it.limit(),
    "taken": lambda it: it.taken,
    "waiting": lambda it: it.waiting,
    "board": lambda it: it.board(),
    "digest": lambda it: it.digest(),
    "repair": lambda it: it.repair(),
    "view": lambda it: it.view(),
    "errand": lambda it: it.errand(0),
    "course": lambda it: it.course(),
    "first_course": lambda it: it.first_course(),
    "clashed": lambda it: it.clashed(),
    "counts": lambda it: it.counts(),
    "status_text": lambda it: it.status_text(),
    "picture": lambda it: it.picture(),
}
VIEW_CALLS: Dict[str, Callable[[View], object]] = {
    "route": lambda it: it.route(0),
    "routes": lambda it: it.routes(array("Q", [0])),
    "routes_into": lambda it: it.routes_into(array("Q", [0]), array("I", [0])),
    "legs": lambda it: it.legs(0, 7),
    "number": lambda it: it.number,
    "clone": lambda it: it.clone(),
    "errand": lambda it: it.errand(0),
    "routes, no keys": lambda it: it.routes(array("Q")),
    "place": lambda it: it.place(0),
    "locate": lambda it: it.locate(array("Q", [0])),
    "locate_into": lambda it: it.locate_into(array("Q", [0]), array("I", [0] * 4)),
    "changes": lambda it: it.changes(after=it),
    "changes of another": lambda it: fresh().view().changes(after=it),
}
COURSE_CALLS: Dict[str, Callable[[Course], object]] = {
    "number": lambda it: it.number,
    "subplans": lambda it: it.subplans,
    "moves": lambda it: it.moves(),
    "old_plan": lambda it: it.old_plan(),
    "new_plan": lambda it: it.new_plan(),
    "receivers": lambda it: it.receivers(0),
    "frame": lambda it: it.frame(),
    "part": lambda it: Part(1, it).held(),
    "resume": lambda it: Leader.resume(it).finished,
}
ERRAND_CALLS: Dict[str, Callable[[Errand], object]] = {
    "asked": lambda it: it.asked,
    "number": lambda it: it.number,
    "heed": lambda it: it.heed(Reply.HELD),
}
# Of a partition or a leader that has heard a digest. None raises if open.
FRAME_CALLS: Dict[str, Callable[[Any], object]] = {
    "feed": lambda it: it.feed(OPENING_FRAME),
    "feed, kept": lambda it: it.feed(memoryview(OPENING_FRAME)),
    "feed, bytearray": lambda it: it.feed(bytearray(OPENING_FRAME)),
    "waiting": lambda it: it.waiting,
    "hear": lambda it: it.hear(OPENING_FRAME),
    "hear, kept": lambda it: it.hear(bytearray(OPENING_FRAME)),
    "hear, memoryview": lambda it: it.hear(memoryview(OPENING_FRAME)),
    "board": lambda it: it.board(),
    "digest": lambda it: it.digest(),
    "repair": lambda it: it.repair(),
}
# Of partition 3, which has heard that sub-plan 0 is opened, and a digest. None raises if open.
PART_CALLS: Dict[str, Callable[[Part], object]] = {
    "give": lambda it: it.give(1),
    "give_at": lambda it: it.give_at(key(7)),
    "fresh": lambda it: it.fresh(Chunk(key(2), key(3), 1, 0, 1, 3)),
    "load": lambda it: it.load(Chunk(key(2), key(3), 1, 0, 1, 3)),
    "finish": lambda it: it.finish(0),
    "serve": lambda it: it.serve(0),
    "held": lambda it: it.held(),
    "given": lambda it: it.given(1),
    "loaded": lambda it: it.loaded(1),
    **FRAME_CALLS,
    "course_closed": lambda it: it.course_closed(1),
    "close_course": lambda it: it.close_course(),
}
# Of a leader that has begun nothing, and has heard a digest. None raises if open.
LEADER_CALLS: Dict[str, Callable[[Leader], object]] = {
    "begin": lambda it: it.begin(NEW),
    "begin_from": lambda it: it.begin_from(OLD, NEW),
    "course": lambda it: it.course(),
    "open_next": lambda it: it.open_next(),
    "finished": lambda it: it.finished,
    **FRAME_CALLS,
}


def open_part(part: int) -> Part:
    """A partition that has heard that sub-plan 0 is opened, and a digest."""
    opened = Part(part, Course(1, OLD, NEW))
    opened.hear(OPENING_FRAME)
    opened.hear(EMPTY_DIGEST)
    return opened


def fresh_leader() -> Leader:
    """A leader that has begun nothing, and has heard a digest."""
    leader = Leader(OLD)
    leader.hear(EMPTY_DIGEST)
    return leader


class Count:
    """Counts the calls of a function of C, and makes them."""

    def __init__(self, call: Any) -> None:
        self.call, self.count = call, 0

    def __call__(self, room: object) -> None:
        self.count += 1
        self.call(room)


class Closing(unittest.TestCase):
    """Closing, by hand and by the garbage collector."""

    def setUp(self) -> None:
        self.counts: List[Count] = []
        for room in [RouterRoom, ViewRoom, ErrandRoom]:
            self.counts.append(Count(room._close))
            patch = mock.patch.object(room, "_close", self.counts[-1])
            patch.start()
            self.addCleanup(patch.stop)

    def closed(self) -> List[int]:
        """How many routers, views and errands were closed. A `View` has two of the library's."""
        return [it.count for it in self.counts]

    def test_each_use_of_a_closed_handle_is_refused(self) -> None:
        router = fresh()
        router.hear(EMPTY_DIGEST)
        view, errand = router.view(), router.errand(0)
        groups: List[Any] = [
            (router, ROUTER_CALLS),
            (view, VIEW_CALLS),
            (router.course(), COURSE_CALLS),
            (errand, ERRAND_CALLS),
            (open_part(3), PART_CALLS),
            (fresh_leader(), LEADER_CALLS),
        ]
        for handle, calls in groups:
            for name, call in calls.items():
                if name != "feed, kept":
                    call(handle)
            handle.close()
            for name, call in calls.items():
                with self.subTest(handle=handle, call=name), self.assertRaises(ClosedError):
                    call(handle)
            self.assertTrue(handle.closed)
            self.assertEqual(repr(handle), f"<{type(handle).__name__}, closed>")

    def test_a_handle_is_closed_once(self) -> None:
        router = fresh()
        self.assertFalse(router.closed)
        self.assertEqual(repr(router), "<Router, open>")
        for _ in range(3):
            router.close()
            self.assertEqual(self.closed(), [1, 0, 0])
        del router
        gc.collect()
        self.assertEqual(self.closed(), [1, 0, 0])

    def test_contexts(self) -> None:
        with fresh() as router, router.view() as view, view.clone() as clone:
            with router.errand(0) as errand, clone.errand(0):
                self.assertFalse(errand.closed)
            self.assertEqual(self.closed(), [0, 0, 2])
        self.assertEqual(self.closed(), [1, 4, 2])
        with self.assertRaises(KeyError), fresh():
            raise KeyError
        self.assertEqual(self.closed(), [2, 4, 2])

    def test_the_garbage_collector_closes(self) -> None:
        handles: Any = [fresh()]
        handles += [handles[0].view(), handles[0].errand(0)]
        handles.append(handles)
        alive = [weakref.ref(it) for it in handles[:3]]
        del handles
        gc.collect()
        self.assertEqual([it() for it in alive], [None] * 3)
        self.assertEqual(self.closed(), [1, 2, 1])

    def test_what_was_not_opened_is_closed_too(self) -> None:
        # Once each, as the header has it, also if the status says that nothing was opened.
        for number, old in [(0, OLD), (1, "{}")]:
            with self.assertRaises(ValueError):
                Router(number, old, NEW)
        with self.assertRaises(ValueError):
            fresh().errand(2**64 - 1)
        gc.collect()
        self.assertEqual(self.closed(), [3, 0, 1])
        # No call was made.
        with self.assertRaises(ValueError):
            Router(-1, OLD, NEW)
        closed = fresh()
        closed.close()
        with self.assertRaises(ClosedError):
            closed.view()
        gc.collect()
        self.assertEqual(self.closed(), [4, 0, 1])

    def test_a_router_may_be_opened_again(self) -> None:
        # pylint: disable=unnecessary-dunder-call
        router = fresh()
        router.close()
        router.__init__(7, NEW, OLD)  # type: ignore[misc]
        self.assertEqual((router.number, router.route(key(2))), (7, 3))
        router.__init__(8, OLD, OLD)  # type: ignore[misc]
        self.assertEqual((router.number, self.closed()), (8, [2, 0, 0]))

    def test_a_handle_that_was_never_opened(self) -> None:
        groups: List[Any] = [(Router, ROUTER_CALLS), (View, VIEW_CALLS), (Errand, ERRAND_CALLS)]
        groups += [(Course, COURSE_CALLS), (Part, PART_CALLS), (Leader, LEADER_CALLS)]
        for kind, calls in groups:
            handle = kind.__new__(kind)
            for call in calls.values():
                with self.assertRaises(ClosedError):
                    call(handle)
            handle.close()

    def test_rooms_are_aligned(self) -> None:
        router = fresh()
        view = router.view()
        handles: List[Any] = [router, view, view.errand(0)]
        handles += [view.errand(it) for it in range(50)]
        handles += [router.course() for _ in range(50)]
        handles += [Part(1, router.course()) for _ in range(50)]
        handles += [Leader(OLD) for _ in range(50)]
        for handle in handles:
            self.assertEqual(ctypes.addressof(handle._room) % 16, 0)


class Pickling(unittest.TestCase):
    """Handles are of one process."""

    def test_pickling_is_refused(self) -> None:
        router = fresh()
        handles: List[Any] = [router, router.view(), router.errand(0), router.course()]
        handles += [open_part(3), fresh_leader()]
        attempts: List[Any] = [pickle.dumps, copy.copy, copy.deepcopy]
        for handle in handles:
            for attempt in attempts:
                with self.subTest(handle=handle), self.assertRaisesRegex(TypeError, "pickled"):
                    attempt(handle)


class Interrupted(unittest.TestCase):
    """A signal handler that uses the handle of the call that it interrupts."""

    def in_between(self, call: Callable[[], Any], what: Callable[[], Any]) -> Any:
        """What the call answers if something happens before each of its calls of C."""
        done: List[int] = []

        def interrupted(inner: Callable[..., Any]) -> Callable[..., Any]:
            def run(*words: Any) -> Any:
                if not done:
                    done.append(1)
                    what()
                return inner(*words)

            return run

        kinds: List[Any] = [Router, Part, Leader]
        with ExitStack() as patches:
            for kind in kinds:
                calls = kind._calls._replace(frame=interrupted(kind._calls.frame))
                patches.enter_context(mock.patch.object(kind, "_calls", calls))
            for name in ["router_fault_at", "leader_fault_at"]:
                fault_at = interrupted(getattr(lib, name))
                patches.enter_context(mock.patch.object(lib, name, fault_at))
            return call()

    def test_frames_that_a_signal_handler_takes(self) -> None:
        router = moved()
        for what in [router.board, router.digest]:
            self.assertEqual(self.in_between(router.board, what), [LOAD_FRAME])
        digest = router.digest()
        self.assertEqual(self.in_between(router.digest, router.board), digest)

    def test_frames_of_partitions_and_leaders(self) -> None:
        part, leader = open_part(1), fresh_leader()
        self.assertEqual(self.in_between(part.board, part.digest), [OPENING_FRAME])
        leader.hear(OPENING_FRAME)
        self.assertEqual(self.in_between(leader.board, leader.digest), [OPENING_FRAME])

    def test_a_fault_of_a_plan_in_between(self) -> None:
        leader = fresh_leader()
        faults: List[Optional[int]] = []

        def begin(text: str) -> None:
            try:
                leader.begin(text)
            except PlanError as error:
                faults.append(error.index)

        first, second = FIVE.replace("[0,0]", "7"), OLD.replace('"from":[3,0]', '"from":7')
        self.in_between(lambda: begin(first), lambda: begin(second))
        self.assertEqual(faults, [1, 0])

    def test_a_larger_frame_in_between(self) -> None:
        # What waits is larger when it is fetched than when its size was asked for.
        frame, sizes = bytes(range(250)) * 24, [4500, 6000, 6000]

        def answer(_room: object, out: Any, room: int) -> int:
            size = sizes.pop(0) if sizes else 0
            if size <= room:
                ctypes.memmove(out, frame, size)
            return size

        with mock.patch.object(Router, "_calls", Router._calls._replace(frame=answer)):
            self.assertEqual(moved().board(), [frame])

    def test_a_report_in_between(self) -> None:
        router = moved()
        frames = self.in_between(router.board, lambda: router.opened(1, 0))
        self.assertEqual(frames, [LOAD_FRAME])
        self.assertEqual(len(router.board()[0]), len(LOAD_FRAME) + 8)

    def test_a_router_that_a_signal_handler_closes(self) -> None:
        router = moved()
        self.assertEqual(self.in_between(router.board, router.close), [LOAD_FRAME])
        self.assertTrue(router.closed)

    def test_signals(self) -> None:
        router = fresh()
        router.opened(1, 0)
        taken: List[object] = []

        def handler(_number: int, _frame: Optional[FrameType]) -> None:
            taken.append(router.board())
            taken.append(router.route(key(2)))

        before = signal.signal(signal.SIGALRM, handler)
        try:
            signal.setitimer(signal.ITIMER_REAL, 0.0005, 0.0005)
            boards = []
            while len(taken) < 50:
                boards.append(router.board())
        finally:
            signal.setitimer(signal.ITIMER_REAL, 0)
            signal.signal(signal.SIGALRM, before)
        self.assertTrue(all(it == [OPENING_FRAME] for it in boards))
        self.assertTrue(all(it in ([OPENING_FRAME], 1) for it in taken))


if __name__ == "__main__":
    unittest.main()
