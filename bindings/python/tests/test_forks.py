"""What a child of a fork may do."""

import gc
import multiprocessing
import os
import signal
import threading
import unittest
import warnings
from functools import partial
from typing import Any, Callable, List

import squall
from squall import Course, ForkError, Leader, Part, Plan, Router, frame
from squall._room import CourseRoom, ErrandRoom, LeaderRoom, PartRoom, RouterRoom, ViewRoom

from . import test_handles
from .worked import NEW, OLD, fresh, key, moved


def child_of(call: Callable[[], object], forks: Callable[[], int] = os.fork) -> int:
    """The status of a child that makes the call: 0 if nothing was raised."""
    with warnings.catch_warnings():
        # Python says what this file tests: that a fork with several threads is none to be trusted.
        warnings.simplefilter("ignore", DeprecationWarning)
        child = forks()
    if child == 0:
        status = 1
        try:
            # Ends a child that waits for ever.
            signal.alarm(60)
            call()
            gc.collect()
            status = 0
        except AssertionError as error:
            os.write(2, f"in the child: {error}\n".encode())
        finally:
            # No clean-up of the tests in the child.
            os._exit(status)
    _, status = os.waitpid(child, 0)
    return status


class OneThread(unittest.TestCase):
    """A fork of a process that has one thread: each process has its own copy."""

    def setUp(self) -> None:
        if len(os.listdir("/proc/self/task")) != 1:
            self.skipTest("this process has several threads")

    def test_a_child_has_copies(self) -> None:
        router = fresh()
        view, errand, course = router.view(), router.errand(key(2)), router.course()
        part, leader = test_handles.open_part(1), test_handles.fresh_leader()

        def call() -> None:
            assert part.give_at(key(2)).dest == 3
            leader.begin(NEW)
            router.loaded(1, 0, 3, key(2), key(3))
            assert (router.route(key(2)), view.route(key(2)), errand.asked) == (3, 1, 1)
            assert len(router.board()) == 1
            assert Router(1, OLD, NEW).route(key(2)) == 1
            assert course.receivers(0) == Course(1, OLD, NEW).receivers(0) == [3, 4]
            handles: List[Any] = [router, view, errand, course, part, leader]
            for handle in handles:
                handle.close()

        self.assertEqual(child_of(call), 0)
        self.assertEqual((router.route(key(2)), router.board()), (1, []))
        router.loaded(1, 0, 3, key(2), key(3))
        self.assertEqual((router.route(key(2)), view.route(key(2)), errand.asked), (3, 1, 1))
        self.assertEqual(course.receivers(0), [3, 4])
        self.assertEqual((part.given(1), leader.board()), ([], []))

    def test_workers_of_multiprocessing(self) -> None:
        router = moved()
        context = multiprocessing.get_context("fork")
        queue = context.SimpleQueue()
        worker = context.Process(target=lambda: queue.put(router.route(key(2))))
        worker.start()
        worker.join(60)
        self.assertEqual(worker.exitcode, 0)
        self.assertEqual(queue.get(), 3)


class SeveralThreads(unittest.TestCase):
    """A fork of a process that has several threads: its child calls nothing."""

    def setUp(self) -> None:
        end = threading.Event()
        thread = threading.Thread(target=end.wait)
        thread.start()
        self.addCleanup(thread.join)
        self.addCleanup(end.set)

    def refused(self, call: Callable[[], object]) -> None:
        """Looks whether a call is refused."""
        try:
            call()
        except ForkError:
            return
        assert False, "not refused"

    def test_each_call_is_refused(self) -> None:
        router = fresh()
        groups: List[Any] = [
            (router, test_handles.ROUTER_CALLS),
            (router.view(), test_handles.VIEW_CALLS),
            (router.errand(key(2)), test_handles.ERRAND_CALLS),
            (router.course(), test_handles.COURSE_CALLS),
            (test_handles.open_part(3), test_handles.PART_CALLS),
            (test_handles.fresh_leader(), test_handles.LEADER_CALLS),
        ]
        course = router.course()

        def call() -> None:
            for handle, calls in groups:
                for ask in calls.values():
                    self.refused(partial(ask, handle))
            self.refused(lambda: Router(1, OLD, NEW))
            self.refused(lambda: Course(1, OLD, NEW))
            self.refused(lambda: Part(1, course))
            self.refused(lambda: Leader(OLD))
            self.refused(lambda: Leader.resume(course))
            self.refused(lambda: frame.opened(1, 0))
            self.refused(Plan(OLD).check)
            assert squall.version() == squall.__version__
            # A child of the child is no better.
            assert child_of(lambda: self.refused(lambda: Router(1, OLD, NEW))) == 0
            # To close and to drop handles calls nothing.
            closed: List[object] = []
            for room in [RouterRoom, ViewRoom, ErrandRoom, CourseRoom, PartRoom, LeaderRoom]:
                room._close = closed.append
            with router:
                pass
            assert router.closed
            groups.clear()
            gc.collect()
            assert not closed

        self.assertEqual(child_of(call), 0)
        self.assertEqual(router.route(key(2)), 1)

    def test_a_child_does_not_wait_for_threads_that_are_gone(self) -> None:
        router = fresh()
        held, end = threading.Event(), threading.Event()

        def hold() -> None:
            with router._lock:
                held.set()
                end.wait()

        thread = threading.Thread(target=hold)
        thread.start()
        held.wait()

        def call() -> None:
            self.refused(lambda: router.route(key(2)))
            self.refused(router.board)
            router.close()

        self.assertEqual(child_of(call), 0)
        end.set()
        thread.join()
        self.assertEqual(router.route(key(2)), 1)

    def test_a_fork_after_the_threads_have_ended(self) -> None:
        self.doCleanups()
        if len(os.listdir("/proc/self/task")) == 1:
            self.assertEqual(child_of(lambda: Router(1, OLD, NEW).route(0)), 0)


if __name__ == "__main__":
    unittest.main()
