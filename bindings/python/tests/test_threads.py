"""Threads that share handles, and threads that have a view each."""

import threading
import time
import unittest
from array import array
from functools import partial
from typing import Any, Callable, List
from unittest import mock

from squall import END, ClosedError, Rank, Reply, Router, View
from squall import _library as lib

from .worked import LOAD_FRAME, NEW, OLD, fresh, key, moved, wide_plan


def together(*calls: Callable[[], object]) -> None:
    """Runs these at the same time, each in a thread, and raises what the first of them raised."""
    raised: List[BaseException] = []

    def run(call: Callable[[], object]) -> None:
        try:
            call()
        except BaseException as error:  # pylint: disable=broad-exception-caught
            raised.append(error)

    threads = [threading.Thread(target=run, args=(it,)) for it in calls]
    for thread in threads:
        thread.start()
    for thread in threads:
        thread.join()
    if raised:
        raise raised[0]


class Watch:
    """How many calls of some functions run, and the most that ran at the same time."""

    def __init__(self) -> None:
        self.running = self.most = 0

    def of(self, call: Callable[..., Any]) -> Callable[..., Any]:
        """The function, which takes a while and is watched."""

        def watched(*words: Any) -> Any:
            self.running += 1
            self.most = max(self.most, self.running)
            time.sleep(0.001)
            answer = call(*words)
            self.running -= 1
            return answer

        return watched


class Shared(unittest.TestCase):
    """One handle and several threads: its calls wait for each other."""

    def test_reports_and_routes(self) -> None:
        router = Router(1, wide_plan(4096, 0), wide_plan(4096, 1))

        def report(first: int) -> None:
            for root in range(first, 300, 4):
                router.loaded(1, 0, (root + 1) % 50, key(root), key(root + 1))
                router.feed(bytearray(LOAD_FRAME))

        def ask() -> None:
            for root in range(300):
                self.assertIn(router.route(key(root)), [root % 50, (root + 1) % 50])
                if root % 50 == 0:
                    legs = router.legs(0, END)
                    self.assertTrue(all(a.hi == b.lo for a, b in zip(legs, legs[1:])))
                    self.assertEqual((legs[0].lo, legs[-1].hi), (0, END))

        together(*[partial(report, it) for it in range(4)], ask, ask)
        wanted = Router(1, wide_plan(4096, 0), wide_plan(4096, 1))
        for root in range(300):
            wanted.loaded(1, 0, (root + 1) % 50, key(root), key(root + 1))
        wanted.feed(LOAD_FRAME)
        self.assertEqual(router.board(), wanted.board())

    def test_calls_of_one_handle_wait_for_each_other(self) -> None:
        router, watch = moved(), Watch()
        route, frames = watch.of(Router._call_route), Router._calls
        hears = frames._replace(hear=watch.of(frames.hear))
        with mock.patch.object(Router, "_call_route", staticmethod(route)):
            with mock.patch.object(Router, "_calls", hears):
                together(*[lambda: router.route(0), lambda: router.hear(LOAD_FRAME)] * 3)
        self.assertEqual((watch.most, watch.running), (1, 0))

    def test_frames_are_of_one_call(self) -> None:
        router = moved()
        digest = router.digest()

        def ask(call: Callable[[], object], wanted: object) -> None:
            for _ in range(100):
                self.assertEqual(call(), wanted)

        together(
            lambda: ask(router.board, [LOAD_FRAME]),
            lambda: ask(router.digest, digest),
            lambda: ask(router.board, [LOAD_FRAME]),
        )

    def test_closing_in_the_midst_of_calls(self) -> None:
        for _ in range(5):
            self.close_in_the_midst(Router(1, wide_plan(2000, 0), wide_plan(2000, 1)))

    def close_in_the_midst(self, router: Router) -> None:
        """Closes a router, a view and an errand while threads use them."""
        view, errand = router.view(), router.errand(0)
        keys, frame = array("Q", range(0, 2**40, 2**30)), bytearray(LOAD_FRAME)
        calls: List[Callable[[], Any]] = [
            lambda: router.issued(2, NEW),
            lambda: router.feed(frame),
            router.view,
            router.board,
            lambda: router.legs(0, END),
            lambda: view.routes(keys),
            lambda: view.clone().route(0),
            lambda: errand.heed(Reply.PENDING, 1),
            lambda: errand.asked,
        ]
        begun = threading.Barrier(1 + len(calls))

        def until_closed(call: Callable[[], object]) -> None:
            begun.wait()
            with self.assertRaises(ClosedError):
                while True:
                    call()

        def close() -> None:
            begun.wait()
            for handle in (router, view, errand):
                handle.close()

        together(close, *[partial(until_closed, it) for it in calls])

    def test_a_shared_errand(self) -> None:
        errand = fresh().errand(key(2))
        together(*[lambda: [errand.heed(Reply.PENDING, 1) for _ in range(300)]] * 4)
        self.assertEqual(errand.asked, 1)


class SharedViews(unittest.TestCase):
    """One view and several threads: its calls do not wait for each other."""

    def test_eight_threads_share_a_view(self) -> None:
        router = Router(1, wide_plan(400, 0), wide_plan(400, 1))
        router.loaded(1, 0, 1, key(0), key(1))
        view = router.view()
        router.close()
        keys = array("Q", range(0, 400 << 32, 1 << 31))

        def said() -> List[object]:
            alone = [(view.route(it), view.place(it), view.errand(it).asked) for it in keys[:20]]
            return [alone, view.routes(keys), view.locate(keys), view.legs(0, END), view.number]

        wanted = said()
        self.assertEqual(view.route(key(0)), 1)

        def read() -> None:
            for _ in range(5):
                self.assertEqual(said(), wanted)
                self.assertEqual(view.clone().routes(keys), wanted[1])

        together(*[read] * 8)

    def test_calls_run_at_the_same_time(self) -> None:
        view = fresh().view()
        both = threading.Barrier(2)
        call = lib.view_routes

        def waiting(*words: Any) -> int:
            both.wait(60)
            answer: int = call(*words)
            return answer

        keys = array("Q", [key(2), END])
        with mock.patch.object(lib, "view_routes", waiting):
            together(*[lambda: self.assertEqual(view.routes(keys)[0], 1)] * 2)

    def test_closing_while_a_call_runs(self) -> None:
        view = fresh().view()
        begun, closed = threading.Event(), threading.Event()
        call = lib.view_routes

        def waiting(*words: Any) -> int:
            begun.set()
            closed.wait(60)
            answer: int = call(*words)
            return answer

        def close() -> None:
            begun.wait(60)
            view.close()
            closed.set()

        with mock.patch.object(lib, "view_routes", waiting):
            together(lambda: self.assertEqual(view.routes(array("Q", [key(2)]))[0], 1), close)
        for asked in (lambda: view.route(0), view.clone):
            with self.assertRaises(ClosedError):
                asked()


class Readers(unittest.TestCase):
    """A view for each thread."""

    def test_each_reader_has_a_view(self) -> None:
        router = fresh()
        lock = threading.Lock()
        published = [router.view()]

        def read() -> None:
            while True:
                with lock:
                    mine = published[0].clone()
                if mine.route(key(2)) == 3:
                    self.assertEqual(mine.route(key(6)), 4)
                    return

        def publish(view: View) -> None:
            with lock:
                published[0] = view

        def write() -> None:
            router.done(1, 0, 4)
            publish(router.view())
            router.loaded(1, 0, 3, key(2), key(3))
            publish(router.view())
            router.close()

        together(read, read, read, read, write)

    def test_batches_at_the_same_time(self) -> None:
        view = Router(1, wide_plan(4096, 0), wide_plan(4096, 1)).view()
        keys = array("Q", range(0, 4096 << 32, 1 << 28))
        wanted = view.routes(keys)

        def read() -> None:
            mine = view.clone()
            for _ in range(5):
                self.assertEqual(mine.routes(keys), wanted)

        together(*[read] * 4)

    def test_handles_are_closed_in_any_thread(self) -> None:
        views = [Router(1, OLD, NEW).view() for _ in range(50)]
        views += [it.clone() for it in views]

        def drop() -> None:
            while True:
                try:
                    view = views.pop()
                except IndexError:
                    return
                self.assertEqual(view.route(Rank(2, 0)), 1)

        together(*[drop] * 4)


if __name__ == "__main__":
    unittest.main()
