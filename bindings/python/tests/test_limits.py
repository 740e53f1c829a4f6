"""The limit on what frames may tell a router, and how many of them it took."""

import unittest
from typing import Any, Dict, List, Tuple

from squall import (
    Course,
    FrameError,
    FullError,
    NoDigestError,
    NumberError,
    Router,
    StreamError,
    frame,
)

from .worked import EMPTY_DELTA, EMPTY_DIGEST, LOAD_FRAME, NEW, OLD, OPENING_FRAME, fresh, key

#: Of each number of a limit a frame that brings it to 1, and one that brings it to 2.
PAIRS: Dict[str, Tuple[bytes, bytes]] = {
    "cells": (frame.done(1, 0, 3), frame.done(1, 0, 4)),
    "spans": (frame.loaded(1, 0, 3, 0, 1), frame.loaded(1, 0, 3, 2, 3)),
    "opened": (frame.opened(1, 0), frame.opened(1, 1)),
    "issues": (Course(2, OLD, NEW).frame(), Course(3, OLD, NEW).frame()),
}
#: Both ways by which a router takes frames.
WAYS: List[Any] = [Router.feed, Router.hear]
NOTHING = {name: 0 for name in PAIRS}


def seen(router: Router) -> List[object]:
    """What a caller can see of a router."""
    return [router.board(), router.counts(), router.number, router.taken]


class Limits(unittest.TestCase):
    """What is refused, and what not."""

    def refuses(self, router: Router, take: Any, data: bytes) -> None:
        """Checks that the router refuses the bytes, and that nothing changes."""
        before = seen(router)
        with self.assertRaises(FullError):
            take(router, data)
        self.assertEqual(seen(router), before)

    def test_each_number_has_its_limit(self) -> None:
        for name, (first, second) in PAIRS.items():
            for take in WAYS:
                with self.subTest(name=name, take=take):
                    router = fresh()
                    router.limit(**{name: 0})
                    self.refuses(router, take, first)
                    router.limit(**{name: 1})
                    take(router, first)
                    self.refuses(router, take, bytearray(second))
                    take(router, first)
                    self.assertEqual(getattr(router.counts(), name), 1)
                    router.limit(**{name: 2})
                    take(router, second)
                    self.assertEqual((getattr(router.counts(), name), router.taken), (2, 3))

    def test_a_limit_is_taken_away(self) -> None:
        for take in WAYS:
            router = fresh()
            router.limit(**NOTHING)
            self.refuses(router, take, LOAD_FRAME)
            router.limit()
            for pair in PAIRS.values():
                for given in pair:
                    take(router, given)
            self.assertEqual((router.number, router.taken), (3, 8))
            router.limit(spans=2**64 - 1)
            take(router, LOAD_FRAME)

    def test_numbers_that_have_no_64_bits(self) -> None:
        router = fresh()
        for name in PAIRS:
            for number in [-1, 2**64]:
                with self.assertRaises(NumberError):
                    router.limit(**{name: number})
            wrong: Dict[str, Any] = {name: 1.0}
            with self.assertRaises(TypeError):
                router.limit(**wrong)
        # There is no limit still.
        router.hear(LOAD_FRAME)

    def test_own_reports_and_digests_pass(self) -> None:
        for take in WAYS:
            router = fresh()
            router.limit(**NOTHING)
            router.loaded(1, 0, 3, 0, 1)
            router.done(1, 0, 4)
            router.opened(1, 0)
            router.issued(2, OLD)
            # It tells more than the limit, so what brings nothing new is refused too.
            self.refuses(router, take, PAIRS["spans"][0])
            self.refuses(router, take, EMPTY_DELTA)
            take(router, EMPTY_DIGEST)
            self.assertEqual((router.repair(), router.taken), (router.board(), 1))

    def test_a_piece_comes_again(self) -> None:
        for cut in range(len(LOAD_FRAME)):
            router = fresh()
            router.limit(cells=0)
            router.feed(LOAD_FRAME[:cut])
            for _ in range(2):
                self.refuses(router, Router.feed, LOAD_FRAME[cut:])
            router.hear(OPENING_FRAME)
            router.limit(cells=1)
            router.feed(LOAD_FRAME[cut:])
            self.assertEqual((router.route(key(2)), router.taken), (3, 2))

    def test_a_piece_is_taken_whole_or_not_at_all(self) -> None:
        router = fresh()
        three = PAIRS["spans"][0] + EMPTY_DIGEST + PAIRS["spans"][1]
        router.limit(spans=1)
        self.refuses(router, Router.feed, three)
        with self.assertRaises(NoDigestError):
            router.repair()
        router.limit(spans=2)
        router.feed(three)
        self.assertEqual((router.counts().spans, router.taken), (2, 3))

    def test_frames_that_were_taken(self) -> None:
        router = fresh()
        self.assertEqual(router.taken, 0)
        router.loaded(1, 0, 3, 4, 5)
        with self.assertRaises(FrameError):
            router.feed(LOAD_FRAME + OPENING_FRAME + b"ST")
        with self.assertRaises(StreamError):
            router.feed(LOAD_FRAME)
        with self.assertRaises(FrameError):
            router.hear(b"ST")
        self.assertEqual(router.taken, 2)
        router.hear(LOAD_FRAME)
        router.hear(EMPTY_DIGEST)
        self.assertEqual(router.taken, 4)

    def test_the_limit_is_on_what_is_joined(self) -> None:
        router = fresh()
        router.limit(cells=1, spans=1, opened=3, issues=0)
        router.hear(frame.loaded(1, 0, 3, 0, 2))
        router.hear(frame.loaded(1, 0, 3, 1, 4))
        self.refuses(router, Router.hear, frame.loaded(1, 0, 3, 5, 6))
        self.refuses(router, Router.hear, frame.opened(1, 3))
        router.hear(frame.opened(1, 2))
        self.assertEqual(router.counts(), (1, 1, 3, 0))


if __name__ == "__main__":
    unittest.main()
