"""Frames of single reports."""

import unittest
from typing import Any, Callable, List

from squall import END, Course, NumberError, Router, frame

from .worked import LOAD_FRAME, NEW, OLD, OPENING_FRAME, fresh, key

DONE_FRAME = bytes.fromhex("535101010000001900000000000000010000000100000000000000040100000000")


class Reports(unittest.TestCase):
    """What `frame.loaded`, `frame.done` and `frame.opened` make."""

    def test_frames_of_reports(self) -> None:
        self.assertEqual(frame.loaded(1, 0, 3, key(2), key(3)), LOAD_FRAME)
        self.assertEqual(frame.done(1, 0, 4), DONE_FRAME)
        self.assertEqual(frame.opened(1, 0), OPENING_FRAME)
        self.assertEqual([len(it) for it in [LOAD_FRAME, DONE_FRAME, OPENING_FRAME]], [49, 33, 24])
        self.assertIs(type(frame.opened(1, 0)), bytes)

    def test_frames_are_those_of_a_board(self) -> None:
        greatest = 4294967295
        for number, sub, part, lo, hi in [
            (1, 0, 0, 0, 1),
            (7, 2, 3, key(2), key(3)),
            (greatest, 9999, 9999, 0, END),
            (greatest, 1, 9999, END - 1, END),
        ]:
            calls: List[Any] = [
                (frame.loaded, Router.loaded, (number, sub, part, lo, hi)),
                (frame.done, Router.done, (number, sub, part)),
                (frame.opened, Router.opened, (number, sub)),
            ]
            for make, take, words in calls:
                with self.subTest(report=make.__name__, words=words):
                    router = fresh()
                    take(router, *words)
                    sent = make(*words)
                    self.assertEqual(router.board(), [sent])
                    router = fresh()
                    router.hear(sent)
                    self.assertEqual(router.board(), [sent])

    def test_frames_that_a_router_hears(self) -> None:
        router = Router(1, OLD, OLD)
        router.hear(Course(2, OLD, NEW).frame())
        self.assertEqual((router.number, router.route(key(2))), (2, 1))
        router.hear(frame.loaded(2, 0, 3, key(2), key(3)))
        self.assertEqual(router.route(key(2)), 3)
        router.feed(frame.opened(2, 0) + frame.done(2, 0, 4))
        self.assertEqual(router.route(key(6)), 4)

    def test_reports_outside_their_limits(self) -> None:
        calls: List[Callable[[], object]] = [
            lambda: frame.loaded(0, 0, 3, key(2), key(3)),
            lambda: frame.loaded(1, 10000, 3, key(2), key(3)),
            lambda: frame.loaded(1, 0, 10000, key(2), key(3)),
            lambda: frame.loaded(1, 0, 3, key(3), key(3)),
            lambda: frame.loaded(1, 0, 3, key(3), key(2)),
            lambda: frame.loaded(1, 0, 3, key(3), END + 1),
            lambda: frame.loaded(1, 0, 3, -1, key(3)),
            lambda: frame.loaded(1, 0, 3, key(2), 2**64 + key(3)),
            lambda: frame.loaded(2**32 + 1, 0, 3, key(2), key(3)),
            lambda: frame.done(0, 0, 4),
            lambda: frame.done(1, 10000, 4),
            lambda: frame.done(1, 0, 10000),
            lambda: frame.done(1, 0, 2**32 + 4),
            lambda: frame.opened(0, 0),
            lambda: frame.opened(1, 10000),
            lambda: frame.opened(1, -1),
        ]
        for at, call in enumerate(calls):
            with self.subTest(call=at), self.assertRaises(NumberError) as raised:
                call()
            self.assertEqual(raised.exception.status, 2)
        wrong: List[Any] = ["1", 1.0, None]
        for word in wrong:
            with self.subTest(word=word), self.assertRaises(TypeError):
                frame.opened(word, 0)

    def test_words_may_be_named(self) -> None:
        self.assertEqual(frame.loaded(number=1, sub=0, part=3, lo=key(2), hi=key(3)), LOAD_FRAME)
        self.assertEqual(frame.done(number=1, sub=0, part=4), DONE_FRAME)
        self.assertEqual(frame.opened(number=1, sub=0), OPENING_FRAME)


if __name__ == "__main__":
    unittest.main()
