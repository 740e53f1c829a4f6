"""Courses that a partition closes: it gives no more in them."""

import unittest
from typing import Callable, List

from squall import (
    END,
    Chunk,
    Course,
    EndedError,
    NotOpenError,
    NumberError,
    Part,
    PartError,
    Rank,
    frame,
)

from .test_handles import open_part
from .test_parts import CHUNK, part_of
from .worked import NEW, OLD, OPENING_FRAME, key


class ClosedCourses(unittest.TestCase):
    """What partitions give and load once a course is closed."""

    def test_what_comes_in_is_loaded(self) -> None:
        part = open_part(3)
        part.give_at(key(6))
        self.assertIs(part.course_closed(1), False)
        for _ in range(2):
            self.assertEqual(part.close_course(), 1)
            self.assertEqual([part.course_closed(it) for it in range(3)], [False, True, False])
        self.assertIs(part.load(CHUNK), True)
        part.finish(0)
        wanted = [(key(2), key(3)), (key(5), key(6)), (Rank(6, 1), key(9))]
        self.assertEqual(part.held(), wanted)
        self.assertEqual(part.given(1), [(key(6), Rank(6, 1))])

    def test_a_newer_course_is_not_closed(self) -> None:
        part = open_part(3)
        part.load(CHUNK)
        part.close_course()
        part.hear(Course(2, NEW, OLD).frame())
        part.hear(frame.opened(2, 0))
        self.assertEqual([part.course_closed(it) for it in [1, 2]], [True, False])
        self.assertEqual(part.give(1), Chunk(key(2), Rank(2, 1), 2, 0, 3, 1))
        self.assertEqual((part.close_course(), part.course_closed(2)), (2, True))
        with self.assertRaises(EndedError):
            part.give(1)

    def test_nothing_is_given(self) -> None:
        # Whatever else is so, but for a rank that is no key's.
        calls: List[Callable[[Part], object]] = [
            lambda it: it.give(1),
            lambda it: it.give(0),
            lambda it: it.give_at(key(2)),
            lambda it: it.give_at(Rank(2, 1)),
            lambda it: it.give_at(0),
        ]
        given = open_part(1)
        given.give_at(key(2))
        for part in [part_of(1), given, open_part(2)]:
            part.close_course()
            before = (part.held(), part.given(1), part.board())
            for call in calls:
                with self.assertRaises(EndedError) as raised:
                    call(part)
                self.assertIsInstance(raised.exception, PartError)
            with self.assertRaises(NumberError):
                part.give_at(END)
            self.assertEqual((part.held(), part.given(1), part.board()), before)

    def test_a_course_that_is_closed_before_it_opens(self) -> None:
        part = part_of(3)
        self.assertEqual(part.close_course(), 1)
        with self.assertRaises(NotOpenError):
            part.load(CHUNK)
        with self.assertRaises(NotOpenError):
            part.finish(0)
        part.hear(OPENING_FRAME)
        with self.assertRaises(EndedError):
            part.give(1)
        self.assertIs(part.load(CHUNK), True)


if __name__ == "__main__":
    unittest.main()
