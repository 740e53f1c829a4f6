"""Courses: what moves, in which sub-plan, and between which plans."""

import unittest
from typing import Any, List

from squall import (
    END,
    ClosedError,
    Course,
    Leg,
    Move,
    NumberError,
    Plan,
    PlanError,
    PlanFault,
    Rank,
    Router,
)

from .test_plans import NO_PLANS
from .worked import FIVE, NEW, OLD, fresh, key, moved, wide_plan

MOVES = [Move(key(2), key(3), 1, 3, 0), Move(key(6), key(9), 3, 4, 0)]
BACK = [Move(key(2), key(3), 3, 1, 0), Move(key(6), key(9), 4, 3, 0)]


def striped(count: int, shift: int) -> Plan:
    """A plan of so many ranges of a root each, at a partition each."""
    bounds = [key(it) for it in range(count)] + [END]
    return Plan.of([(bounds[it], bounds[it + 1], it + shift) for it in range(count)])


class Answers(unittest.TestCase):
    """What a course says."""

    def test_the_course_of_the_examples(self) -> None:
        course = Course(1, OLD, NEW)
        self.assertEqual((course.number, course.subplans), (1, 1))
        self.assertEqual(course.moves(), MOVES)
        self.assertEqual(course.receivers(0), [3, 4])
        wanted = [(0, key(3), 1), (key(3), key(5), 2), (key(5), key(9), 3), (key(9), END, 4)]
        self.assertEqual(course.old_plan(), wanted)
        wanted = [(0, key(2), 1), (key(2), key(3), 3), (key(3), key(5), 2), (key(5), key(6), 3)]
        self.assertEqual(course.new_plan(), wanted + [(key(6), END, 4)])
        first = '{"plan":[{"from":[0,0],"part":1,"to":[3,0]},{"from":[3,0],"part":2,"to":[5,0]},'
        self.assertTrue(course.old_text().startswith(first))
        self.assertTrue(course.new_text().endswith('{"from":[6,0],"part":4,"to":"end"}]}'))
        again = Course(1, course.old_text(), course.new_text())
        self.assertEqual(again.moves(), course.moves())
        self.assertEqual(again.new_text(), course.new_text())

    def test_where_a_course_leaves_the_keys(self) -> None:
        course = Course(1, OLD, NEW)
        left = course.left([(key(7), END), (key(2), Rank(2, 5)), (key(7), key(8))])
        back = Course(2, left, OLD)
        self.assertEqual(back.moves(), [(key(2), Rank(2, 5), 3, 1, 0), (key(7), key(9), 4, 3, 0)])
        self.assertEqual(course.left([]), course.old_text())
        self.assertEqual(course.left([(0, END)]), course.new_text())
        for wrong in [(key(2), key(2)), (key(3), key(2)), (key(2), END + 1)]:
            with self.assertRaises(NumberError):
                course.left([wrong])
        with self.assertRaises(NumberError):
            course.left([(-1, key(2))])
        # Each second key of one partition: no plan has so many ranges.
        course = Course(1, Plan.of([(0, END, 1)]), Plan.of([(0, END, 2)]))
        odd = [(it, it + 1) for it in range(1, 4096, 2)]
        with self.assertRaises(NumberError):
            course.left(odd)
        self.assertEqual(len(Course(2, course.left(odd[1:]), OLD).old_plan()), 4095)

    def test_a_course_of_two_subplans(self) -> None:
        # The keys of partition 1 go to 2 and to 3, in a sub-plan each; those of 2 go to 1.
        old = Plan.of([(0, key(4), 1), (key(4), END, 2)])
        new = Plan.of([(0, Rank(1, 5), 3), (Rank(1, 5), key(4), 2), (key(4), END, 1)])
        course = Course(9, old, new)
        self.assertEqual((course.number, course.subplans), (9, 2))
        wanted = [(0, Rank(1, 5), 1, 3, 1), (Rank(1, 5), key(4), 1, 2, 0), (key(4), END, 2, 1, 0)]
        self.assertEqual(course.moves(), wanted)
        self.assertEqual([course.receivers(it) for it in range(3)], [[1, 2], [3], []])

    def test_a_course_in_which_nothing_moves(self) -> None:
        course = Course(4294967295, OLD, OLD)
        self.assertEqual((course.number, course.subplans, course.moves()), (4294967295, 0, []))
        self.assertEqual((course.receivers(0), course.old_plan()), ([], course.new_plan()))
        self.assertEqual(Course(1, FIVE, FIVE).new_plan(), [(0, END, 5)])

    def test_types(self) -> None:
        course = Course(1, OLD, NEW)
        for move in course.moves():
            self.assertIs(type(move), Move)
            self.assertEqual((type(move.lo), type(move.hi)), (Rank, Rank))
        for leg in course.old_plan() + course.new_plan():
            self.assertIs(type(leg), Leg)
            self.assertEqual((type(leg.lo), type(leg.hi)), (Rank, Rank))
        self.assertEqual(str(course.moves()[1]), "[6:0,9:0) 3 to 4 sub 0")

    def test_subplans_that_there_are_not(self) -> None:
        course = Course(1, OLD, NEW)
        for sub in [1, 9999, 10000, 4294967295]:
            self.assertEqual(course.receivers(sub), [])
        for sub in [-1, 2**32]:
            with self.subTest(sub=sub), self.assertRaises(NumberError):
                course.receivers(sub)
        with self.assertRaises(TypeError):
            course.receivers("0")  # type: ignore[arg-type]

    def test_more_than_one_call_gives(self) -> None:
        for count in [1, 2, 255, 256, 257, 511, 512, 513, 4095, 4096]:
            with self.subTest(count=count):
                old, new = striped(count, 0), striped(count, 1)
                course = Course(1, old, new)
                moves = course.moves()
                self.assertEqual(
                    [(it.source, it.lo) for it in moves], list(enumerate(map(key, range(count))))
                )
                self.assertEqual([it.hi for it in moves], [it.lo for it in moves[1:]] + [END])
                self.assertEqual({(it.dest - it.source, it.sub) for it in moves}, {(1, 0)})
                self.assertEqual(course.receivers(0), list(range(1, count + 1)))
                self.assertEqual(Plan.of(course.old_plan()), old)
                self.assertEqual(Plan.of(course.new_plan()), new)

    def test_many_subplans(self) -> None:
        # One partition gives keys to each of 300 others.
        course = Course(1, Plan.of([(0, END, 9999)]), striped(300, 0))
        self.assertEqual((course.subplans, len(course.moves())), (300, 300))
        for move in course.moves():
            self.assertEqual(course.receivers(move.sub), [move.dest])


class Faults(unittest.TestCase):
    """Courses that are none."""

    def fault(self, *words: Any) -> PlanError:
        """The fault of a course of these words."""
        with self.assertRaises(PlanError) as raised:
            Course(*words)
        return raised.exception

    def test_texts_that_are_no_plans(self) -> None:
        for text, fault, place in NO_PLANS:
            is_bound = fault in (PlanFault.OVERLAP, PlanFault.GAP)
            wanted = (fault, None if is_bound else place, place if is_bound else None)
            for error, plan, status in [
                (self.fault(1, text, NEW), "old", fault),
                (self.fault(1, OLD, text), "new", fault + 20),
            ]:
                with self.subTest(text=text[:60], plan=plan):
                    self.assertEqual((error.plan, error.status), (plan, status))
                    self.assertEqual((error.fault, error.index, error.bound), wanted)

    def test_the_first_fault_is_raised(self) -> None:
        self.assertEqual(self.fault(1, "[]", "").status, PlanFault.SHAPE)
        for number in [0, -1, 2**32, 2**32 + 1]:
            with self.subTest(number=number), self.assertRaises(NumberError):
                Course(number, "[]", "")
        wrong: List[Any] = ["1", None, 1.0]
        for number in wrong:
            with self.subTest(number=number), self.assertRaises(TypeError):
                Course(number, OLD, NEW)

    def test_what_errors_say(self) -> None:
        said = "the new text is no plan: Gap 3:0: this key is in no range"
        self.assertEqual(str(self.fault(1, OLD, Plan.of([(0, key(3), 1)]))), said)


class OfRouters(unittest.TestCase):
    """Courses that a router knows, and those that routers are sent."""

    def test_the_first_and_the_newest(self) -> None:
        router = fresh()
        before = router.course()
        router.issued(5, OLD)
        first, newest = router.first_course(), router.course()
        router.issued(7, FIVE)
        router.close()
        self.assertEqual([it.number for it in [before, first, newest]], [1, 1, 5])
        self.assertEqual(newest.moves(), BACK)
        newest.close()
        self.assertEqual(first.moves(), MOVES)
        first.close()
        self.assertEqual((before.subplans, before.moves()), (1, MOVES))
        for ask in [router.course, router.first_course]:
            with self.assertRaises(ClosedError):
                ask()

    def test_a_number_with_two_pairs_of_plans(self) -> None:
        router = fresh()
        router.issued(2, FIVE)
        router.issued(2, OLD)
        self.assertEqual((router.course().number, router.first_course().number), (1, 1))

    def test_a_course_from_a_frame(self) -> None:
        mover, proxy = Router(1, OLD, OLD), Router(1, OLD, OLD)
        mover.issued(2, NEW)
        for frame in mover.board():
            proxy.hear(frame)
        self.assertEqual((proxy.course().number, proxy.course().moves()), (2, MOVES))
        self.assertEqual((proxy.first_course().number, proxy.first_course().moves()), (1, []))

    def test_frames_of_courses(self) -> None:
        for count in [1, 2, 17, 18, 19, 100, 4096]:
            with self.subTest(count=count):
                course = Course(2, striped(count, 0), striped(count, 1))
                sent = course.frame()
                # A head of 8 bytes, 17 in all for counts and the course, and 12 for each range.
                self.assertEqual(len(sent), 8 + 4 + 4 + 5 + 2 * (4 + 12 * count) + 4)
                router = Router(1, OLD, OLD)
                router.hear(sent)
                self.assertEqual(router.board(), [sent])
                self.assertEqual(router.course().moves(), course.moves())
                self.assertEqual(router.course().frame(), sent)

    def test_reports_change_no_course(self) -> None:
        router = moved()
        router.done(1, 0, 4)
        self.assertEqual(router.course().moves(), MOVES)

    def test_a_leader_works_off_subplans(self) -> None:
        course = Course(1, wide_plan(300, 0), wide_plan(300, 7))
        router = Router(1, wide_plan(300, 0), wide_plan(300, 7))
        for sub in range(course.subplans):
            router.opened(1, sub)
            for part in course.receivers(sub):
                router.done(1, sub, part)
        self.assertEqual(router.legs(0, END), course.new_plan())


if __name__ == "__main__":
    unittest.main()
