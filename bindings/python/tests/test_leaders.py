"""Leaders: courses and sub-plans, one after another, and what they refuse."""

import unittest
from typing import Callable, List, Type

from squall import (
    END,
    ClosedError,
    Course,
    FrameError,
    IdleError,
    Leader,
    LeaderError,
    NoDigestError,
    NoMoreError,
    NoNumberError,
    NotDoneError,
    NumberError,
    Plan,
    PlanError,
    PlanFault,
    Router,
    RunningError,
    StreamError,
    frame,
)

from .test_courses import BACK, MOVES, striped
from .test_plans import NO_PLANS
from .worked import LOAD_FRAME, NEW, OLD, key, repair


def begun(last: int = 0) -> Leader:
    """A leader that has begun the course of the examples."""
    leader = Leader(OLD, last)
    leader.begin(NEW)
    return leader


def done(leader: Leader, number: int, sub: int, *parts: int) -> None:
    """Lets the leader hear that the partitions are done."""
    for part in parts:
        leader.hear(frame.done(number, sub, part))


class Leading(unittest.TestCase):
    """Courses and sub-plans, one after another."""

    def test_there_and_back(self) -> None:
        leader = Leader(OLD)
        self.assertFalse(leader.finished)
        leader.begin(NEW)
        with leader.course() as course:
            self.assertEqual((course.number, course.moves()), (1, MOVES))
        self.assertEqual(leader.open_next(), 0)
        self.assertFalse(leader.finished)
        done(leader, 1, 0, 3, 4)
        self.assertIs(leader.finished, True)
        leader.begin(OLD)
        self.assertIs(leader.finished, False)
        course = leader.course()
        leader.close()
        self.assertEqual((course.number, course.moves()), (2, BACK))

    def test_a_course_that_ends_early(self) -> None:
        leader, router = begun(), Router(1, OLD, NEW)
        leader.open_next()
        # The keys of 2:0 have moved, and those of 6:0 to 8:0 have not.
        middle = Plan.of(
            [
                (0, key(2), 1),
                (key(2), key(3), 3),
                (key(3), key(5), 2),
                (key(5), key(9), 3),
                (key(9), END, 4),
            ]
        )
        leader.begin_from(middle, NEW)
        with leader.course() as course:
            self.assertEqual((course.number, course.moves()), (2, MOVES[1:]))
            for sent in [Course(1, OLD, NEW).frame(), frame.opened(1, 0), course.frame()]:
                router.hear(sent)
        self.assertEqual(leader.board(), router.board())
        self.assertEqual((leader.finished, leader.open_next()), (False, 0))
        done(leader, 2, 0, 4)
        self.assertTrue(leader.finished)
        leader.begin_from(NEW, OLD)
        leader.begin_from(NEW, NEW)
        self.assertEqual((leader.course().number, leader.finished), (4, True))

    def test_a_first_course_from_another_plan(self) -> None:
        leader = Leader(OLD, 6)
        leader.begin_from(NEW, OLD)
        self.assertEqual((leader.course().number, leader.course().moves()), (7, BACK))

    def test_a_course_of_many_subplans(self) -> None:
        # One partition gives keys to each of 300 others.
        leader = Leader(Plan.of([(0, END, 9999)]))
        leader.begin(striped(300, 0))
        course = leader.course()
        for sub in range(course.subplans):
            self.assertEqual(leader.open_next(), sub)
            done(leader, 1, sub, *course.receivers(sub))
        self.assertTrue(leader.finished)

    def test_a_course_in_which_nothing_moves(self) -> None:
        leader = Leader(OLD, 6)
        leader.begin(OLD)
        self.assertEqual((leader.course().number, leader.finished), (7, True))

    def test_resuming(self) -> None:
        course = Course(7, OLD, NEW)
        leader = Leader.resume(course)
        course.close()
        self.assertIs(type(leader), Leader)
        self.assertEqual((leader.open_next(), leader.course().moves()), (0, MOVES))
        done(leader, 7, 0, 3, 4)
        leader.begin(OLD)
        self.assertEqual(leader.course().number, 8)
        with self.assertRaises(ClosedError):
            Leader.resume(course)

    def test_a_leader_from_a_router(self) -> None:
        leader, router = begun(4), Router(1, OLD, OLD)
        leader.open_next()
        done(leader, 5, 0, 3)
        for sent in leader.board():
            router.hear(sent)
        other = Leader.resume(router.course())
        for sent in router.board():
            other.hear(sent)
        self.assertEqual(other.board(), leader.board())
        self.assertEqual(other.course().number, 5)
        with self.assertRaises(NotDoneError) as raised:
            self.assertEqual(other.open_next(), 0)
            other.open_next()
        self.assertEqual((raised.exception.part, raised.exception.sub), (4, 0))

    def test_a_leader_that_is_rebuilt(self) -> None:
        calls: List[Callable[[Leader], object]] = [
            lambda it: it.begin(NEW),
            lambda it: it.open_next(),
            lambda it: it.hear(LOAD_FRAME),
            lambda it: it.hear(frame.done(1, 0, 3)),
            lambda it: it.hear(frame.done(1, 0, 4)),
            lambda it: it.begin(OLD),
            lambda it: it.open_next(),
        ]
        leaders = [Leader(OLD), Leader(OLD)]
        answers = [[it(leader) for it in calls] for leader in leaders]
        self.assertEqual(answers[0], answers[1])
        self.assertEqual(leaders[0].board(), leaders[1].board())
        self.assertEqual([it.course().number for it in leaders], [2, 2])


class Refusals(unittest.TestCase):
    """Each reason for which a leader does not go on. Nothing changes."""

    def refused(
        self, kind: Type[LeaderError], leader: Leader, call: Callable[[Leader], object]
    ) -> LeaderError:
        """What the call raises, which is this and changes nothing."""
        before = (leader.board(), leader.finished)
        with self.assertRaises(LeaderError) as raised:
            call(leader)
        self.assertIs(type(raised.exception), kind)
        self.assertEqual((leader.board(), leader.finished), before)
        return raised.exception

    def test_no_course(self) -> None:
        self.refused(IdleError, Leader(OLD), lambda it: it.open_next())
        error = self.refused(IdleError, Leader(OLD), lambda it: it.course())
        self.assertEqual(str(error), "no course is begun")

    def test_a_course_that_is_not_over(self) -> None:
        leader = begun()
        self.refused(RunningError, leader, lambda it: it.begin(OLD))
        leader.open_next()
        self.refused(RunningError, leader, lambda it: it.begin(OLD))

    def test_a_partition_that_is_not_done(self) -> None:
        leader = begun()
        leader.open_next()
        for part in [3, 4]:
            error = self.refused(NotDoneError, leader, lambda it: it.open_next())
            assert isinstance(error, NotDoneError)
            self.assertEqual((error.part, error.sub), (part, 0))
            said = f"partition {part} has not reported that it has all keys of sub-plan 0"
            self.assertEqual(str(error), said)
            done(leader, 1, 0, part)
        self.refused(NoMoreError, leader, lambda it: it.open_next())

    def test_the_greatest_number(self) -> None:
        leader = Leader(OLD, 4294967294)
        leader.begin(OLD)
        self.refused(NoNumberError, leader, lambda it: it.begin(NEW))
        self.assertEqual(leader.course().number, 4294967295)
        self.refused(NoNumberError, leader, lambda it: it.begin_from(OLD, NEW))
        self.refused(NoNumberError, Leader(OLD, 4294967295), lambda it: it.begin(NEW))
        for last in [-1, 2**32]:
            with self.assertRaises(NumberError):
                Leader(OLD, last)

    def test_texts_that_are_no_plans(self) -> None:
        leader = Leader(OLD)
        calls: List[Callable[[str], object]] = [
            Leader,
            leader.begin,
            lambda it: leader.begin_from(it, "{}"),
            lambda it: leader.begin_from(OLD, it),
        ]
        for text, fault, place in NO_PLANS:
            is_bound = fault in (PlanFault.OVERLAP, PlanFault.GAP)
            wanted = (fault, None if is_bound else place, place if is_bound else None)
            plans, statuses = [None, "new", "old", "new"], [fault, fault + 20] * 2
            for call, plan, status in zip(calls, plans, statuses):
                with self.subTest(text=text[:60], plan=plan):
                    with self.assertRaises(PlanError) as raised:
                        call(text)
                    error = raised.exception
                    self.assertEqual((error.plan, error.status), (plan, status))
                    self.assertEqual((error.fault, error.index, error.bound), wanted)
        self.assertEqual(leader.board(), [])
        leader.begin(NEW)
        self.assertEqual(leader.course().number, 1)

    def test_a_leader_that_is_closed(self) -> None:
        leader = begun()
        leader.close()
        with self.assertRaises(ClosedError):
            leader.course()


class Frames(unittest.TestCase):
    """What leaders hear, and tell others."""

    def test_a_router_follows(self) -> None:
        leader, router = begun(1), Router(1, OLD, OLD)
        router.hear(leader.board()[0])
        self.assertEqual((router.number, router.route(key(2))), (2, 1))
        leader.hear(bytearray(frame.done(2, 0, 3)))
        router.hear(leader.board()[0])
        self.assertEqual(router.route(key(2)), 3)

    def test_a_standby_catches_up(self) -> None:
        leader, standby = begun(), Leader(OLD)
        leader.open_next()
        with self.assertRaises(NoDigestError):
            leader.repair()
        repair(leader, standby)
        self.assertEqual(standby.board(), leader.board())
        leader.hear(standby.digest())
        self.assertEqual(leader.repair(), [])

    def test_bytes_that_are_no_frame(self) -> None:
        leader = Leader(OLD)
        for bad in [b"", LOAD_FRAME[:-1], LOAD_FRAME + b"\0", bytearray(b"no")]:
            with self.assertRaises(FrameError):
                leader.hear(bad)
        self.assertEqual(leader.board(), [])

    def test_a_stream(self) -> None:
        leader = begun()
        leader.open_next()
        stream = frame.done(1, 0, 3) + frame.done(1, 0, 4)
        leader.feed(stream[:-1])
        self.assertGreater(leader.waiting, 0)
        self.assertFalse(leader.finished)
        leader.feed(bytearray(stream[-1:]))
        self.assertEqual(leader.waiting, 0)
        self.assertTrue(leader.finished)
        with self.assertRaises(FrameError):
            leader.feed(b"no")
        with self.assertRaises(StreamError):
            leader.feed(stream)
        leader.hear(frame.done(1, 0, 3))


if __name__ == "__main__":
    unittest.main()
