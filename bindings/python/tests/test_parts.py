"""Partitions: what they hold, give, load and reply, and what they refuse."""

import unittest
from functools import partial
from typing import Any, Callable, List

from squall import (
    END,
    Answer,
    Chunk,
    ClosedError,
    Course,
    Errand,
    FrameError,
    GivenError,
    Next,
    NoDigestError,
    NotAllError,
    NotHeldError,
    NothingDueError,
    NothingLeftError,
    NotOpenError,
    NotOutgoingError,
    NumberError,
    Part,
    PartError,
    Plan,
    Rank,
    Reply,
    Router,
    Span,
    SquallError,
    StrangerError,
    StreamError,
    ZeroMaxError,
    frame,
)

from .test_courses import striped
from .test_handles import open_part
from .test_threads import together
from .worked import LOAD_FRAME, NEW, OLD, OPENING_FRAME, fresh, key, repair

#: All keys that partition 1 gives to 3.
CHUNK = Chunk(key(2), key(3), 1, 0, 1, 3)


def part_of(part: int) -> Part:
    """A partition that has heard nothing."""
    return Part(part, Course(1, OLD, NEW))


class Keys(unittest.TestCase):
    """What partitions hold, give and load."""

    def test_what_partitions_hold_at_first(self) -> None:
        held = [part_of(it).held() for it in [1, 2, 3, 4, 5, 9999]]
        wanted = [(0, key(3)), (key(3), key(5)), (key(5), key(9)), (key(9), END)]
        self.assertEqual(held, [[it] for it in wanted] + [[], []])
        part = part_of(1)
        self.assertEqual((part.given(1), part.loaded(1), part.board()), ([], [], []))

    def test_gifts(self) -> None:
        part = open_part(1)
        self.assertEqual(part.give(7), Chunk(key(2), Rank(2, 7), 1, 0, 1, 3))
        self.assertEqual(part.give_at(Rank(2, 9)), Chunk(Rank(2, 9), Rank(2, 10), 1, 0, 1, 3))
        self.assertEqual(part.give(2**64 - 1), (Rank(2, 7), Rank(2, 9), 1, 0, 1, 3))
        self.assertEqual(part.give(2**64 - 1), (Rank(2, 10), key(3), 1, 0, 1, 3))
        self.assertEqual(part.held(), [(0, key(2))])
        self.assertEqual((part.given(1), part.given(2)), ([(key(2), key(3))], []))

    def test_loads(self) -> None:
        part = open_part(3)
        late = CHUNK._replace(lo=Rank(2, 8))
        self.assertIs(part.load(late), True)
        self.assertIs(part.load(late), False)
        self.assertEqual(part.held(), [(Rank(2, 8), key(3)), (key(5), key(9))])
        # Some of its keys are new.
        self.assertEqual(part.fresh(CHUNK), [(key(2), Rank(2, 8))])
        self.assertIs(part.load(CHUNK), True)
        self.assertEqual(part.fresh(CHUNK), [])
        self.assertIs(part.load(CHUNK._replace(hi=Rank(2, 3))), False)
        self.assertEqual(part.loaded(1), [(key(2), key(3))])
        self.assertEqual(part.loaded(2), [])
        router = fresh()
        for sent in part.board():
            router.hear(sent)
        self.assertEqual(router.route(key(2)), 3)

    def test_a_load_is_taken_as_plain_numbers(self) -> None:
        lo, hi = int(CHUNK.lo), int(CHUNK.hi)
        self.assertTrue(open_part(3).load(Chunk(lo, hi, 1, 0, 1, 3)))  # type: ignore[arg-type]
        self.assertTrue(open_part(3).load((lo, hi, 1, 0, 1, 3)))  # type: ignore[arg-type]

    def test_finishing(self) -> None:
        part = open_part(3)
        part.load(CHUNK)
        for _ in range(2):
            part.finish(0)
        router = fresh()
        router.hear(part.board()[0])
        self.assertEqual(router.board(), part.board())
        self.assertEqual(router.counts().cells, 1)

    def test_types(self) -> None:
        part = open_part(1)
        chunk = part.give(7)
        self.assertEqual((type(chunk), type(chunk.lo), type(chunk.hi)), (Chunk, Rank, Rank))
        for span in part.held() + part.given(1):
            self.assertEqual((type(span), type(span.lo), type(span.hi)), (Span, Rank, Rank))
        self.assertEqual(str(chunk), "[2:0,2:7) 1 to 3 course 1 sub 0")
        self.assertEqual(str(Span(key(5), END)), "[5:0,end)")
        self.assertIs(type(part.serve(0)), Answer)

    def test_more_spans_than_are_asked_for_first(self) -> None:
        for count in [63, 64, 65, 1023, 1024, 1025]:
            # Every second root is of partition 1.
            ranges = [(key(it), key(it + 1), it % 2) for it in range(2 * count)]
            plan = Plan.of(ranges + [(key(2 * count), END, 0)])
            held = Part(1, Course(1, plan, plan)).held()
            self.assertEqual(held, [(key(it), key(it + 1)) for it in range(1, 2 * count, 2)])


class Replies(unittest.TestCase):
    """What partitions reply, and errands that heed it."""

    def test_each_reply(self) -> None:
        source, dest = open_part(1), open_part(3)
        self.assertEqual(source.serve(key(2)), Answer(Reply.HELD, None, None))
        self.assertEqual(dest.serve(key(2)), Answer(Reply.PENDING, 1, None))
        dest.load(source.give_at(key(2)))
        self.assertEqual(source.serve(key(2)), Answer(Reply.MOVED, 3, 1))
        self.assertEqual(dest.serve(key(2), after=1), Answer(Reply.HELD, None, None))
        self.assertEqual(dest.serve(0), Answer(Reply.ELSEWHERE, 1, None))
        self.assertEqual(dest.serve(key(3), after=2), Answer(Reply.BEHIND, None, None))

    def test_an_errand_to_the_key(self) -> None:
        parts = {it: open_part(it) for it in [1, 3]}
        chunk = parts[1].give_at(key(2))
        errand = fresh().errand(key(2))

        def ask(client: Errand) -> Next:
            return client.heed(*parts[client.asked].serve(key(2), client.number))

        self.assertIs(ask(errand), Next.ASK)
        self.assertIs(ask(errand), Next.AGAIN)
        parts[3].load(chunk)
        self.assertIs(ask(errand), Next.SERVED)
        self.assertEqual((errand.asked, errand.number), (3, 1))

    def test_partition_0(self) -> None:
        old, new = Plan.of([(0, END, 1)]), Plan.of([(0, END, 0)])
        part = Part(1, Course(1, old, new))
        part.hear(frame.opened(1, 0))
        part.give(1)
        self.assertEqual(part.serve(0), Answer(Reply.MOVED, 0, 1))
        with Router(1, old, new).errand(0) as errand:
            self.assertIs(errand.heed(*part.serve(0)), Next.ASK)


class Refusals(unittest.TestCase):
    """Each reason for which a partition does not give, load or finish. Nothing changes."""

    def refused(self, kind: type, part: Part, call: Callable[[Part], object]) -> None:
        """Looks whether the call raises this, and changes nothing."""
        before = (part.held(), part.given(1), part.loaded(1), part.board())
        with self.assertRaises(SquallError) as raised:
            call(part)
        self.assertIs(type(raised.exception), kind)
        self.assertEqual(isinstance(raised.exception, PartError), kind is not NumberError)
        self.assertEqual((part.held(), part.given(1), part.loaded(1), part.board()), before)

    def test_before_the_opening(self) -> None:
        calls: List[Callable[[Part], object]] = [
            lambda it: it.give(1),
            lambda it: it.give_at(key(2)),
            lambda it: it.load(CHUNK),
            lambda it: it.finish(0),
        ]
        for call in calls:
            self.refused(NotOpenError, part_of(3), call)

    def test_gifts(self) -> None:
        part = open_part(1)
        self.refused(ZeroMaxError, part, lambda it: it.give(0))
        self.refused(NotOutgoingError, part, lambda it: it.give_at(0))
        part.give_at(key(2))
        self.refused(GivenError, part, lambda it: it.give_at(key(2)))
        part.give(2**64 - 1)
        self.refused(NothingLeftError, part, lambda it: it.give(1))
        self.refused(NotOutgoingError, open_part(2), lambda it: it.give_at(key(3)))
        self.refused(NothingLeftError, open_part(2), lambda it: it.give(1))

    def test_a_key_that_goes_out_and_is_not_held(self) -> None:
        # By course 2 the keys go back, before partition 3 has loaded them by course 1.
        part = open_part(3)
        part.hear(Course(2, NEW, OLD).frame())
        part.hear(frame.opened(2, 0))
        self.refused(NotHeldError, part, lambda it: it.give_at(key(2)))
        self.refused(NothingLeftError, part, lambda it: it.give(1))

    def test_loads(self) -> None:
        part = open_part(3)
        for other in [
            CHUNK._replace(hi=Rank(3, 1)),
            CHUNK._replace(source=2),
            CHUNK._replace(dest=4),
        ]:
            self.refused(StrangerError, part, partial(Part.load, chunk=other))
        self.refused(NotOpenError, part, lambda it: it.load(CHUNK._replace(sub=1)))

    def test_finishing(self) -> None:
        self.refused(NotAllError, open_part(3), lambda it: it.finish(0))
        self.refused(NothingDueError, open_part(1), lambda it: it.finish(0))
        self.refused(NotOpenError, open_part(1), lambda it: it.finish(1))

    def test_numbers(self) -> None:
        part = open_part(3)
        calls: List[Callable[[Part], object]] = [
            lambda it: it.give_at(END),
            lambda it: it.serve(END),
            lambda it: it.load(CHUNK._replace(number=0)),
            lambda it: it.load(CHUNK._replace(sub=10000)),
            lambda it: it.load(CHUNK._replace(source=10000)),
            lambda it: it.load(CHUNK._replace(dest=10000)),
            lambda it: it.load(CHUNK._replace(hi=CHUNK.lo)),
            lambda it: it.load(CHUNK._replace(hi=Rank(2**32 - 1, 1))),
            # These are more than the library takes.
            lambda it: it.give(2**64),
            lambda it: it.give(-1),
            lambda it: it.give_at(2**64),
            lambda it: it.finish(2**32),
            lambda it: it.serve(0, 2**32),
            lambda it: it.given(-1),
            lambda it: it.course_closed(2**32),
            lambda it: it.load(CHUNK._replace(dest=2**32 + 3)),
        ]
        for at, call in enumerate(calls):
            with self.subTest(call=at):
                self.refused(NumberError, part, call)
        course = Course(1, OLD, NEW)
        for number in [10000, 2**32, -1]:
            with self.assertRaises(NumberError):
                Part(number, course)

    def test_types(self) -> None:
        part: Any = open_part(1)
        for call in [part.give, part.give_at, part.finish, part.serve, part.given]:
            with self.assertRaises(TypeError):
                call("1")

    def test_a_course_that_is_closed(self) -> None:
        course = Course(1, OLD, NEW)
        part = Part(1, course)
        course.close()
        with self.assertRaises(ClosedError):
            Part(1, course)
        # The partition has its own share of it.
        part.hear(OPENING_FRAME)
        self.assertEqual(part.give(1).dest, 3)


class Frames(unittest.TestCase):
    """What partitions hear, and tell others."""

    def test_bytes_that_are_no_frame(self) -> None:
        part = part_of(1)
        for bad in [b"", LOAD_FRAME[:-1], LOAD_FRAME + b"\0", bytearray(b"no")]:
            with self.assertRaises(FrameError):
                part.hear(bad)
        self.assertEqual(part.board(), [])
        part.hear(memoryview(LOAD_FRAME))
        self.assertEqual(part.board(), [LOAD_FRAME])

    def test_a_stream(self) -> None:
        part = part_of(1)
        part.feed(OPENING_FRAME[:5])
        self.assertEqual(part.waiting, 5)
        part.hear(LOAD_FRAME)
        with self.assertRaises(NotOpenError):
            part.give(1)
        part.feed(bytearray(OPENING_FRAME[5:]))
        self.assertEqual(part.waiting, 0)
        self.assertEqual(part.give(1).dest, 3)
        with self.assertRaises(FrameError):
            part.feed(b"no")
        with self.assertRaises(StreamError):
            part.feed(OPENING_FRAME)
        part.hear(OPENING_FRAME)

    def test_partitions_that_repair(self) -> None:
        knows, lacks = open_part(3), part_of(3)
        knows.load(CHUNK)
        with self.assertRaises(NoDigestError):
            part_of(1).repair()
        repair(knows, lacks)
        self.assertEqual(lacks.board(), knows.board())
        knows.hear(lacks.digest())
        self.assertEqual(knows.repair(), [])


class Logs(unittest.TestCase):
    """A partition that is rebuilt from a list of its calls."""

    def test_a_partition_that_is_rebuilt(self) -> None:
        calls: List[Callable[[Part], object]] = [
            lambda it: it.hear(OPENING_FRAME),
            lambda it: it.load(CHUNK._replace(hi=Rank(2, 7))),
            lambda it: it.give(1000),
            lambda it: it.give_at(Rank(7, 7)),
            lambda it: it.load(CHUNK),
            lambda it: it.finish(0),
            lambda it: it.hear(Course(2, NEW, OLD).frame()),
            lambda it: it.hear(frame.opened(2, 0)),
            lambda it: it.give(2**32),
            lambda it: it.close_course(),
        ]
        died = part_of(3)
        answers = [it(died) for it in calls]
        seen = (died.held(), died.given(1), died.given(2), died.loaded(1), died.board())
        # What was refused changed nothing, so it is in no list.
        with self.assertRaises(StrangerError):
            died.load(CHUNK._replace(source=4))
        died.close()
        part = part_of(3)
        self.assertEqual([it(part) for it in calls], answers)
        rebuilt = (part.held(), part.given(1), part.given(2), part.loaded(1), part.board())
        self.assertEqual(rebuilt, seen)
        self.assertEqual([part.course_closed(it) for it in [1, 2]], [False, True])


class Threads(unittest.TestCase):
    """Threads that share a partition."""

    def test_each_key_is_given_once(self) -> None:
        part = open_part(1)
        chunks: List[Chunk] = []

        def give() -> None:
            for _ in range(100):
                chunks.append(part.give(5))
                part.serve(key(2))
                part.held()

        together(*[give] * 4)
        self.assertEqual(sum(it.hi - it.lo for it in chunks), 2000)
        self.assertEqual(part.given(1), [(key(2), Rank(2, 2000))])
        self.assertEqual(len({it.lo for it in chunks}), 400)

    def test_partitions_of_one_course(self) -> None:
        course = Course(1, striped(2000, 0), striped(2000, 1))

        def move(at: int) -> None:
            for part in range(at, 200, 4):
                source, dest = Part(part, course), Part(part + 1, course)
                for it in [source, dest]:
                    it.hear(OPENING_FRAME)
                self.assertTrue(dest.load(source.give(2**64 - 1)))
                dest.finish(0)

        together(*[lambda it=it: move(it) for it in range(4)])


if __name__ == "__main__":
    unittest.main()
