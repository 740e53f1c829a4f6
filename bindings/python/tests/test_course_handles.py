"""How courses are closed, and what threads and signal handlers may do with them."""

import gc
import threading
import time
import unittest
import weakref
from array import array
from functools import partial
from typing import Any, Callable, List
from unittest import mock

from squall import END, ClosedError, Course, Leader, Plan, PlanError, Router, View, frame
from squall import _library as lib
from squall._room import CourseRoom

from .test_courses import MOVES, striped
from .test_handles import COURSE_CALLS, Count
from .test_threads import Watch, together
from .worked import FIVE, LOAD_FRAME, NEW, OLD, fresh, key, wide_plan


def wide_course() -> Course:
    """A course each of whose answers takes several calls of C."""
    return Course(1, striped(2000, 0), striped(2000, 1))


class Closing(unittest.TestCase):
    """Closing, by hand and by the garbage collector."""

    def setUp(self) -> None:
        self.closed = Count(CourseRoom._close)
        patch = mock.patch.object(CourseRoom, "_close", self.closed)
        patch.start()
        self.addCleanup(patch.stop)

    def test_a_course_is_closed_once(self) -> None:
        router = fresh()
        for course in [Course(1, OLD, NEW), router.course(), router.first_course()]:
            before = self.closed.count
            self.assertEqual((course.closed, repr(course)), (False, "<Course, open>"))
            for _ in range(3):
                course.close()
                self.assertEqual(self.closed.count, before + 1)
            self.assertEqual((course.closed, repr(course)), (True, "<Course, closed>"))
        del course
        gc.collect()
        self.assertEqual(self.closed.count, 3)

    def test_contexts(self) -> None:
        with Course(1, OLD, NEW) as course, fresh() as router, router.course() as newest:
            self.assertEqual(course.moves(), newest.moves())
            self.assertEqual(self.closed.count, 0)
        self.assertEqual(self.closed.count, 2)
        with self.assertRaises(KeyError), Course(1, OLD, NEW):
            raise KeyError
        self.assertEqual(self.closed.count, 3)

    def test_the_garbage_collector_closes(self) -> None:
        handles: List[Any] = [Course(1, OLD, NEW), fresh().course()]
        alive = [weakref.ref(it) for it in handles]
        handles.append(handles)
        del handles
        gc.collect()
        self.assertEqual([it() for it in alive], [None] * 2)
        self.assertEqual(self.closed.count, 2)

    def test_what_was_not_opened_is_closed_too(self) -> None:
        for number, old in [(0, OLD), (1, "{}")]:
            with self.assertRaises(ValueError):
                Course(number, old, NEW)
        gc.collect()
        self.assertEqual(self.closed.count, 2)
        # No call was made.
        with self.assertRaises(ValueError):
            Course(-1, OLD, NEW)
        router = fresh()
        router.close()
        with self.assertRaises(ClosedError):
            router.course()
        gc.collect()
        self.assertEqual(self.closed.count, 2)

    def test_a_course_may_be_opened_again(self) -> None:
        # pylint: disable=unnecessary-dunder-call
        course = Course(1, OLD, NEW)
        course.__init__(7, NEW, NEW)  # type: ignore[misc]
        self.assertEqual((course.number, course.moves(), self.closed.count), (7, [], 1))
        with self.assertRaises(PlanError):
            course.__init__(8, NEW, "")  # type: ignore[misc]
        self.assertEqual((course.number, course.closed), (7, False))


class Interrupted(unittest.TestCase):
    """A signal handler that closes a course in the midst of its call."""

    def closed_in_between(self, name: str, call: Callable[[Course], object]) -> object:
        """What the call answers if its course is closed before its second call of C."""
        course, inner, count = wide_course(), getattr(lib, name), [0]

        def interrupted(*words: Any) -> Any:
            count[0] += 1
            if count[0] == 2:
                course.close()
            return inner(*words)

        with mock.patch.object(lib, name, interrupted):
            answer = call(course)
        self.assertTrue(course.closed)
        return answer

    def test_a_course_that_is_closed_in_between(self) -> None:
        course = wide_course()
        for name in ["moves", "old_plan", "new_plan", "receivers", "frame"]:
            call, function = COURSE_CALLS[name], "course_" + name.replace("_plan", "")
            with self.subTest(call=name):
                self.assertEqual(self.closed_in_between(function, call), call(course))


class Threads(unittest.TestCase):
    """Threads that share a course, and threads that have one each."""

    def test_threads_with_little_stack(self) -> None:
        # As deep as a text may be, in a member that is passed over.
        deep = '{"a":' * 124 + "1" + "}" * 124
        text = FIVE.replace('"from"', f'"x":{deep},"from"')
        before = threading.stack_size(256 * 1024)
        try:
            together(
                lambda: Course(1, text, text),
                lambda: Router(1, text, text),
                lambda: fresh().issued(2, text),
                lambda: Leader(text).begin(text),
                lambda: Leader(text).begin_from(text, text),
                Plan(text).check,
            )
        finally:
            threading.stack_size(before)

    def test_a_shared_course(self) -> None:
        course, other = wide_course(), wide_course()

        def ask(call: Callable[[Course], object]) -> None:
            wanted = call(other)
            for _ in range(10):
                self.assertEqual(call(course), wanted)

        together(*[partial(ask, it) for it in COURSE_CALLS.values()])

    def test_calls_of_one_course_wait_for_each_other(self) -> None:
        course, watch = Course(1, OLD, NEW), Watch()
        with mock.patch.object(lib, "course_receivers", watch.of(lib.course_receivers)):
            together(*[lambda: course.receivers(0)] * 6)
        self.assertEqual((watch.most, watch.running), (1, 0))

    def test_closing_in_the_midst_of_calls(self) -> None:
        for _ in range(3):
            self.close_in_the_midst(wide_course(), fresh().view())

    def close_in_the_midst(self, course: Course, view: View) -> None:
        """Closes a course and a view while threads use them."""
        keys = array("Q", range(0, 2**40, 2**30))
        calls: List[Callable[[], object]] = [partial(it, course) for it in COURSE_CALLS.values()]
        calls += [lambda: view.place(0), lambda: view.locate(keys)]

        def until_closed(call: Callable[[], object]) -> None:
            with self.assertRaises(ClosedError):
                while True:
                    call()

        def close() -> None:
            time.sleep(0.01)
            course.close()
            view.close()

        together(close, *[partial(until_closed, it) for it in calls])

    def test_courses_that_share_their_plans(self) -> None:
        router = fresh()
        made = [[router.course(), router.first_course()] for _ in range(50)]

        def drop() -> None:
            while True:
                try:
                    courses = made.pop()
                except IndexError:
                    return
                courses.append(router.course())
                self.assertEqual([it.moves() for it in courses], [MOVES] * 3)

        together(*[drop] * 4)
        router.close()

    def test_courses_of_a_router_that_hears_of_more(self) -> None:
        router, ended = Router(1, OLD, OLD), threading.Event()

        def issue() -> None:
            try:
                for number in range(2, 100):
                    router.issued(number, NEW)
            finally:
                ended.set()

        def ask() -> None:
            numbers = [0]
            while not ended.is_set():
                course = router.course()
                self.assertEqual(course.moves(), MOVES if course.number > 1 else [])
                numbers.append(course.number)
            self.assertEqual(numbers, sorted(numbers))
            self.assertEqual(router.course().number, 99)

        together(issue, ask, ask)

    def test_frames_and_places_at_the_same_time(self) -> None:
        view = Router(1, wide_plan(4096, 0), wide_plan(4096, 1)).view()
        keys = array("Q", range(0, END, END // 1000))
        wanted = view.locate(keys)

        def make() -> None:
            for _ in range(200):
                self.assertEqual(frame.loaded(1, 0, 3, key(2), key(3)), LOAD_FRAME)

        def read() -> None:
            mine = view.clone()
            for _ in range(5):
                self.assertEqual(mine.locate(keys), wanted)
                self.assertEqual(mine.place(keys[7]), wanted[7])

        together(make, make, read, read)


if __name__ == "__main__":
    unittest.main()
