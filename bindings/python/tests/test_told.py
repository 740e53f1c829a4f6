"""What a router says of itself, and what changes between two views."""

import unittest
from typing import List, Optional
from xml.etree import ElementTree

from squall import END, ClosedError, Counts, NumberError, Rank, Router, Span, View

from .test_courses import striped
from .test_threads import together
from .worked import FIVE, LOAD_FRAME, OLD, fresh, key, moved, wide_plan


#: Of a router that knows half of one move and two thirds of the other.
LINES = """\
course 1 moves 0 of 2 sub-plans 0 of 1 open 0 loaded 10737418240 of 17179869184 keys share 583/1000
sub-plan 0 receivers 0 of 2 done
move [2:0,3:0) 1 to 3 sub 0 loaded 2147483648 of 4294967296 missing [2:2147483648,3:0)
move [6:0,9:0) 3 to 4 sub 0 loaded 8589934592 of 12884901888 missing [7:0,8:0)
"""


class OfItself(unittest.TestCase):
    """What a router says of itself."""

    def test_counts(self) -> None:
        router = fresh()
        self.assertEqual(router.counts(), Counts(cells=0, spans=0, opened=0, issues=0))
        router.loaded(1, 0, 3, key(2), Rank(2, 5))
        router.loaded(1, 0, 4, key(6), key(7))
        router.loaded(1, 0, 4, key(8), key(9))
        router.opened(1, 1)
        router.issued(2, FIVE)
        router.issued(7, FIVE)
        self.assertEqual(router.counts(), Counts(cells=2, spans=3, opened=2, issues=2))
        self.assertIs(type(router.counts()), Counts)

    def test_numbers_that_do_not_fit(self) -> None:
        router = fresh()
        for number in range(1, 4):
            router.opened(number, 9999)
        self.assertEqual(router.counts().opened, 30000)

    def test_clashes(self) -> None:
        router = fresh()
        self.assertIs(router.clashed(), False)
        router.issued(2, FIVE)
        self.assertIs(router.clashed(), False)
        router.issued(2, OLD)
        self.assertIs(router.clashed(), True)
        # A greater number has a course.
        router.issued(3, FIVE)
        self.assertIs(router.clashed(), False)

    def test_the_text(self) -> None:
        router = fresh()
        router.loaded(1, 0, 3, key(2), Rank(2, 2**31))
        router.loaded(1, 0, 4, key(6), key(7))
        router.loaded(1, 0, 4, key(8), key(9))
        router.opened(1, 0)
        self.assertEqual(router.status_text(), LINES)
        self.assertIn(", loaded 10737418240 of 17179869184 keys, share 583/1000", router.picture())

    def test_a_long_text(self) -> None:
        router = Router(1, striped(300, 0), striped(300, 1))
        text = router.status_text()
        self.assertGreater(len(text), 4096)
        self.assertIn("[298:0,299:0)", text)

    def test_the_picture(self) -> None:
        for router in [fresh(), moved(), Router(1, FIVE, FIVE)]:
            root = ElementTree.fromstring(router.picture())
            self.assertEqual(root.tag, "{http://www.w3.org/2000/svg}svg")
        self.assertNotEqual(fresh().picture(), moved().picture())


class Changes(unittest.TestCase):
    """The spans whose routes by two views differ."""

    def test_a_load(self) -> None:
        router = fresh()
        before = router.view()
        router.loaded(1, 0, 3, Rank(2, 3), Rank(2, 9))
        router.done(1, 0, 4)
        after = router.view()
        wanted = [(Rank(2, 3), Rank(2, 9)), (key(6), key(9))]
        self.assertEqual(before.changes(after), wanted)
        self.assertEqual(after.changes(before), wanted)
        for span in before.changes(after):
            self.assertEqual((type(span), type(span.lo), type(span.hi)), (Span, Rank, Rank))
        self.assertEqual(
            before.changes(after, Rank(2, 5), key(7)), [(Rank(2, 5), Rank(2, 9)), (key(6), key(7))]
        )
        self.assertEqual(before.changes(after, lo=key(9)), [])
        self.assertEqual(before.changes(after, hi=Rank(2, 4)), [(Rank(2, 3), Rank(2, 4))])

    def test_views_of_the_same(self) -> None:
        view = moved().view()
        self.assertEqual(view.changes(view), [])
        self.assertEqual(view.changes(view.clone()), [])
        self.assertEqual(view.changes(moved().view()), [])

    def test_all_keys(self) -> None:
        self.assertEqual(
            Router(1, FIVE, FIVE).view().changes(Router(1, OLD, OLD).view()), [(0, END)]
        )

    def test_spans_without_keys(self) -> None:
        before, after = fresh().view(), moved().view()
        for lo, hi in [(key(3), key(2)), (key(2), key(2)), (END, END + 7), (END + 1, 2**64 - 1)]:
            self.assertEqual(before.changes(after, lo, hi), [])
        for lo, hi in [(-1, END), (0, 2**64)]:
            with self.assertRaises(NumberError):
                before.changes(after, lo, hi)

    def test_more_spans_than_one_call_gives(self) -> None:
        for count in [255, 256, 257, 511, 512, 513, 2000]:
            with self.subTest(count=count):
                router = Router(1, wide_plan(4096, 0), wide_plan(4096, 1))
                before = router.view()
                for at in range(count):
                    router.loaded(1, 0, (2 * at + 1) % 50, key(2 * at), Rank(2 * at, 7))
                wanted = [(key(2 * at), Rank(2 * at, 7)) for at in range(count)]
                self.assertEqual(before.changes(router.view()), wanted)

    def test_bounds_above_the_end(self) -> None:
        before, after = Router(1, FIVE, FIVE).view(), Router(1, OLD, OLD).view()
        for hi in [END, END + 1, 2**64 - 1]:
            self.assertEqual(before.changes(after, key(1), hi), [(key(1), END)])

    def test_closed_views(self) -> None:
        for closed in range(2):
            views: List[View] = [fresh().view(), moved().view()]
            views[closed].close()
            with self.assertRaises(ClosedError):
                views[0].changes(views[1])

    def test_threads_that_compare_the_same_views(self) -> None:
        router = fresh()
        before = router.view()
        router.hear(LOAD_FRAME)
        after = router.view()
        wanted = [(key(2), key(3))]

        def compare(one: View, other: View) -> None:
            for _ in range(200):
                self.assertEqual(one.changes(other), wanted)
                part: Optional[int] = after.route(key(2))
                self.assertEqual(part, 3)

        together(
            lambda: compare(before, after),
            lambda: compare(after, before),
            lambda: compare(before, after),
        )


if __name__ == "__main__":
    unittest.main()
