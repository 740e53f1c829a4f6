"""Routers: reports, routes and legs."""

import unittest

from squall import END, Leg, NumberError, Rank

from .worked import FIVE, OLD, fresh, key, moved


class Reports(unittest.TestCase):
    """What a router takes."""

    def test_the_worked_scenario(self) -> None:
        router = fresh()
        self.assertEqual((router.number, router.route(key(2))), (1, 1))
        router.loaded(1, 0, 3, key(2), key(3))
        self.assertEqual(router.route(key(2)), 3)
        router.done(1, 0, 4)
        self.assertEqual(router.route(key(6)), 4)
        self.assertEqual(router.route(Rank(8, 4294967295)), 4)
        self.assertEqual(router.route(key(3)), 2)
        self.assertEqual(router.route(int(Rank(4294967294, 4294967295))), 4)
        router.opened(1, 0)
        self.assertEqual(router.route(key(2)), 3)

    def test_ranks_that_are_no_keys(self) -> None:
        router = fresh()
        for rank in [END, END + 1, 2**64 - 1]:
            self.assertIsNone(router.route(rank))
        for rank in [-1, 2**64, 2**64 + key(2)]:
            with self.subTest(rank=rank), self.assertRaises(NumberError):
                router.route(rank)
        for wrong in ["2:0", 2.0, None, (2, 0)]:
            with self.subTest(wrong=wrong), self.assertRaises(TypeError):
                router.route(wrong)  # type: ignore[arg-type]

    def test_reports_outside_their_limits(self) -> None:
        router = fresh()
        for number, sub, part, lo, hi in [
            (0, 0, 3, key(2), key(3)),
            (1, 10000, 3, key(2), key(3)),
            (1, 0, 10000, key(2), key(3)),
            (1, 0, 3, key(2), key(2)),
            (1, 0, 3, key(3), key(2)),
            (1, 0, 3, key(2), END + 1),
            (-1, 0, 3, key(2), key(3)),
            (2**32 + 1, 0, 3, key(2), key(3)),
            (1, 2**32, 3, key(2), key(3)),
            (1, 0, 2**32 + 3, key(2), key(3)),
            (1, 0, 3, -1, key(3)),
            (1, 0, 3, key(2), 2**64 + key(3)),
        ]:
            with self.subTest(report=(number, sub, part, lo, hi)):
                with self.assertRaises(NumberError):
                    router.loaded(number, sub, part, lo, hi)
        for number, sub, part in [(0, 0, 4), (1, 10000, 4), (1, 0, 10000), (2**32 + 1, 0, 4)]:
            with self.subTest(report=(number, sub, part)), self.assertRaises(NumberError):
                router.done(number, sub, part)
        for number, sub in [(0, 0), (1, 10000), (1, -1), (2**32 + 1, 0)]:
            with self.subTest(report=(number, sub)), self.assertRaises(NumberError):
                router.opened(number, sub)
        self.assertEqual(router.board(), [])
        router.opened(1, 9999)
        router.loaded(1, 9999, 9999, 0, END)
        self.assertEqual(router.route(key(2)), 1)

    def test_reports_of_others_change_no_route(self) -> None:
        router = fresh()
        for report in [(2, 0, 3), (1, 1, 3), (1, 0, 4)]:
            router.loaded(*report, key(2), key(3))
            router.done(*report)
            self.assertEqual(router.route(key(2)), 1)

    def test_newer_courses_and_clashes(self) -> None:
        router = fresh()
        router.issued(2, FIVE)
        self.assertEqual((router.number, router.route(key(2))), (2, 3))
        router.loaded(2, 0, 5, key(2), Rank(2, 1))
        self.assertEqual(router.route(key(2)), 5)
        self.assertEqual(router.route(Rank(2, 1)), 3)
        router.issued(2, OLD)
        self.assertEqual((router.number, router.route(key(2))), (1, 1))

    def test_words_may_be_named(self) -> None:
        router = fresh()
        router.loaded(number=1, sub=0, part=3, lo=key(2), hi=key(3))
        router.done(number=1, sub=0, part=4)
        router.opened(number=1, sub=0)
        router.issued(number=2, plan=FIVE)
        self.assertEqual((router.route(key=key(2)), router.number), (3, 2))


class Legs(unittest.TestCase):
    """The legs of a span."""

    def test_legs_of_spans(self) -> None:
        router = fresh()
        wanted = [(0, key(3), 1), (key(3), key(5), 2), (key(5), key(9), 3), (key(9), END, 4)]
        self.assertEqual(router.legs(0, END), wanted)
        self.assertEqual(router.legs(7, 9), [Leg(Rank(0, 7), Rank(0, 9), 1)])
        for leg in router.legs(0, END):
            self.assertIs(type(leg.lo), Rank)
            self.assertIs(type(leg.hi), Rank)
        router = moved()
        wanted = [(key(0), key(2), 1), (key(2), key(3), 3), (key(3), key(4), 2)]
        self.assertEqual(router.legs(0, key(4)), wanted)

    def test_spans_without_keys(self) -> None:
        router = fresh()
        for lo, hi in [(5, 5), (6, 5), (0, END + 1), (END, END), (END + 1, END + 2)]:
            self.assertEqual(router.legs(lo, hi), [])
        for lo, hi in [(-1, 5), (0, 2**64)]:
            with self.subTest(lo=lo, hi=hi), self.assertRaises(NumberError):
                router.legs(lo, hi)

    def test_legs_of_any_number(self) -> None:
        router = fresh()
        for second in range(800):
            router.loaded(1, 0, 4, Rank(6, 2 * second), Rank(6, 2 * second + 1))
        for count in [1, 2, 62, 63, 64, 65, 66, 1022, 1023, 1024, 1025, 1026, 1599]:
            legs = router.legs(key(6), Rank(6, count))
            self.assertEqual(len(legs), count)
            self.assertEqual(legs[-1], (Rank(6, count - 1), Rank(6, count), 4 - (count - 1) % 2))
        legs = router.view().legs(key(6), key(7))
        self.assertEqual(legs[1598], (Rank(6, 1596 + 2), Rank(6, 1599), 4))
        self.assertEqual(legs[1599], (Rank(6, 1599), key(7), 3))


if __name__ == "__main__":
    unittest.main()
