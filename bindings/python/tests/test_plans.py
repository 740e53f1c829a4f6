"""Plans, and the faults of texts that are none."""

import unittest
from typing import Any, List, Optional

from squall import END, Leg, NumberError, Plan, PlanError, PlanFault, Rank, Router

from .worked import FIVE, NEW, OLD, fresh, key

GAP = '{"plan":[{"part":1,"from":[0,0],"to":[3,5]}]}'
ENTRY = '{"part":1,"from":[0,0],"to":"end"}'
TOO_MANY = '{"plan":[' + ",".join([ENTRY] * 4097) + "]}"

#: A text, its fault, and the index or the bound of that.
NO_PLANS = [
    ("", PlanFault.JSON, None),
    ('{"plan":[', PlanFault.JSON, None),
    ("\ud800", PlanFault.JSON, None),
    ("[]", PlanFault.SHAPE, None),
    ('{"plan":{}}', PlanFault.SHAPE, None),
    ('{"plan":[{"part":1,"from":[0,0]}]}', PlanFault.SHAPE, 0),
    ('{"plan":[{"part":-1,"from":[0,0],"to":"end"}]}', PlanFault.SHAPE, 0),
    (
        '{"plan":[{"part":1,"from":[0,4294967296],"to":"end"},'
        '{"part":10000,"from":[0,0],"to":"end"}]}',
        PlanFault.BAD_PART,
        1,
    ),
    ('{"plan":[{"part":1,"from":[4294967295,1],"to":"end"}]}', PlanFault.BAD_BOUND, 0),
    ('{"plan":[{"part":1,"from":[4294967295,0],"to":"end"}]}', PlanFault.EMPTY_RANGE, 0),
    (
        '{"plan":[{"part":1,"from":[0,0],"to":[3,5]},{"part":2,"from":[3,0],"to":"end"}]}',
        PlanFault.OVERLAP,
        key(3),
    ),
    (GAP, PlanFault.GAP, Rank(3, 5)),
    ('{"plan":[]}', PlanFault.GAP, Rank(0, 0)),
    (TOO_MANY, PlanFault.TOO_MANY, None),
]


class Texts(unittest.TestCase):
    """What the library says of texts."""

    def assert_fault(
        self, error: PlanError, plan: Optional[str], fault: PlanFault, place: Optional[int]
    ) -> None:
        """Looks at all that an exception says of a fault."""
        is_bound = fault in (PlanFault.OVERLAP, PlanFault.GAP)
        self.assertEqual(error.plan, plan)
        self.assertIs(error.fault, fault)
        self.assertEqual(error.index, None if is_bound else place)
        self.assertEqual(error.bound, place if is_bound else None)
        self.assertEqual(error.status, fault + (20 if plan == "new" else 0))

    def test_texts_that_are_no_plans(self) -> None:
        for text, fault, place in NO_PLANS:
            with self.subTest(text=text[:60]):
                with self.assertRaises(PlanError) as raised:
                    Router(1, text, NEW)
                self.assert_fault(raised.exception, "old", fault, place)
                with self.assertRaises(PlanError) as raised:
                    Router(1, OLD, text)
                self.assert_fault(raised.exception, "new", fault, place)
                with self.assertRaises(PlanError) as raised:
                    Plan(text).check()
                self.assert_fault(raised.exception, None, fault, place)
                router = fresh()
                with self.assertRaises(PlanError) as raised:
                    router.issued(2, text)
                self.assert_fault(raised.exception, "new", fault, place)
                self.assertEqual((router.number, router.board()), (1, []))

    def test_the_first_fault_is_raised(self) -> None:
        with self.assertRaises(PlanError) as raised:
            Router(1, "[]", "")
        self.assert_fault(raised.exception, "old", PlanFault.SHAPE, None)
        for number in [0, -1, 2**32]:
            with self.subTest(number=number), self.assertRaises(NumberError):
                Router(number, "[]", "")
            with self.subTest(number=number), self.assertRaises(NumberError):
                fresh().issued(number, "")

    def test_a_later_fault_has_its_own_place(self) -> None:
        router = fresh()
        for text, fault, place in NO_PLANS:
            with self.assertRaises(PlanError) as raised:
                router.issued(2, text)
            self.assert_fault(raised.exception, "new", fault, place)
        router.issued(2, FIVE)
        self.assertEqual(router.number, 2)

    def test_what_errors_say(self) -> None:
        with self.assertRaises(PlanError) as raised:
            Router(1, OLD, GAP)
        said = "the new text is no plan: Gap 3:5: this key is in no range"
        self.assertEqual(str(raised.exception), said)
        with self.assertRaises(PlanError) as raised:
            Plan("{}").check()
        said = "the text is no plan: Shape: it is no object with a member 'plan' that is an array"
        self.assertEqual(str(raised.exception), said)
        with self.assertRaises(PlanError) as raised:
            Router(1, NO_PLANS[7][0], NEW)
        said = "the old text is no plan: BadPart 1: the partition of this entry is above 9999"
        self.assertEqual(str(raised.exception), said)


class Plans(unittest.TestCase):
    """The class `Plan`."""

    def test_texts_of_all_types(self) -> None:
        texts: List[Any] = [OLD, OLD.encode(), bytearray(OLD.encode()), memoryview(OLD.encode())]
        for text in texts:
            with self.subTest(kind=type(text)):
                plan = Plan(text)
                self.assertEqual((plan.text, str(plan)), (OLD.encode(), OLD))
                plan.check()
                self.assertEqual(Router(1, text, plan).route(key(2)), 1)
        with self.assertRaises(TypeError):
            Plan(7)  # type: ignore[arg-type]

    def test_a_plan_keeps_its_text(self) -> None:
        text = bytearray(OLD.encode())
        plan = Plan(text)
        text[:] = b"x"
        self.assertEqual(plan.text, OLD.encode())

    def test_plans_that_are_equal(self) -> None:
        self.assertEqual(Plan(OLD), Plan(OLD.encode()))
        self.assertEqual(hash(Plan(OLD)), hash(Plan(Plan(OLD))))
        self.assertNotEqual(Plan(OLD), Plan(NEW))
        self.assertNotEqual(Plan(OLD), OLD)
        self.assertEqual(repr(Plan(FIVE)), "<Plan of 45 bytes>")

    def test_plans_of_ranges(self) -> None:
        plan = Plan.of([(key(5), END, 2), (0, key(5), 1)])
        wanted = '{"plan":[{"part":2,"from":[5,0],"to":"end"},{"part":1,"from":[0,0],"to":[5,0]}]}'
        self.assertEqual(str(plan), wanted)
        self.assertEqual(Router(1, plan, plan).route(key(5)), 2)

    def test_the_legs_of_a_router_are_a_plan(self) -> None:
        legs = fresh().legs(0, END)
        self.assertEqual(str(Plan.of(legs)), OLD)

    def test_ranges_that_are_no_plan(self) -> None:
        cases: List[Any] = [
            ([], PlanFault.GAP),
            ([(-1, END, 1)], PlanFault.SHAPE),
            ([(0, END, -1)], PlanFault.SHAPE),
            ([(0, END, 10000)], PlanFault.BAD_PART),
            ([(0, 2**64, 1)], PlanFault.BAD_BOUND),
            ([(7, 7, 1)], PlanFault.EMPTY_RANGE),
            ([Leg(key(0), END, 1), Leg(key(2), key(3), 1)], PlanFault.OVERLAP),
        ]
        for ranges, fault in cases:
            with self.subTest(ranges=ranges), self.assertRaises(PlanError) as raised:
                Plan.of(ranges).check()
            self.assertIs(raised.exception.fault, fault)
        with self.assertRaises(TypeError):
            Plan.of([(0, END, "1")])  # type: ignore[list-item]


if __name__ == "__main__":
    unittest.main()
