"""Exceptions: the one of each status, and what they are by Python's own classes."""

import pickle
import unittest

import squall
from squall import FrameError, FrameFault, PlanError, PlanFault, Rank, SquallError
from squall._library import message
from squall._status import NO_PLACE, check, error_of

SIMPLE = {
    1: (squall.NoMemory, MemoryError),
    2: (squall.NumberError, ValueError),
    3: (squall.ClosedError, ValueError),
    4: (squall.StreamError, ValueError),
    5: (squall.TooLongError, SquallError),
    6: (squall.NoDigestError, SquallError),
    7: (squall.FullError, SquallError),
    71: (squall.NotOpenError, squall.PartError),
    72: (squall.NothingLeftError, squall.PartError),
    73: (squall.ZeroMaxError, ValueError),
    74: (squall.NotOutgoingError, squall.PartError),
    75: (squall.GivenError, squall.PartError),
    76: (squall.NotHeldError, squall.PartError),
    77: (squall.StrangerError, squall.PartError),
    78: (squall.NotAllError, squall.PartError),
    79: (squall.NothingDueError, squall.PartError),
    81: (squall.EndedError, squall.PartError),
    91: (squall.RunningError, squall.LeaderError),
    92: (squall.NoNumberError, squall.LeaderError),
    93: (squall.IdleError, squall.LeaderError),
    95: (squall.NoMoreError, squall.LeaderError),
}


class Statuses(unittest.TestCase):
    """Each status of `squall.h`."""

    def test_each_status_has_its_exception(self) -> None:
        check(0)
        for status, kinds in SIMPLE.items():
            with self.subTest(status=status):
                error = error_of(status, NO_PLACE)
                self.assertIs(type(error), kinds[0])
                self.assertIsInstance(error, SquallError)
                self.assertIsInstance(error, kinds[1])
                self.assertEqual(error.status, status)

    def test_texts_tell_errors_apart(self) -> None:
        texts = {str(error_of(status, NO_PLACE)) for status in SIMPLE}
        self.assertEqual(len(texts), len(SIMPLE))
        self.assertEqual(str(error_of(1, NO_PLACE)), "an allocation failed")

    def test_each_status_says_what_the_library_says(self) -> None:
        statuses = [*SIMPLE, *PlanFault, *(it + 20 for it in PlanFault), *FrameFault]
        for status in statuses:
            with self.subTest(status=status):
                means = message(int(status)).split(": ")[-1]
                self.assertTrue(str(error_of(status, 7)).endswith(means))

    def test_the_partition_that_is_waited_for(self) -> None:
        error = pickle.loads(pickle.dumps(squall.NotDoneError(4, 7)))
        self.assertIsInstance(error, squall.LeaderError)
        self.assertEqual((error.part, error.sub, error.status), (4, 7, 94))
        said = "partition 4 has not reported that it has all keys of sub-plan 7"
        self.assertEqual(str(error), said)

    def test_each_fault_of_a_plan(self) -> None:
        for fault in PlanFault:
            for plan, status in [("old", fault.value), ("new", fault.value + 20)]:
                with self.subTest(fault=fault, plan=plan):
                    error = error_of(status, 7)
                    assert isinstance(error, PlanError)
                    self.assertIsInstance(error, ValueError)
                    self.assertEqual((error.plan, error.fault, error.status), (plan, fault, status))
                    self.assertTrue({error.index, error.bound} == {None, 7})

    def test_each_fault_of_a_frame(self) -> None:
        for fault in FrameFault:
            with self.subTest(fault=fault):
                error = error_of(fault.value, NO_PLACE)
                assert isinstance(error, FrameError)
                self.assertIsInstance(error, ValueError)
                self.assertEqual((error.fault, error.status), (fault, fault.value))
        said = "no frame: TooLong: the body is to have more than 1,048,576 bytes"
        self.assertEqual(str(error_of(54, NO_PLACE)), said)

    def test_a_status_that_is_not_known(self) -> None:
        for status in [8, 19, 39, 60, 70, 90, 96, 255]:
            error = error_of(status, NO_PLACE)
            self.assertIs(type(error), SquallError)
            self.assertEqual(error.status, status)
            self.assertEqual(str(error), f"the status is not known: {status}")

    def test_errors_pass_between_processes(self) -> None:
        for status in [1, 2, 4, 7, 11, 12, 18, 38, 51, 59, 71, 79, 91, 95]:
            with self.subTest(status=status):
                error = error_of(status, 7)
                copy = pickle.loads(pickle.dumps(error))
                self.assertIs(type(copy), type(error))
                self.assertEqual((str(copy), copy.status), (str(error), status))
        fault = pickle.loads(pickle.dumps(error_of(38, Rank(3, 5))))
        self.assertEqual((fault.plan, fault.fault), ("new", PlanFault.GAP))
        self.assertEqual((fault.index, str(fault.bound)), (None, "3:5"))

    def test_errors_of_no_call(self) -> None:
        self.assertTrue(issubclass(squall.LibraryError, ImportError))
        self.assertTrue(issubclass(squall.ForkError, RuntimeError))
        for kind in [squall.LibraryError, squall.ForkError]:
            self.assertTrue(issubclass(kind, SquallError))
            self.assertIsNone(kind("text").status)


if __name__ == "__main__":
    unittest.main()
