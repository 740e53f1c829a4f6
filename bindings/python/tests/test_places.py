"""Where keys stand: of one key, and of many in one call."""

import ctypes
import unittest
from array import array
from typing import Any, List, Optional

from squall import END, NOWHERE, NumberError, Place, Plan, Rank, Router

from .worked import FIVE, fresh, key, moved, wide_plan

try:
    import numpy
except ImportError:
    numpy = None  # type: ignore[assignment]

KEYS = [key(0), key(2), Rank(2, 5), key(6), END]
PLACES = [Place(1, 1, 1, None), Place(3, 1, 3, 0), Place(1, 1, 3, 0), Place(3, 3, 4, 0), None]
NUMBERS = [1, 1, 1, NOWHERE, 3, 1, 3, 0, 1, 1, 3, 0, 3, 3, 4, 0] + [NOWHERE] * 4


def partly() -> Router:
    """A router that knows that partition 3 has loaded [2:0,2:5)."""
    router = fresh()
    router.loaded(1, 0, 3, key(2), Rank(2, 5))
    return router


class OneKey(unittest.TestCase):
    """`place`."""

    def test_where_keys_stand(self) -> None:
        view = partly().view()
        self.assertEqual([view.place(it) for it in KEYS], PLACES)
        settled = [None if it is None else it.is_settled for it in PLACES]
        self.assertEqual(settled, [True, True, False, False, None])
        self.assertIs(type(view.place(0)), Place)
        self.assertEqual(view.place(Rank(2, 4)), PLACES[1])
        self.assertEqual(view.place(int(key(3)) - 1), PLACES[2])
        self.assertEqual(view.place(key(3)), Place(2, 2, 2, None))

    def test_places_change_by_reports(self) -> None:
        router = partly()
        before = router.view()
        router.done(1, 0, 4)
        router.done(1, 0, 3)
        after = router.view()
        router.close()
        self.assertEqual(before.place(key(6)), Place(3, 3, 4, 0))
        self.assertEqual(after.place(key(6)), Place(4, 3, 4, 0))
        self.assertEqual(after.clone().place(Rank(2, 5)), Place(3, 1, 3, 0))

    def test_places_are_of_the_newest_course(self) -> None:
        router = moved()
        router.issued(2, FIVE)
        place = router.view().place(key(2))
        assert place is not None
        self.assertEqual((place.part, place.dest, place.is_settled), (3, 5, False))
        router.loaded(2, place.sub or 0, 5, key(2), key(3))
        self.assertEqual(router.view().place(key(2)), place._replace(part=5))

    def test_subplans_of_keys(self) -> None:
        plan = Plan.of([(key(it), key(it + 1) if it < 299 else END, it) for it in range(300)])
        router = Router(1, Plan.of([(0, END, 9999)]), plan)
        view, course = router.view(), router.course()
        for move in course.moves():
            wanted = Place(9999, 9999, move.dest, move.sub)
            self.assertEqual(view.place(move.lo), wanted)
            self.assertEqual(view.place(move.hi - 1), wanted)

    def test_ranks_that_are_no_keys(self) -> None:
        view = partly().view()
        for rank in [END, END + 1, 2**64 - 1]:
            self.assertIsNone(view.place(rank))
        for rank in [-1, 2**64, 2**64 + key(2)]:
            with self.subTest(rank=rank), self.assertRaises(NumberError):
                view.place(rank)
        wrong: List[Any] = ["2:0", 2.0, None, (2, 0)]
        for rank in wrong:
            with self.subTest(rank=rank), self.assertRaises(TypeError):
                view.place(rank)


class ManyKeys(unittest.TestCase):
    """`locate` and `locate_into`."""

    def setUp(self) -> None:
        self.view = partly().view()

    def test_places(self) -> None:
        self.assertEqual(self.view.locate(array("Q", KEYS)), PLACES)
        self.assertEqual(self.view.locate(array("Q")), [])
        self.assertEqual(self.view.locate(array("L", KEYS[3:])), PLACES[3:])
        packed = memoryview(b"x" + array("Q", KEYS).tobytes())[1:].cast("Q")
        self.assertEqual(self.view.locate(packed[1:3]), PLACES[1:3])
        of_ctypes = (ctypes.c_uint64 * len(KEYS))(*KEYS)
        self.assertEqual(self.view.locate(of_ctypes), PLACES)
        room = (ctypes.c_uint32 * len(NUMBERS))()
        self.assertEqual(self.view.locate_into(of_ctypes, room), len(KEYS))
        self.assertEqual(list(room), NUMBERS)

    def test_places_are_those_of_single_keys(self) -> None:
        view = Router(1, wide_plan(4096, 0), wide_plan(4096, 1)).view()
        for count in [1, 2, 1000, 65535, 65536, 65537, 150000]:
            step = END // count + 1
            keys = array("Q", range(0, count * step, step))
            places, parts = view.locate(keys), view.routes(keys)
            self.assertEqual(len(places), count)
            for at in [0, 1, count // 2, 65535, 65536, count - 1]:
                if at < count:
                    place: Optional[Place] = places[at]
                    self.assertEqual(place, view.place(keys[at]))
                    self.assertEqual(NOWHERE if place is None else place.part, parts[at])

    def test_rooms_of_all_sizes(self) -> None:
        keys = array("Q", KEYS)
        for room in range(26):
            out, count = array("I", [7] * room), min(5, room // 4)
            self.assertEqual(self.view.locate_into(keys, out), count)
            self.assertEqual(out.tolist(), NUMBERS[: 4 * count] + [7] * (room - 4 * count))
        out = array("I", [7] * 12)
        self.assertEqual(self.view.locate_into(keys[3:], memoryview(out)[2:11]), 2)
        self.assertEqual(out.tolist(), [7, 7] + NUMBERS[12:] + [7, 7])

    def test_an_array_into_itself(self) -> None:
        memory = memoryview(bytearray(array("Q", KEYS)))
        self.assertEqual(self.view.locate_into(memory.cast("Q"), memory.cast("I")), 2)
        self.assertEqual(memory.cast("I")[:8].tolist(), NUMBERS[:8])
        self.assertEqual(memory.cast("Q")[4], END)

    def test_what_is_no_array(self) -> None:
        keys, out = array("Q", KEYS), array("I", [7] * 20)
        wrong: List[Any] = [[1, 2], None, b"12345678", array("q", [1]), array("I", [1])]
        for it in wrong:
            with self.subTest(keys=it), self.assertRaisesRegex(TypeError, "^keys has to be"):
                self.view.locate(it)
            with self.subTest(keys=it), self.assertRaisesRegex(TypeError, "^keys has to be"):
                self.view.locate_into(it, out)
        wrong = [[0] * 4, None, array("i", [0] * 4), array("L", [0] * 4), bytearray(16)]
        for it in wrong:
            with self.subTest(out=it), self.assertRaisesRegex(TypeError, "^out has to be"):
                self.view.locate_into(keys, it)
        with self.assertRaisesRegex(BufferError, "^keys is not contiguous"):
            self.view.locate(memoryview(keys)[::2])
        with self.assertRaisesRegex(BufferError, "^out is not contiguous"):
            self.view.locate_into(keys, memoryview(out)[::2])
        with self.assertRaisesRegex(TypeError, "^out can't be written"):
            self.view.locate_into(keys, memoryview(out).toreadonly())
        self.assertEqual(out.tolist(), [7] * 20)
        # Nothing holds the arrays any more.
        keys.append(0)
        out.append(0)

    @unittest.skipIf(numpy is None, "NumPy is not here")
    def test_arrays_of_numpy(self) -> None:
        keys = numpy.array(KEYS, dtype=numpy.uint64)
        self.assertEqual(self.view.locate(keys), PLACES)
        self.assertEqual(self.view.place(keys[1]), PLACES[1])
        out = numpy.zeros((6, 4), dtype=numpy.uint32)
        self.assertEqual(self.view.locate_into(keys, out.reshape(-1)), 5)
        self.assertEqual(out.tolist()[:5], numpy.reshape(NUMBERS, (5, 4)).tolist())
        self.assertEqual((out[:4, 0] == out[:4, 2]).tolist(), [True, True, False, False])
        with self.assertRaisesRegex(TypeError, "^out has to be .*: it has 2 dimensions"):
            self.view.locate_into(keys, out)


if __name__ == "__main__":
    unittest.main()
