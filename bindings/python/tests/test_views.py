"""Views, and routes of many keys."""

import ctypes
import unittest
from array import array
from typing import Any

from squall import END, NOWHERE, Rank, Router, View

from .worked import FIVE, OLD, fresh, key, moved, wide_plan

try:
    import numpy
except ImportError:
    numpy = None  # type: ignore[assignment]

KEYS = [key(2), key(3), END, key(0)]
PARTS = [3, 2, NOWHERE, 1]


class Moments(unittest.TestCase):
    """A view is of one moment."""

    def test_views_stay_the_same(self) -> None:
        router = fresh()
        before = router.view()
        router.loaded(1, 0, 3, key(2), key(3))
        router.issued(2, OLD)
        after, again = router.view(), before.clone()
        router.close()
        before.close()
        self.assertEqual((again.number, again.route(key(2)), again.route(END)), (1, 1, None))
        wanted = [(key(2), key(3), 1), (key(3), key(4), 2)]
        self.assertEqual(again.legs(key(2), key(4)), wanted)
        self.assertEqual((after.number, after.route(key(2))), (2, 3))

    def test_clones_of_clones(self) -> None:
        views = [moved().view()]
        for _ in range(100):
            views.append(views[-1].clone())
        for view in views[:-1]:
            view.close()
        self.assertEqual(views[-1].route(key(2)), 3)

    def test_only_routers_open_views(self) -> None:
        with self.assertRaises(TypeError):
            View()


class ManyKeys(unittest.TestCase):
    """`routes` and `routes_into`."""

    def setUp(self) -> None:
        self.view = moved().view()

    def test_routes(self) -> None:
        parts = self.view.routes(array("Q", KEYS))
        self.assertIs(type(parts), array)
        self.assertEqual((parts.typecode, parts.itemsize), ("I", 4))
        self.assertEqual(parts.tolist(), PARTS)
        self.assertEqual(self.view.routes(array("Q")), array("I"))
        self.assertEqual(self.view.routes(array("L", KEYS[:2])).tolist(), PARTS[:2])
        of_ctypes = (ctypes.c_uint64 * len(KEYS))(*KEYS)
        self.assertEqual(self.view.routes(of_ctypes).tolist(), PARTS)
        room = (ctypes.c_uint32 * len(KEYS))()
        self.view.routes_into(of_ctypes, room)
        self.assertEqual(list(room), PARTS)
        packed = memoryview(b"x" + array("Q", KEYS).tobytes())[1:].cast("Q")
        self.assertEqual(self.view.routes(packed).tolist(), PARTS)
        self.assertEqual(self.view.routes(packed[1:3]).tolist(), PARTS[1:3])

    def test_routes_are_those_of_single_keys(self) -> None:
        view = Router(1, wide_plan(4096, 0), wide_plan(4096, 1)).view()
        for count in [1, 2, 1000, 65535, 65536, 65537, 150000]:
            step = END // count + 1
            keys = array("Q", range(0, count * step, step))
            parts = view.routes(keys)
            self.assertEqual(len(parts), count)
            for at in [0, 1, count // 2, 65535, 65536, count - 1]:
                if at < count:
                    part = view.route(keys[at])
                    self.assertEqual(parts[at], NOWHERE if part is None else part)

    def test_rooms_of_all_sizes(self) -> None:
        keys = array("Q", KEYS)
        for room in range(7):
            out = array("I", [7] * room)
            self.assertEqual(self.view.routes_into(keys, out), min(4, room))
            self.assertEqual(out.tolist(), (PARTS + [7, 7])[:room] if room > 4 else PARTS[:room])
        out = array("I", [7] * 6)
        self.assertEqual(self.view.routes_into(keys, memoryview(out)[1:3]), 2)
        self.assertEqual(out.tolist(), [7, 3, 2, 7, 7, 7])

    def test_an_array_into_itself(self) -> None:
        memory = memoryview(bytearray(array("Q", KEYS)))
        self.assertEqual(self.view.routes_into(memory.cast("Q"), memory.cast("I")), 4)
        self.assertEqual(memory.cast("I")[:4].tolist(), PARTS)

    def test_what_is_no_array_of_keys(self) -> None:
        large = array("Q", KEYS)
        for keys in [
            [1, 2],
            7,
            None,
            "12345678",
            b"12345678",
            array("q", [1]),
            array("I", [1]),
            array("d", [1.0]),
            memoryview(large).cast("B"),
            memoryview(large).cast("B").cast("Q", (2, 2)),
            (ctypes.c_int64 * 2)(),
        ]:
            with self.subTest(keys=keys), self.assertRaisesRegex(TypeError, "^keys has to be"):
                self.view.routes(keys)  # type: ignore[arg-type]
        with self.assertRaisesRegex(BufferError, "^keys is not contiguous"):
            self.view.routes(memoryview(large)[::2])

    def test_what_is_no_room(self) -> None:
        keys, parts = array("Q", KEYS), array("I", PARTS)
        wrong: Any
        for wrong in [[0, 0], None, array("i", [0]), array("L", [0]), bytearray(4)]:
            with self.subTest(out=wrong), self.assertRaisesRegex(TypeError, "^out has to be"):
                self.view.routes_into(keys, wrong)
        with self.assertRaisesRegex(TypeError, "^out can't be written"):
            self.view.routes_into(keys, memoryview(parts).toreadonly())
        with self.assertRaisesRegex(BufferError, "^out is not contiguous"):
            self.view.routes_into(keys, memoryview(parts)[::2])
        self.assertEqual(parts.tolist(), PARTS)
        # Nothing holds the arrays any more.
        keys.append(0)
        parts.append(0)

    @unittest.skipIf(numpy is None, "NumPy is not here")
    def test_arrays_of_numpy(self) -> None:
        keys = numpy.array(KEYS, dtype=numpy.uint64)
        self.assertEqual(self.view.routes(keys).tolist(), PARTS)
        keys.flags.writeable = False
        out = numpy.zeros(6, dtype=numpy.uint32)
        self.assertEqual(self.view.routes_into(keys, out), 4)
        self.assertEqual(out.tolist(), PARTS + [0, 0])
        self.assertEqual(self.view.route(keys[0]), 3)
        for wrong in [keys.astype(">u8"), keys.astype(numpy.int64), keys.reshape(2, 2)]:
            with self.assertRaisesRegex(TypeError, "^keys has to be"):
                self.view.routes(wrong)
        with self.assertRaisesRegex(BufferError, "^keys is not contiguous"):
            self.view.routes(keys[::2])


class Errands(unittest.TestCase):
    """Errands by a view."""

    def test_an_errand_outlives_its_view(self) -> None:
        router = fresh()
        router.done(1, 0, 3)
        view = router.view()
        errand = view.errand(key(2))
        view.close()
        router.close()
        self.assertEqual(errand.asked, 3)

    def test_a_view_of_a_newer_course(self) -> None:
        router = fresh()
        router.issued(2, FIVE)
        view = router.view()
        self.assertEqual((view.number, view.errand(Rank(0, 1)).asked), (2, 1))


if __name__ == "__main__":
    unittest.main()
