"""Routers that hear of 100,000 things: no call is refused for how much came before it.

No contract says so, since each call may fail for want of memory.
"""

import ctypes
import unittest
from array import array

from squall import END, Counts, Router, View

from .worked import FIVE, fresh

MANY = 100000
#: All keys at partition 3.
THREE = FIVE.replace("5", "3")


class Numbers(unittest.TestCase):
    """Sub-plans that are opened under many numbers."""

    def test_numbers(self) -> None:
        router = fresh()
        for number in range(1, MANY + 1):
            router.opened(number, 0)
        self.assertEqual(router.counts(), Counts(0, 0, MANY, 0))
        # Eight bytes for each number, of the digest as of the board, and a heading of 16.
        digest = router.digest()
        self.assertEqual(len(digest), 16 + 8 * MANY)
        frames = router.board()
        other = fresh()
        for frame in frames:
            other.hear(frame)
        self.assertEqual(other.counts(), router.counts())
        self.assertEqual(other.digest(), digest)
        other.hear(digest)
        self.assertEqual(other.repair(), [])


class Legs(unittest.TestCase):
    """Loads that split the keys of one move."""

    @staticmethod
    def loaded(router: Router) -> View:
        """A view of the router, once every other pair of ranks is loaded, first each tenth."""
        for first in range(10):
            for at in range(first, MANY, 10):
                router.loaded(1, 0, 3, 4 * at, 4 * at + 2)
        return router.view()

    def test_legs(self) -> None:
        router = Router(1, FIVE, THREE)
        view = self.loaded(router)
        self.assertEqual(router.counts(), Counts(1, MANY, 0, 0))
        self.assertEqual(len(router.legs(0, END)), 2 * MANY)
        keys = (ctypes.c_uint64 * (4 * MANY))(*range(4 * MANY))
        self.assertEqual(view.routes(keys), array("I", [3, 3, 5, 5]) * MANY)
        self.assertEqual(view.route(4 * MANY), 5)
        other = Router(1, FIVE, THREE)
        for frame in router.board():
            other.hear(frame)
        self.assertEqual(other.counts(), router.counts())
        self.assertEqual(other.view().routes(keys), view.routes(keys))
