"""A hundred routers in one process."""

from __future__ import annotations

import random
import time
import unittest
from typing import List

from squall_bus import Node, open_bus
from squall_bus.pieces import joined
from squall_bus.publish import work_off
from squall_bus.rounds import course, spread

from .lossy import Lossy
from .programs import OLD, plan, until
from .servers import Nats, find

COUNT = 100
PACE = 0.2


class Routers(unittest.TestCase):
    """All of them know the same in the end, though a third of all frames is lost."""

    def setUp(self) -> None:
        with course() as it:
            self.reports = list(work_off(it, 4))

    def test_rounds_in_memory(self) -> None:
        # How many rounds it takes is a matter of chance, so the chance is the same in each run.
        seen = spread(COUNT, self.reports, 1 / 3, random.Random(1))
        for wire in (seen.reports, seen.digests, seen.repairs):
            self.assertTrue(0.2 < wire.missed / wire.sent < 0.5)
        # The one that has all, and nobody else.
        self.assertEqual(seen.lacking[0], COUNT - 1)
        self.assertLess(seen.rounds, 30)
        print(
            f"measured: {seen.rounds} rounds, {seen.repairs.bytes // COUNT} bytes of repairs each"
        )

    def test_nothing_lost_needs_no_round(self) -> None:
        seen = spread(COUNT, self.reports, 0.0, random.Random())
        self.assertEqual((seen.rounds, seen.repairs.sent), (0, 0))

    @unittest.skipUnless(find("nats-server"), "no nats-server")
    def test_rounds_over_nats(self) -> None:
        server = Nats()
        self.addCleanup(server.remove)
        server.start()
        buses = [Lossy(open_bus(server.url()), 33) for _ in range(COUNT)]
        nodes = [Node(it, plan(OLD), PACE) for it in buses]
        for it in buses:
            self.addCleanup(it.close)
        self.turn(nodes)
        for data in self.reports:
            nodes[0].tell(data)
        began = time.monotonic()
        wanted = joined(self.reports)
        self.turn(nodes)
        lacking = sum(it.router.board() != wanted for it in nodes)
        until("all boards are equal", lambda: self.are_equal(nodes, wanted))
        took = time.monotonic() - began
        self.assertGreater(lacking, COUNT // 2)
        missed, came = sum(it.missed for it in buses), sum(it.came for it in buses)
        self.assertTrue(0.2 < missed / came < 0.5)
        print(f"measured: over NATS {took / PACE:.0f} rounds")

    def turn(self, nodes: List[Node]) -> None:
        """Lets each of them hear what has come."""
        for it in nodes:
            it.turn(0.0)

    def are_equal(self, nodes: List[Node], wanted: List[bytes]) -> bool:
        """Whether all know the same, after one more turn."""
        self.turn(nodes)
        return all(it.router.board() == wanted for it in nodes)
