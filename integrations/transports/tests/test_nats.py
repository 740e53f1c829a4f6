"""Frames over a NATS server."""

from __future__ import annotations

import re
import threading
import unittest
from typing import List, Tuple

from squall import END, Course, Plan, Rank, Router, frame
from squall_bus import BusError, Message, Node, TooLarge, open_bus
from squall_bus.bus import Bus
from squall_bus.nats import NatsBus
from squall_bus.pieces import joined

from .programs import OLD, CourseTest, heard, plan, until
from .servers import Nats, NatsWith, Server, find

FIRST = Plan.of([(0, END, 1)])


def hear(bus: Bus) -> List[Message]:
    """What comes next."""
    return heard(lambda: bus.hear(0.05))


class NatsTest(unittest.TestCase):
    """Tests with a server of their own."""

    def serve(self, server: Server) -> Server:
        """Starts it."""
        self.addCleanup(server.remove)
        server.start()
        return server

    def bus(self, url: str, hears_all: bool = False) -> Bus:
        """One that is connected."""
        bus = open_bus(url, hears_all)
        self.addCleanup(bus.close)
        bus.connect()
        return bus


@unittest.skipUnless(find("nats-server"), "no nats-server")
class Losses(CourseTest):
    """A third of all messages is missed."""

    percent = 33

    def setUp(self) -> None:
        self.server = Nats()
        self.addCleanup(self.server.remove)
        self.server.start()

    def test_digests_mend_what_was_lost(self) -> None:
        # One that shows no digests, beside the others: it has to lack something in the end.
        control = self.follower("control", 1e9)
        nodes = self.work(lambda: None)
        self.assertEqual(control.end(), 0)
        self.assertNotEqual(self.bytes_of("control"), self.bytes_of("publisher"))
        counts = [self.missed(it.said()) for it in [control, *nodes]]
        missed, came = (sum(it) for it in zip(*counts))
        self.assertTrue(all(it[0] > 0 for it in counts), counts)
        self.assertTrue(0.2 < missed / came < 0.5, counts)
        print(f"measured: missed {missed} of {came} messages")

    def missed(self, said: str) -> Tuple[int, int]:
        """How many messages a program has missed, of how many."""
        found = re.search("missed ([0-9]+) of ([0-9]+)", said)
        assert found is not None, said
        return int(found[1]), int(found[2])


@unittest.skipUnless(find("nats-server"), "no nats-server")
class Messages(NatsTest):
    """What goes over the server."""

    def test_reports_reach_all_others_and_repairs_one(self) -> None:
        url = self.serve(Nats()).url()
        one, two, three = (self.bus(url) for _ in range(3))
        one.send(frame.done(2, 0, 3))
        self.assertEqual(hear(two), [Message(frame.done(2, 0, 3))])
        self.assertEqual(hear(three), [Message(frame.done(2, 0, 3))])
        self.assertEqual(one.hear(0.05), [])
        # Of those in the group one gets a digest, and the node that hears all gets it too.
        all_of_them = self.bus(url, hears_all=True)
        with Router(1, FIRST, FIRST) as router:
            digest = router.digest()
        one.ask(digest)
        shown = hear(all_of_them)
        self.assertEqual([it.frame for it in shown], [digest])
        group = heard(lambda: two.hear(0.1) + three.hear(0.1))
        self.assertEqual(len(group) + len(two.hear(0.1)) + len(three.hear(0.1)), 1)
        assert shown[0].reply is not None
        two.answer(shown[0].reply, frame.opened(2, 0))
        self.assertEqual([it.frame for it in hear(one)], [frame.opened(2, 0)])
        self.assertEqual(three.hear(0.05), [])

    def test_what_is_not_sealed_is_passed_over(self) -> None:
        url = self.serve(NatsWith("max_payload: 1024")).url()
        buses = [open_bus(url, secret=it) for it in (b"a" * 16, b"a" * 16, b"b" * 16, None)]
        for bus in buses:
            self.addCleanup(bus.close)
            bus.connect()
        one, same, other, plain = buses
        for stranger in (other, plain):
            stranger.send(frame.opened(3, 0))
        self.assertEqual(hear(plain)[0].frame[-len(frame.opened(3, 0)) :], frame.opened(3, 0))
        with Router(1, FIRST, FIRST) as router:
            for at in range(50):
                router.loaded(2, 0, 3, Rank(at, 0), Rank(at, 1))
            (board,) = router.board()
            one.send(board)
            came = [it.frame for it in hear(same)]
            self.assertEqual(joined(came), [board])
        assert isinstance(same, NatsBus) and isinstance(other, NatsBus)
        self.assertEqual(same.foreign, 2)
        self.assertEqual(other.hear(0.1), [])

    def test_names_keep_deployments_apart(self) -> None:
        url = self.serve(Nats()).url()
        one, same, other = (self.bus(f"{url}/{it}") for it in ("a", "a", "b"))
        one.send(frame.opened(2, 0))
        self.assertEqual(len(hear(same)), 1)
        self.assertEqual(other.hear(0.1), [])

    def test_a_board_is_cut_to_what_the_server_takes(self) -> None:
        url = self.serve(NatsWith("max_payload: 1024")).url()
        one, two = self.bus(url), self.bus(url)
        with Router(1, FIRST, FIRST) as router, Router(1, FIRST, FIRST) as other:
            for at in range(500):
                router.loaded(2, 0, 3, Rank(at, 0), Rank(at, 1))
            router.opened(2, 0)
            router.done(2, 0, 4)
            (board,) = router.board()
            self.assertGreater(len(board), 8000)
            one.send(board)
            pieces: List[bytes] = []
            while other.digest() != router.digest():
                came = hear(two)
                pieces += [it.frame for it in came]
                for it in came:
                    other.hear(it.frame)
            self.assertEqual(other.board(), [board])
            self.assertTrue(all(len(it) <= 1024 for it in pieces))
            self.assertGreater(len(pieces), 8)

    def test_an_issue_that_is_too_long_is_named(self) -> None:
        url = self.serve(NatsWith("max_payload: 1024")).url()
        one, two = self.bus(url), self.bus(url)
        ranges = [(Rank(at, 0), Rank(at + 1, 0), at % 2) for at in range(100)]
        large = Plan.of([*ranges, (Rank(100, 0), END, 1)])
        with Course(2, large, FIRST) as course:
            with self.assertRaisesRegex(TooLarge, "the issue of course 2 takes 12.. bytes"):
                one.send(course.frame())
        # The connection is still there.
        one.send(frame.opened(2, 0))
        self.assertEqual(len(hear(two)), 1)

    def test_a_login_is_asked_for(self) -> None:
        url = self.serve(Nats("--user", "squall", "--pass", "p w")).url()
        host = url[len("nats://") :]
        for bad in (url, f"nats://squall:other@{host}", f"nats://token@{host}"):
            with self.assertRaisesRegex(BusError, "Authorization Violation"):
                open_bus(bad).connect()
        self.bus(f"nats://squall:p%20w@{host}")

    def test_a_token_is_one_too(self) -> None:
        url = self.serve(Nats("--auth", "secret")).url()
        self.bus(f"nats://secret@{url[len('nats://') :]}")

    def test_a_node_connects_again(self) -> None:
        server = self.serve(Nats())
        node, peer = (Node(open_bus(server.url()), plan(OLD), 0.1) for _ in range(2))
        node.tell(frame.done(2, 0, 3))
        server.end()
        while node.turn(0.05):
            pass
        server.start()
        until("the peer hears", lambda: bool(node.turn(0.05) or peer.turn(0.05)) and peer.taken > 0)
        self.assertEqual(peer.router.board(), node.router.board())
        for it in (node, peer):
            it.bus.close()

    def test_the_next_server_is_tried(self) -> None:
        server = self.serve(Nats("--user", "squall", "--pass", "p"))
        node = Node(open_bus(f"nats://squall:p@127.0.0.1:1,127.0.0.1:{server.port}"), FIRST)
        self.addCleanup(node.bus.close)
        node.tell(frame.done(2, 0, 3))

    def test_a_publisher_waits_until_another_knows(self) -> None:
        url = self.serve(Nats()).url()
        publisher, other = Node(open_bus(url, True), FIRST, 0.05), Node(open_bus(url), FIRST, 0.05)
        self.addCleanup(publisher.bus.close)
        self.addCleanup(other.bus.close)
        publisher.tell(frame.done(2, 0, 3))
        self.assertFalse(publisher.settle(0.1, 0.5))
        done = threading.Event()

        def follow() -> None:
            while not done.is_set():
                other.turn(0.02)

        follower = threading.Thread(target=follow)
        follower.start()
        is_settled = publisher.settle(0.2, 60.0)
        done.set()
        follower.join()
        self.assertTrue(is_settled)
        self.assertEqual(other.router.board(), publisher.router.board())

    def test_what_is_no_frame_changes_nothing(self) -> None:
        url = self.serve(Nats()).url()
        stranger, node = self.bus(url), Node(open_bus(url), plan(OLD))
        self.addCleanup(node.bus.close)
        node.turn(0.01)
        for data in (b"", b"SQ", b"x" * 100, frame.opened(2, 0)[:-1], frame.opened(2, 0) * 2):
            stranger.answer("squall.frames", data)
        stranger.send(frame.opened(2, 0))
        until("the frame comes", lambda: node.turn(0.1))
        self.assertEqual((node.refused, node.taken), (5, 1))
