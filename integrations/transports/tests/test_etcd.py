"""Frames as keys of etcd, and the numbers of courses."""

from __future__ import annotations

import subprocess
import sys
import threading
import unittest
from itertools import count
from typing import Any, ClassVar, Dict, List

from squall import END, FRAME_BYTES, Course, Plan, Router
from squall_bus import BusError, Message, Node, TooLarge, open_bus
from squall_bus.pieces import ANY, joined

from . import kept
from .kept import FRAMES
from .programs import BUS, NEW, OLD, course, plan, until
from .servers import Etcd, find

NAMES = count()


@unittest.skipUnless(find("etcd"), "no etcd")
class Cluster(unittest.TestCase):
    """Three members, of which one goes, and then another."""

    def test_a_node_goes_to_the_next_member(self) -> None:
        members = [Etcd() for _ in range(3)]
        for it in members:
            it.members = list(members)
            self.addCleanup(it.remove)
        for it in members:
            it.start()
        until("one leads", lambda: any(it.leads() for it in members))
        # While there is no leader, requests wait for some seconds. So it is the last to be left.
        members.sort(key=Etcd.leads)
        hosts = ",".join(f"127.0.0.1:{it.port}" for it in members)
        node, writer = (Node(open_bus(f"etcd://{hosts}"), plan(OLD)) for _ in range(2))
        self.addCleanup(node.bus.close)
        self.addCleanup(writer.bus.close)
        writer.tell(FRAMES[0])
        until("the node hears", lambda: node.turn(0.1))
        members[0].end()
        writer.tell(FRAMES[1])
        until("the node hears again", lambda: node.turn(0.1))
        self.assertEqual(node.router.board(), joined(FRAMES[:2]))
        # The last one has no leader. It says so, and does not leave the watch waiting.
        alone = open_bus(members[2].url())
        self.addCleanup(alone.close)
        alone.connect()
        alone.hear(0.1)
        members[1].end()
        with self.assertRaisesRegex(BusError, "no leader"):
            until("a fault", lambda: alone.hear(0.5) is None)


@unittest.skipUnless(find("etcd"), "no etcd")
class Login(unittest.TestCase):
    """A server that asks who it is."""

    def test_a_login_is_asked_for(self) -> None:
        server = Etcd()
        self.addCleanup(server.remove)
        server.start()
        until("it leads", server.leads)
        steps: Dict[str, Dict[str, str]] = {
            "user/add": {"name": "root", "password": "p w"},
            "role/add": {"name": "root"},
            "user/grant": {"user": "root", "role": "root"},
            "enable": {},
        }
        for path, body in steps.items():
            self.assertNotIn("error", server.ask(f"auth/{path}", body))
        host = f"127.0.0.1:{server.port}"
        reader, writer = (open_bus(f"etcd://root:p%20w@{host}") for _ in range(2))
        for it in (reader, writer):
            self.addCleanup(it.close)
            it.connect()
        self.assertEqual(reader.hear(0.1), [])
        writer.send(FRAMES[0])
        until("the reader hears", lambda: reader.hear(0.1) == [Message(FRAMES[0])])
        with self.assertRaisesRegex(BusError, "authentication failed"):
            open_bus(f"etcd://root:other@{host}").connect()
        stranger = open_bus(f"etcd://{host}")
        self.addCleanup(stranger.close)
        stranger.connect()
        with self.assertRaisesRegex(BusError, "user name is empty"):
            stranger.send(FRAMES[1])
        with self.assertRaisesRegex(BusError, "user name is empty"):
            stranger.hear(0.1)


@unittest.skipUnless(find("etcd"), "no etcd")
class EtcdTest(kept.Merged):
    """All over one server. Each test has names of its own."""

    server: ClassVar[Etcd]  # type: ignore[misc]
    words = ["--compact"]
    is_ordered = False

    @classmethod
    def setUpClass(cls) -> None:
        cls.server = Etcd()
        cls.addClassCleanup(cls.server.remove)
        cls.server.start()

    def setUp(self) -> None:
        self.url = f"{self.server.url()}/{next(NAMES)}"

    def hear(self, bus: Any, least: int) -> List[bytes]:
        """At least so many frames."""
        found: List[bytes] = []

        def is_all() -> bool:
            found.extend(it.frame for it in bus.hear(0.1))
            return len(found) >= least

        until(f"{least} frames", is_all)
        return found

    def test_a_reader_reads_on_after_all_mishaps(self) -> None:
        self.works_in_spite_of_mishaps()

    def test_eight_at_once_draw_each_number_once(self) -> None:
        drawn: Dict[int, List[int]] = {at: [] for at in range(8)}
        refused: List[int] = []
        gate = threading.Barrier(8)

        def mover(at: int) -> None:
            bus = self.bus()
            new = Plan.of([(0, END, at)])
            gate.wait()
            for _ in range(5):
                drawn[at].append(bus.draw(lambda number: Course(number, ANY, new).frame()))
            refused.append(bus.refused)

        threads = [threading.Thread(target=mover, args=[at]) for at in drawn]
        for it in threads:
            it.start()
        for it in threads:
            it.join()
        numbers = sorted(number for it in drawn.values() for number in it)
        self.assertEqual(numbers, list(range(2, 42)))
        # If no transaction was refused, they did not meet.
        self.assertGreater(sum(refused), 0)
        print(f"measured: 40 numbers drawn, {sum(refused)} transactions refused")
        # Each number has one issue, that of who has drawn it.
        with Router(1, ANY, ANY) as router:
            for data in self.hear(self.bus(), 40):
                router.hear(data)
            last = next(at for at, it in drawn.items() if 41 in it)
            with router.course() as newest:
                self.assertEqual((newest.number, newest.new_plan()[0].part), (41, last))

    def test_the_program_draws_and_issues(self) -> None:
        for number in ("2\n", "3\n"):
            words = [sys.executable, *BUS, "draw", self.url, str(OLD), str(NEW)]
            done = subprocess.run(words, check=True, capture_output=True, text=True)
            self.assertEqual(done.stdout, number)
        with course() as it:
            self.assertIn(it.frame(), self.hear(self.bus(), 2))
        # Reports of its input.
        words = [sys.executable, *BUS, "publish", self.url, "--first", str(OLD)]
        lines = "opened 3 0\nloaded 3 0 3 2:0 2:5\n"
        done = subprocess.run(words, check=True, capture_output=True, text=True, input=lines)
        self.assertEqual(done.stdout, "sent 2 reports and 0 repairs\n")
        done = subprocess.run(words, check=False, capture_output=True, text=True, input="gone 3\n")
        self.assertEqual((done.returncode, done.stderr), (1, "squall-bus: gone is no report\n"))
        self.assertEqual(len(self.hear(self.bus(), 4)), 4)

    def test_reports_are_kept_once(self) -> None:
        one, two = self.bus(), self.bus()
        self.assertEqual(one.hear(0.0), [])
        for data in (FRAMES[0], FRAMES[1], FRAMES[0]):
            two.send(data)
        self.assertEqual(self.hear(one, 3), [FRAMES[0], FRAMES[1], FRAMES[0]])
        self.assertEqual(sorted(self.hear(self.bus(), 2)), FRAMES[:2])

    def test_a_reader_that_missed_the_history_reads_all(self) -> None:
        reader, writer = self.bus(), self.bus()
        writer.send(FRAMES[0])
        self.assertEqual(self.hear(reader, 1), [FRAMES[0]])
        reader.close()
        for data in FRAMES[1:150]:
            writer.send(data)
        self.assertEqual(writer.merge(), (150, 0, 1))
        writer.compact()
        reader.connect()
        self.assertEqual(self.hear(reader, 1), joined(FRAMES[:150]))
        writer.send(FRAMES[150])
        self.assertEqual(self.hear(reader, 1), [FRAMES[150]])

    def test_the_longest_frames_fit(self) -> None:
        with Router(1, ANY, ANY) as router:
            for at in range(65534):
                router.loaded(2, 0, 0, 2 * at, 2 * at + 1)
            (board,) = router.board()
        self.assertGreater(len(board), FRAME_BYTES - 16)
        # The same of six partitions: where the cell has its partition, FORMATS.md says.
        boards = [board[:24] + part.to_bytes(4, "big") + board[28:] for part in range(6)]
        bus = self.bus()
        for it in boards:
            bus.send(it)
        # Six megabytes in one answer.
        self.assertEqual(sorted(self.hear(self.bus(), 6)), sorted(boards))

    def test_what_is_too_large_is_named(self) -> None:
        bus = self.bus()
        with self.assertRaisesRegex(TooLarge, "large"):
            bus.send(bytes(2 << 20))
        bus.send(FRAMES[0])

    def test_a_server_that_is_not_there_is_named(self) -> None:
        bus = open_bus("etcd://127.0.0.1:1")
        bus.connect()
        with self.assertRaisesRegex(BusError, "127.0.0.1:1: .*refused"):
            bus.send(FRAMES[0])
