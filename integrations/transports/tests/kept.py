"""What is tested of each bus that keeps frames."""

from __future__ import annotations

import subprocess
import sys
import threading
from typing import Any, List, Optional

from squall import Rank, Router, frame
from squall_bus import Node, open_bus
from squall_bus.pieces import ANY, joined

from .programs import BUS, OLD, CourseTest, plan, until

FRAMES = [frame.loaded(2, 0, 3, Rank(at, 0), Rank(at, 1)) for at in range(200)]


class Kept(CourseTest):
    """Tests with the server of a class below."""

    #: The bus of this test.
    url = ""
    #: More words of a merge.
    words: List[str] = []
    #: Whether servers may still be choosing a leader when a merge is asked for.
    may_choose = False

    def bus(self, secret: Optional[bytes] = None) -> Any:
        """One that is connected, with that secret."""
        bus = open_bus(self.url, secret=secret)
        self.addCleanup(bus.close)
        bus.connect()
        return bus

    def node(self) -> Node:
        """A node of the test's bus."""
        node = Node(open_bus(self.url), plan(OLD))
        self.addCleanup(node.bus.close)
        return node

    def write(self, frames: List[bytes], merged: threading.Event) -> None:
        """What a writer does: after half of its frames it waits for a merge.

        A server that is slow to answer is asked again.
        """
        writer = self.node()
        for at, it in enumerate(frames):
            if 2 * at == len(frames):
                merged.wait(60)
            writer.tell(it)

    def works_in_spite_of_mishaps(self) -> None:
        """The server goes without a word, and comes back. Then all frames are replaced."""
        merged: List[str] = []

        def is_merged() -> bool:
            """Whether the servers have answered by now. All but those that choose a leader have to."""
            words = [sys.executable, *BUS, "merge", self.server.url(), *self.words]
            done = subprocess.run(words, check=False, capture_output=True, text=True)
            merged.append(done.stdout)
            self.assertTrue(done.returncode == 0 or self.may_choose, done.stderr)
            return done.returncode == 0

        def mishap() -> None:
            self.server.end()
            self.server.start()
            until("the merge is done", is_merged)

        nodes = self.work(mishap)
        # One whose answer was lost may have been done: the next one then finds its frame alone.
        counts = "[2-9]|[0-9]{2}" if len(merged) == 1 else "[1-9]|[0-9]{2}"
        self.assertRegex(merged[-1], f"^({counts}) frames are now 1; 0 were none\n$")
        self.assertTrue(any("bus: " in it.said() for it in nodes[1:]), "nobody missed the server")
        print(f"measured: {merged[-1].split(';')[0]}")

    def heard(self, bus: Any, wanted: int) -> List[bytes]:
        """So many frames, and none after them."""
        frames: List[bytes] = []
        until("all come", lambda: len(self.more(bus, frames)) >= wanted)
        self.assertEqual(bus.hear(0.1), [])
        return frames

    def more(self, bus: Any, frames: List[bytes]) -> List[bytes]:
        """Adds those that come."""
        frames += [it.frame for it in bus.hear(0.2)]
        return frames


class Merged(Kept):
    """What each bus has to pass that keeps frames and merges them."""

    #: Whether frames come in the order in which they were sent.
    is_ordered = True

    def test_writers_and_merges_lose_nothing(self) -> None:
        """Four writers, two that merge, and a reader, all at once."""
        reader, merged = self.node(), threading.Event()
        parts = [FRAMES[at::4] for at in range(4)]
        writers = [threading.Thread(target=self.write, args=[it, merged]) for it in parts]
        for it in writers:
            it.start()
        mergers, merges = [self.bus(), self.bus()], 0
        while any(it.is_alive() for it in writers):
            reader.turn(0.01)
            if mergers[merges % 2].merge().before > 1:
                merges += 1
                merged.set()
        wanted = joined(FRAMES)
        until("the reader has all", lambda: reader.turn(0.05) or reader.router.board() == wanted)
        mergers[0].merge()
        self.assertEqual(mergers[1].merge(), (1, 0, 1))
        self.assertGreater(merges, 0)
        self.assertEqual(self.heard(self.bus(), len(wanted)), wanted)

    def test_what_is_no_frame_goes_with_a_merge(self) -> None:
        """Neither readers nor a merge stop at it."""
        bus, node = self.bus(), self.node()
        with Router(1, ANY, ANY) as router:
            bad = [b"", b"no frame", FRAMES[1][:-1], router.digest()]
        for it in (*bad, FRAMES[0], FRAMES[2]):
            bus.send(it)
        until("both are taken", lambda: node.turn(0.1) and node.taken >= 2)
        self.assertEqual(node.refused, 3)
        self.assertEqual(bus.merge(), (6, 4, 1))
        wanted = joined([FRAMES[0], FRAMES[2]])
        self.assertEqual(self.heard(self.bus(), len(wanted)), wanted)

    def test_what_is_not_sealed_is_passed_over(self) -> None:
        """All that others have sent goes with a merge, and nothing else."""
        secrets = (b"a" * 16, b"a" * 16, b"b" * 16, None)
        one, same, other, plain = (self.bus(it) for it in secrets)
        other.send(FRAMES[0])
        plain.send(FRAMES[3])
        for data in FRAMES[1:3]:
            one.send(data)
        found = self.heard(same, 2)
        self.assertEqual(found if self.is_ordered else sorted(found), FRAMES[1:3])
        self.assertEqual(self.heard(other, 1), FRAMES[:1])
        self.assertEqual((same.foreign, other.foreign, plain.foreign), (2, 3, 0))
        self.assertEqual(one.merge(), (4, 2, 1))
        self.assertEqual(self.heard(self.bus(secrets[0]), 1), joined(FRAMES[1:3]))

    def test_a_reader_reads_on_from_its_place(self) -> None:
        """Also if what the bus keeps is younger than the place."""
        reader, writer = self.bus(), self.bus()
        writer.send(FRAMES[0])
        self.assertEqual(self.heard(reader, 1), [FRAMES[0]])
        reader.close()
        writer.send(FRAMES[1])
        late, lost = self.bus(), self.bus()
        late.place = reader.place
        self.assertEqual(self.heard(late, 1), [FRAMES[1]])
        lost.place = 1 << 40
        found = self.heard(lost, 2)
        self.assertEqual(found if self.is_ordered else sorted(found), FRAMES[:2])
