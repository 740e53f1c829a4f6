"""What a node says and answers, over a bus without a server."""

from __future__ import annotations

import unittest
from contextlib import redirect_stderr
from io import StringIO
from typing import List, Tuple
from unittest.mock import patch

import squall
from squall import Router
from squall_bus import Bus, Message, Node
from squall_bus.pieces import ANY


class Said(Bus):
    """A bus of which a test says what comes."""

    loses = True

    def __init__(self) -> None:
        self.comes: List[Message] = []
        self.asked: List[bytes] = []
        self.answered: List[bytes] = []

    def connect(self) -> None:
        pass

    def close(self) -> None:
        pass

    def send(self, frame: bytes) -> None:
        pass

    def hear(self, seconds: float) -> List[Message]:
        comes, self.comes = self.comes, []
        return comes

    def ask(self, digest: bytes) -> None:
        self.asked.append(digest)

    def answer(self, reply: str, frame: bytes) -> None:
        self.answered.append(frame)


class Nodes(unittest.TestCase):
    """What a node answers."""

    def test_a_digest_gets_what_it_lacks(self) -> None:
        bus = Said()
        node = Node(bus, ANY, 1000.0)
        with Router(1, ANY, ANY) as peer:
            bus.comes = [Message(peer.digest(), "x"), Message(squall.frame.done(2, 0, 3))]
            self.assertTrue(node.turn(0.0))
            # At first it knew no more, and it shows its digest once.
            self.assertEqual((bus.answered, bus.asked), ([], [peer.digest()]))
            bus.comes = [Message(peer.digest(), "x"), Message(peer.digest())]
            self.assertFalse(node.turn(0.0))
            self.assertEqual((bus.answered, len(bus.asked)), (node.router.board(), 1))

    def test_a_gap_brings_a_digest_soon(self) -> None:
        bus = Said()
        node = Node(bus, ANY, 1000.0)
        with Router(1, ANY, ANY) as peer, patch("random.uniform", return_value=0.0):
            node.turn(0.0)
            peer.done(2, 0, 3)
            digest, repair = Message(peer.digest(), "x"), peer.board()[0]
            turns: List[Tuple[List[Message], int]] = [
                ([digest], 1),
                ([], 2),
                # Nothing was learnt since, so the usual pace is enough.
                ([digest], 2),
                ([], 2),
                ([Message(repair, mends=True)], 2),
                ([], 3),
                # What everybody was told is no gap.
                ([Message(squall.frame.done(2, 1, 3))], 3),
                ([], 3),
            ]
            for bus.comes, shown in turns:
                node.turn(0.0)
                self.assertEqual(len(bus.asked), shown)

    def test_a_digest_that_is_too_long_is_not_shown(self) -> None:
        bus = Said()
        node = Node(bus, ANY, 0.0)
        for at in range(30000):
            node.router.done(2 + at // 10000, at % 10000, 3)
        with Router(1, ANY, ANY) as peer, redirect_stderr(StringIO()) as said:
            bus.comes = [Message(peer.digest(), "x")]
            node.turn(0.0)
            self.assertEqual((bus.asked, bus.answered), ([], node.router.board()))
        self.assertIn("digest", said.getvalue())
