"""Parts that need no server."""

from __future__ import annotations

import random
import unittest
from pathlib import Path
from tempfile import TemporaryDirectory
from typing import List

from squall import END, Course, Plan, Rank, Router, frame
from squall_bus import BusError
from squall_bus.nats_text import Op, Parser
from squall_bus.pieces import ANY, cut, joined, reports
from squall_bus.publish import reported, work_off
from squall_bus.seal import About, Seal, read_secret

from .programs import course


class NatsText(unittest.TestCase):
    """What a server of NATS sends."""

    text = b'INFO {"a":1} \r\n+OK\r\nMSG a.b 2 5\r\n12\r\n5\r\nPING\r\nmsg a 1 re 0\r\n\r\nPONG\r\n'
    ops = [
        Op("INFO", '{"a":1}'),
        Op("+OK", ""),
        Op("MSG", "a.b 2 5", b"12\r\n5"),
        Op("PING", ""),
        Op("MSG", "a 1 re 0", b""),
        Op("PONG", ""),
    ]

    def test_it_may_be_cut_anywhere(self) -> None:
        for size in range(1, len(self.text) + 1):
            parser, found = Parser(), []
            for at in range(0, len(self.text), size):
                found += parser.feed(self.text[at : at + size])
            self.assertEqual(found, self.ops)

    def test_bad_bytes_are_a_fault(self) -> None:
        for bad in (
            b"x" * 70000,
            b"MSG a 1 -1\r\n",
            b"MSG a 1 1e9\r\n",
            b"MSG 5\r\n",
            b"MSG a 1 99999999999\r\n",
            b"MSG a 1 2\r\nabcd\r\n",
        ):
            with self.assertRaises(BusError):
                Parser().feed(bad)


class Seals(unittest.TestCase):
    """Codes of messages."""

    about = About("shop.digests", "proxy-1", "_INBOX.7")

    def test_the_vector_is_kept(self) -> None:
        # That of PROTOCOL.md, which the programs for Redis test too.
        code = Seal(b"a" * 32, "shop").code(self.about, b"frame")
        wanted = "6de84d55199df84bbe7638d43cc4acfaf6aaa53d33f638eda07578b5db3cf0e8"
        self.assertEqual(code.hex(), wanted)

    def test_what_is_turned_is_refused(self) -> None:
        seal = Seal(b"a" * 32, "shop")
        place, _, reply = self.about
        data = seal.envelope(self.about, b"frame")
        self.assertEqual(seal.open(place, reply, data), ("proxy-1", b"frame"))
        for at in range(8 * len(data)):
            turned = bytearray(data)
            turned[at // 8] ^= 1 << at % 8
            self.assertIsNone(seal.open(place, reply, bytes(turned)))
        for end in range(len(data)):
            self.assertIsNone(seal.open(place, reply, data[:end]))
        self.assertIsNone(seal.open("shop.frames", reply, data))
        self.assertIsNone(seal.open(place, None, data))
        for other in (Seal(b"b" * 32, "shop"), Seal(b"a" * 32, "shops")):
            self.assertIsNone(other.open(place, reply, data))

    def test_a_secret_is_the_first_line(self) -> None:
        with TemporaryDirectory() as folder:
            file = Path(folder) / "secret"
            file.write_bytes(b"a" * 16 + b"\nrest\n")
            self.assertEqual(read_secret(file), b"a" * 16)
            for bad in (b"", b"a" * 15, b"a" * 15 + b" b"):
                file.write_bytes(bad)
                with self.assertRaisesRegex(ValueError, "openssl rand -hex 32"):
                    read_secret(file)


class Pieces(unittest.TestCase):
    """Frames that are cut."""

    def boards(self) -> List[bytes]:
        """Of a course that is worked off, one with many spans, and one with a clash."""
        many = [frame.loaded(3, at % 4, at % 3, Rank(at, 0), Rank(at, 1 + at)) for at in range(300)]
        other = Plan.of([(0, END, 7)])
        clash = [Course(9, other, ANY).frame(), Course(9, ANY, other).frame()]
        mixed = [*work_off(course(), 5), *many, *clash, frame.done(3, 1, 1), frame.opened(3, 9999)]
        return [joined(it)[0] for it in (list(work_off(course(), 9)), many, clash, mixed)]

    def test_reports_say_what_the_frame_says(self) -> None:
        for board in self.boards():
            single = list(reports(board))
            random.shuffle(single)
            self.assertEqual(joined(single), [board])

    def test_pieces_say_what_the_frame_says(self) -> None:
        for board in self.boards():
            for most in (300, 1000, max(200, len(board) - 1), len(board)):
                pieces = cut(board, most)
                self.assertEqual(pieces.too_long, [])
                self.assertTrue(all(len(it) <= most for it in pieces.fit))
                self.assertEqual(joined(pieces.fit), [board])
                self.assertLess(len(pieces.fit), 5 * len(board) // most + 5)

    def test_what_can_not_be_cut_is_left(self) -> None:
        (board,) = joined(list(work_off(course(), 4)))
        pieces = cut(board, 100)
        self.assertEqual(pieces.too_long, [course().frame()])
        self.assertEqual(joined(pieces.fit + pieces.too_long), [board])
        with Router(1, ANY, ANY) as router:
            router.hear(board)
            digest = router.digest()
        self.assertEqual(cut(digest, 50).too_long, [digest])


class Reports(unittest.TestCase):
    """Lines of reports."""

    def test_lines_are_frames(self) -> None:
        lines = ["opened 2 0\n", "\n", "loaded 2 0 3 2:0 end\n", "done 2 0 3\n"]
        found = list(reported(lines))
        wanted = [frame.opened(2, 0), frame.loaded(2, 0, 3, Rank(2, 0), END), frame.done(2, 0, 3)]
        self.assertEqual(found, wanted)

    def test_other_lines_are_faults(self) -> None:
        for bad in ("done 2 0", "done 2 0 x", "opened 0 0", "loaded 2 0 3 2:0", "gone 1"):
            with self.assertRaises(ValueError):
                list(reported([bad]))
