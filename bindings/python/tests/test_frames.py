"""Frames: boards, digests and repairs, and bytes that are no frames."""

import mmap
import unittest
from array import array
from typing import Any, List

from squall import (
    FRAME_BYTES,
    Course,
    FrameError,
    FrameFault,
    Leader,
    NoDigestError,
    NumberError,
    Part,
    Router,
    StreamError,
    TooLongError,
)

from .worked import (
    EMPTY_DELTA,
    EMPTY_DIGEST,
    FIVE,
    LOAD_FRAME,
    NEW,
    OLD,
    OPENING_FRAME,
    fresh,
    key,
    moved,
)

BAD_FRAMES = [
    ("5352", FrameFault.MAGIC),
    ("53510301", FrameFault.VERSION),
    ("53510103", FrameFault.KIND),
    ("5351010100100001", FrameFault.TOO_LONG),
    ("5351010100000000", FrameFault.COUNT),
    ("535101010000000800000000ffffffff", FrameFault.COUNT),
    ("535101010000001900000000000000010000000000000000000000030100000000", FrameFault.RANGE),
    ("53510201000000080000000000000000", FrameFault.RANGE),
    ("5351010100000018000000020000000200000001000000010000000100000000", FrameFault.ORDER),
    ("5351010100000009000000000000000000", FrameFault.SPARE),
]


def exchange(a: Router, b: Router) -> int:
    """Lets `b` answer the digest of `a`, and says how many frames it had to send."""
    b.feed(a.digest())
    frames = b.repair()
    for frame in frames:
        a.feed(frame)
    return len(frames)


class Streams(unittest.TestCase):
    """What `feed` takes."""

    def test_frames_cut_anywhere(self) -> None:
        stream = LOAD_FRAME + OPENING_FRAME
        for cut in range(len(stream) + 1):
            for later in range(cut, len(stream) + 1, 5):
                router = fresh()
                router.feed(stream[:cut])
                router.feed(bytearray(stream[cut:later]))
                self.assertEqual(router.route(key(2)), 1 if later < len(LOAD_FRAME) else 3)
                router.feed(memoryview(stream)[later:])
                # The frame of both has 8 bytes more than that of the load alone.
                self.assertEqual([len(it) for it in router.board()], [len(LOAD_FRAME) + 8])

    def test_bytes_that_are_no_frame(self) -> None:
        for digits, fault in BAD_FRAMES:
            with self.subTest(frame=digits):
                router = fresh()
                with self.assertRaises(FrameError) as raised:
                    router.feed(LOAD_FRAME + bytes.fromhex(digits))
                self.assertIs(raised.exception.fault, fault)
                self.assertEqual(raised.exception.status, fault)
                self.assertEqual(router.route(key(2)), 3)
                for data in [EMPTY_DELTA, b"", bytearray(EMPTY_DELTA)]:
                    with self.assertRaises(StreamError):
                        router.feed(data)
                router.done(1, 0, 4)
                self.assertEqual(router.route(key(6)), 4)

    def test_a_fault_that_waits_for_its_bytes(self) -> None:
        router = fresh()
        router.feed(b"SQ\x01")
        router.feed(b"")
        self.assertEqual(router.waiting, 3)
        with self.assertRaises(FrameError) as raised:
            router.feed(b"\x03")
        said = "no frame: Kind: the kind is neither that of a delta nor that of a digest"
        self.assertEqual((str(raised.exception), router.waiting), (said, 0))

    def test_a_stream_that_ends_within_a_frame(self) -> None:
        router = fresh()
        for size in range(1, len(LOAD_FRAME)):
            router.feed(LOAD_FRAME[:size])
            self.assertEqual(router.waiting, size)
            router.feed(LOAD_FRAME[size:])
            self.assertEqual(router.waiting, 0)


class WholeFrames(unittest.TestCase):
    """What `hear` takes."""

    def test_whole_frames(self) -> None:
        router = fresh()
        router.hear(LOAD_FRAME)
        self.assertEqual(router.route(key(2)), 3)
        router.hear(LOAD_FRAME)
        router.hear(EMPTY_DELTA)
        with self.assertRaises(NoDigestError):
            router.repair()
        router.hear(EMPTY_DIGEST)
        self.assertEqual(router.repair(), [LOAD_FRAME])

    def test_frames_that_are_not_whole(self) -> None:
        router = fresh()
        for size in range(len(LOAD_FRAME)):
            with self.assertRaises(FrameError) as raised:
                router.hear(LOAD_FRAME[:size])
            self.assertIs(raised.exception.fault, FrameFault.SHORT)
        with self.assertRaises(FrameError) as raised:
            router.hear(LOAD_FRAME + EMPTY_DELTA)
        self.assertIs(raised.exception.fault, FrameFault.SPARE)
        for digits, fault in BAD_FRAMES:
            with self.assertRaises(FrameError) as raised:
                router.hear(bytes.fromhex(digits))
            self.assertIs(raised.exception.fault, fault)
        # No fault ends anything.
        self.assertEqual(router.board(), [])
        router.hear(LOAD_FRAME)
        self.assertEqual(router.route(key(2)), 3)

    def test_a_frame_beside_a_stream(self) -> None:
        router = fresh()
        router.feed(b"SQ\x01")
        router.hear(LOAD_FRAME)
        self.assertEqual(router.route(key(2)), 3)
        with self.assertRaises(FrameError):
            router.feed(b"\x03")
        router.hear(EMPTY_DIGEST)
        self.assertEqual(router.repair(), [LOAD_FRAME])


class Bytes(unittest.TestCase):
    """The types that are taken for bytes."""

    def test_each_type(self) -> None:
        with mmap.mmap(-1, len(LOAD_FRAME)) as mapped:
            mapped[:] = LOAD_FRAME
            numbers = array("B", LOAD_FRAME)
            part = memoryview(b"xyz" + LOAD_FRAME)[3:]
            kinds: List[Any] = [bytearray(LOAD_FRAME), part, mapped, numbers]
            for data in kinds:
                for call in [Router.feed, Router.hear]:
                    with self.subTest(kind=type(data), call=call.__name__):
                        router = fresh()
                        call(router, data)
                        self.assertEqual(router.board(), [LOAD_FRAME])

    def test_bytes_that_lie(self) -> None:
        class Long(bytes):
            """Says that it has more bytes than it has."""

            def __len__(self) -> int:
                return 1 << 40

        router = fresh()
        router.feed(Long(LOAD_FRAME))
        router.hear(Long(LOAD_FRAME))
        self.assertEqual(router.board(), [LOAD_FRAME])

    def test_no_bytes(self) -> None:
        kinds: List[Any] = [bytearray(), memoryview(b""), array("B")]
        for empty in kinds:
            router = fresh()
            router.feed(empty)
            with self.assertRaises(FrameError):
                router.hear(empty)

    def test_what_is_no_bytes(self) -> None:
        router = fresh()
        wrong: List[Any] = ["535101", None, 7, [83, 81], memoryview(LOAD_FRAME)[::2]]
        for data in wrong:
            for call in [router.feed, router.hear]:
                with self.subTest(data=data), self.assertRaises((TypeError, BufferError)):
                    call(data)
        router.feed(LOAD_FRAME)

    def test_a_buffer_is_free_after_a_call(self) -> None:
        router = fresh()
        buffer = bytearray(LOAD_FRAME)
        router.hear(buffer)
        buffer.append(0)
        with self.assertRaises(FrameError) as raised:
            router.hear(buffer)
        del buffer[-1]
        self.assertIs(raised.exception.fault, FrameFault.SPARE)
        router.hear(buffer)


class Boards(unittest.TestCase):
    """Boards, digests and repairs."""

    def test_frames_of_a_board(self) -> None:
        router = fresh()
        self.assertEqual(router.board(), [])
        router.loaded(1, 0, 3, key(2), key(3))
        for _ in range(2):
            self.assertEqual(router.board(), [LOAD_FRAME])
        router = fresh()
        router.opened(1, 0)
        self.assertEqual(router.board(), [OPENING_FRAME])

    def test_a_clash_in_a_frame(self) -> None:
        router = fresh()
        router.issued(2, FIVE)
        router.issued(2, OLD)
        router.loaded(2, 0, 5, key(2), key(2) + 1)
        wanted = (
            "5351020100000032000000000000000100000002020000000100000002000000000000000500"
            "0000000100000002000000000000000200000001"
        )
        self.assertEqual(router.board(), [bytes.fromhex(wanted)])

    def test_digests(self) -> None:
        router = fresh()
        with self.assertRaises(NoDigestError):
            router.repair()
        self.assertEqual(router.digest(), EMPTY_DIGEST)
        router.loaded(1, 0, 3, key(2), key(3))
        # The hash is that of SHA-256 over the cell's 33 bytes, by another program.
        wanted = (
            "53510102000000300000000000000001000000010000000025868db80855a707339da598e4f3"
            "a16ab6b7b5400f2c937e7a625817d02bfa4a"
        )
        self.assertEqual(router.digest(), bytes.fromhex(wanted))

    def test_routers_that_exchange_boards(self) -> None:
        a, b = moved(), fresh()
        b.done(1, 0, 4)
        self.assertNotEqual(a.board(), b.board())
        for frame in a.board():
            b.hear(frame)
        a.feed(b"".join(b.board()))
        self.assertEqual(a.board(), b.board())
        self.assertEqual((a.route(key(6)), b.route(key(2))), (4, 3))

    def test_routers_that_repair(self) -> None:
        a, b = moved(), moved()
        b.done(2, 0, 4)
        b.opened(1, 0)
        b.feed(a.digest())
        wanted = (
            "5351010100000021000000010000000100000001000000010000000200000000000000040100000000"
        )
        self.assertEqual(b.repair(), [bytes.fromhex(wanted)])
        self.assertEqual(exchange(a, b), 1)
        self.assertEqual(a.board(), b.board())
        self.assertEqual(exchange(a, b), 0)

    def test_a_board_of_two_pieces(self) -> None:
        # 65,535 spans of one cell are one more than a frame holds: 65,534 spans, and 1. The frame
        # of a cell has a head of 33 bytes, and 16 for each span.
        head = bytes.fromhex("00000000 00000001 00000009 00000000 00000003 00")
        router = fresh()
        for begin in [0, 40000]:
            count = min(40000, 65535 - begin)
            spans = array("Q", [2 * (begin + it // 2) + it % 2 for it in range(2 * count)])
            spans.byteswap()
            body = head + count.to_bytes(4, "big") + spans.tobytes()
            router.hear(b"SQ\1\1" + len(body).to_bytes(4, "big") + body)
        frames = router.board()
        self.assertEqual([len(it) for it in frames], [1048577, 49])
        self.assertLess(len(frames[0]), FRAME_BYTES)
        other = fresh()
        for frame in reversed(frames):
            other.hear(frame)
        self.assertEqual(other.board(), frames)

    def test_a_digest_of_too_many_rows(self) -> None:
        # A row has 40 bytes: 26,215 are one more than a frame holds.
        router = fresh()
        for at in range(26214):
            router.done(1 + at // 10000, at % 10000, 3)
        self.assertEqual(len(router.digest()), 8 + 8 + 40 * 26214)
        router.done(9, 0, 3)
        with self.assertRaises(TooLongError):
            router.digest()
        self.assertEqual(len(router.board()), 1)

    def test_frames_within_a_limit(self) -> None:
        # A cell with two spans has 65 bytes, one with one span has 49. A digest of one row has 56.
        router = fresh()
        for root in [2, 4, 6]:
            router.loaded(1, 0, 3, key(root), key(root + 1))
        frames = router.board(limit=65)
        self.assertEqual([len(it) for it in frames], [65, 49])
        self.assertEqual(len(router.digest(limit=56)), 56)
        router.hear(EMPTY_DIGEST)
        self.assertEqual(router.repair(limit=65), frames)
        makers: List[Any] = [router.board, router.digest, router.repair]
        for maker, limit in zip(makers, [48, 55, 0]):
            with self.assertRaises(TooLongError):
                maker(limit=limit)
        with self.assertRaises(NumberError):
            router.board(limit=-1)

    def test_frames_of_others_within_a_limit(self) -> None:
        leader = Leader(OLD)
        leader.begin(NEW)
        part = Part(3, Course(1, OLD, NEW))
        part.hear(leader.board(limit=98337)[0])
        makers: List[Any] = [leader.board, leader.digest, part.board, part.digest]
        for maker in makers:
            with self.assertRaises(TooLongError):
                maker(limit=19)


if __name__ == "__main__":
    unittest.main()
