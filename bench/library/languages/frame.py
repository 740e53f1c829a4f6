"""Writes the frame of one cell whose spans cut the keys into as many legs as the first word says."""

from __future__ import annotations

import struct
import sys

#: All loads lie below this rank, and so do the keys that are asked for.
REACH = 1 << 62


def frame(spans: int) -> bytes:
    """What a router hears: loads of partition 2 in sub-plan 0 of course 1, apart from one another."""
    step = REACH // spans
    body = [struct.pack(">IIIIIBI", 0, 1, 1, 0, 2, 0, spans)]
    body += (struct.pack(">QQ", at * step, at * step + step // 2) for at in range(spans))
    joined = b"".join(body)
    return b"SQ\x01\x01" + struct.pack(">I", len(joined)) + joined


if __name__ == "__main__":
    sys.stdout.buffer.write(frame(int(sys.argv[1]) // 2))
