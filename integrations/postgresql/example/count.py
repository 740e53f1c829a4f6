#!/usr/bin/env python3
"""Counts at a key, wherever it is, as a program of your own would do it."""

from __future__ import annotations

import argparse
import sys
import time
from pathlib import Path

HERE = Path(__file__).resolve().parent.parent
CLONE = HERE.parent.parent
sys.path[:0] = [str(HERE), str(HERE.parent / "transports"), str(CLONE / "bindings" / "python")]

# pylint: disable=wrong-import-position
from squall import Plan, Rank  # noqa: E402
from squall_bus import open_bus  # noqa: E402
from squall_postgresql import Client, Routes  # noqa: E402

COUNT = """
insert into public.notes values (%s, %s, '', 1)
on conflict (root, second) do update set n = notes.n + 1
returning n, squall.part()
"""


def main() -> None:
    """Counts, and prints where."""
    parser = argparse.ArgumentParser(description=__doc__)
    parser.add_argument("--part", action="append", required=True, metavar="N=ADDRESS")
    parser.add_argument("--first", type=Path, required=True, help="the file of course 1's plan")
    parser.add_argument("--bus", help="an address of squall-bus")
    parser.add_argument("--key", type=Rank.parse, required=True, help="as 2:7")
    parser.add_argument("--turns", type=int, default=0, help="0 for no end")
    parser.add_argument("--pause", type=float, default=1.0, help="seconds between two")
    words = parser.parse_args()
    addresses = {int(it.partition("=")[0]): it.partition("=")[2] for it in words.part}
    bus = None if words.bus is None else open_bus(words.bus)
    client = Client(addresses, Routes(Plan(words.first.read_bytes()), bus))
    turn = 0
    while not words.turns or turn < words.turns:
        turn += 1
        key = words.key
        ((count, part),) = client.execute(key, "write", COUNT, (key.root, key.second))
        print(f"{key} is {count} at partition {part}", flush=True)
        time.sleep(words.pause)


if __name__ == "__main__":
    main()
