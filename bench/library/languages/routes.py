"""Routes from Python: one a call, and 1,000 a call. The words are how many legs there are and the file of a frame.

Prints `NAME: VALUE UNIT` a line.
"""

from __future__ import annotations

import sys
import timeit
from array import array

from squall import END, Plan, Router

REACH = 1 << 62
KEYS = 1000
ROUNDS = 100


def keys() -> array[int]:
    """Keys drawn by chance, as in the other languages."""
    state, drawn = 1, array("Q")
    for _ in range(KEYS):
        drawn.append(state & (REACH - 1))
        state = (state * 6364136223846793005 + 1442695040888963407) & ((1 << 64) - 1)
    return drawn


def main() -> None:
    """Measures both, and prints the least of all rounds."""
    legs, file = sys.argv[1:]
    with open(file, "rb") as it:
        frame = it.read()
    router = Router(1, Plan.of([(0, END, 1)]), Plan.of([(0, END, 2)]))
    router.hear(frame)
    view = router.view()
    batch, parts = keys(), array("I", [0] * KEYS)
    listed = list(batch)

    def alone() -> None:
        for key in listed:
            view.route(key)

    one = min(timeit.repeat(alone, number=1, repeat=ROUNDS)) / KEYS
    many = min(timeit.repeat(lambda: view.routes_into(batch, parts), number=1, repeat=ROUNDS)) / KEYS
    if list(parts) != [view.route(key) for key in listed]:
        sys.exit("a batch answers otherwise than one call after another")
    print(f"route, {legs} legs: {one * 1e9:.0f} ns")
    print(f"1,000 routes a call, {legs} legs, each: {many * 1e9:.1f} ns")


if __name__ == "__main__":
    main()
