"""How many rounds of digests many routers need until all know the same, if frames are lost.

    python3 -m squall_bus.rounds [ROUTERS]

All routers are in this process, and frames are carried in memory. It prints a table. In a round
each router shows its digest to another one by chance, and hears what that one answers.
"""

from __future__ import annotations

import random
import statistics
import sys
import time
from contextlib import ExitStack
from typing import List, NamedTuple, Sequence

from squall import END, Course, Plan, Rank, Router

from .pieces import ANY, joined
from .publish import work_off

_PARTS, _RANGES = 8, 64
#: Each row of the table is the median of so many runs.
_RUNS = 5


class Wire:
    """Carries frames, and loses a share of them."""

    def __init__(self, lost: float, dice: random.Random) -> None:
        self._lost, self._dice = lost, dice
        #: How many frames were sent, how many of them were lost, and the bytes of all.
        self.sent = self.missed = self.bytes = 0

    def carry(self, frame: bytes, router: Router) -> bool:
        """Whether the router has heard it."""
        self.sent += 1
        self.bytes += len(frame)
        if self._dice.random() < self._lost:
            self.missed += 1
            return False
        router.hear(frame)
        return True


class Spread(NamedTuple):
    """How it went until all routers knew the same."""

    #: Rounds, and how many routers lacked something after each of them, and before the first.
    rounds: int
    lacking: List[int]
    #: What reports, digests and repairs took.
    reports: Wire
    digests: Wire
    repairs: Wire
    seconds: float


def spread(count: int, reports: Sequence[bytes], lost: float, dice: random.Random) -> Spread:
    """Sends each report to so many routers, and then goes round after round."""
    began = time.monotonic()
    told, digests, repairs = (Wire(lost, dice) for _ in range(3))
    with ExitStack() as stack:
        routers = [stack.enter_context(Router(1, ANY, ANY)) for _ in range(count)]
        for frame in reports:
            for router in routers:
                told.carry(frame, router)
        # Whoever reports knows it all.
        for frame in reports:
            routers[0].hear(frame)
        goal = routers[0].digest()
        lacking = [_lacking(routers, goal)]
        while lacking[-1]:
            _go_round(routers, digests, repairs, dice)
            lacking.append(_lacking(routers, goal))
        boards = {b"".join(it.board()) for it in routers}
    if boards != {b"".join(joined(reports))}:
        raise AssertionError("the boards differ")
    return Spread(len(lacking) - 1, lacking, told, digests, repairs, time.monotonic() - began)


def _lacking(routers: Sequence[Router], goal: bytes) -> int:
    return sum(it.digest() != goal for it in routers)


def _go_round(routers: Sequence[Router], digests: Wire, repairs: Wire, dice: random.Random) -> None:
    """Each router asks one other, one after the other."""
    for at in dice.sample(range(len(routers)), len(routers)):
        other = dice.randrange(len(routers) - 1)
        peer = routers[other + (other >= at)]
        if digests.carry(routers[at].digest(), peer):
            for frame in peer.repair():
                repairs.carry(frame, routers[at])


def course() -> Course:
    """A course of which all keys move, among 8 partitions."""
    bounds = [*(Rank(at, 0) for at in range(_RANGES)), END]
    spans = list(zip(bounds, bounds[1:]))
    old = Plan.of([(lo, hi, at % _PARTS) for at, (lo, hi) in enumerate(spans)])
    new = Plan.of([(lo, hi, (at + 1 + at // 16) % _PARTS) for at, (lo, hi) in enumerate(spans)])
    return Course(2, old, new)


def _row(count: int, chunks: int, lost: float) -> str:
    """A row of the table."""
    with course() as it:
        reports = list(work_off(it, chunks))
    runs = [spread(count, reports, lost, random.Random(seed)) for seed in range(_RUNS)]
    rounds = [it.rounds for it in runs]

    def each(name: str) -> str:
        middle = statistics.median(getattr(it, name).bytes for it in runs)
        return f"{middle / count:,.0f}"

    return (
        f"| {len(reports):,} | {lost:.0%} | {runs[0].lacking[0]} | {min(rounds)} to {max(rounds)} "
        f"| {each('reports')} | {each('digests')} | {each('repairs')} "
        f"| {statistics.median(it.seconds for it in runs):.2f} |"
    )


def main() -> int:
    """Prints the table."""
    count = int(sys.argv[1]) if len(sys.argv) > 1 else 100
    heads = ["reports", "lost", "lack some", "rounds", "reports, bytes a router"]
    heads += ["digests, bytes a router", "repairs, bytes a router", "seconds"]
    print(f"| {' | '.join(heads)} |\n|{'---|' * len(heads)}")
    for chunks in (1, 10, 100):
        for lost in (0.0, 1 / 3, 2 / 3):
            print(_row(count, chunks, lost), flush=True)
    return 0


if __name__ == "__main__":
    sys.exit(main())
