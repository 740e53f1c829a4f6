"""The plans of examples/: [2:0,3:0) moves from 1 to 3 and [6:0,9:0) from 3 to 4, in sub-plan 0."""

from typing import Any

from squall import Rank, Router

OLD = (
    '{"plan":[{"part":1,"from":[0,0],"to":[3,0]},{"part":2,"from":[3,0],"to":[5,0]},'
    '{"part":3,"from":[5,0],"to":[9,0]},{"part":4,"from":[9,0],"to":"end"}]}'
)
NEW = (
    '{"plan":[{"part":1,"from":[0,0],"to":[2,0]},{"part":2,"from":[3,0],"to":[5,0]},'
    '{"part":3,"from":[2,0],"to":[3,0]},{"part":3,"from":[5,0],"to":[6,0]},'
    '{"part":4,"from":[6,0],"to":"end"}]}'
)
#: All keys at partition 5.
FIVE = '{"plan":[{"part":5,"from":[0,0],"to":"end"}]}'

#: Partition 3 has loaded [2:0,3:0) in sub-plan 0 of course 1.
LOAD_FRAME = bytes.fromhex(
    "5351010100000029000000000000000100000001000000000000000300000000"
    "0100000002000000000000000300000000"
)
#: Sub-plan 0 of course 1 was opened.
OPENING_FRAME = bytes.fromhex("535101010000001000000001000000010000000100000000")
EMPTY_DELTA = bytes.fromhex("53510101000000080000000000000000")
EMPTY_DIGEST = bytes.fromhex("53510102000000080000000000000000")


def key(root: int) -> Rank:
    """The first key of a root."""
    return Rank(root, 0)


def fresh() -> Router:
    """A router to which nothing was reported."""
    return Router(1, OLD, NEW)


def moved() -> Router:
    """A router that knows that partition 3 has loaded [2:0,3:0)."""
    router = fresh()
    router.loaded(1, 0, 3, key(2), key(3))
    return router


def repair(knows: Any, lacks: Any) -> None:
    """Lets one partition or leader send another what that lacks."""
    knows.hear(lacks.digest())
    for sent in knows.repair():
        lacks.hear(sent)


def wide_plan(ranges: int, shift: int) -> bytes:
    """A plan of so many ranges of a root each, at 50 partitions in turn."""
    entries = []
    for at in range(ranges):
        end = f"[{at + 1},0]" if at + 1 < ranges else '"end"'
        entries.append(f'{{"part":{(at + shift) % 50},"from":[{at},0],"to":{end}}}')
    return f'{{"plan":[{",".join(entries)}]}}'.encode()
