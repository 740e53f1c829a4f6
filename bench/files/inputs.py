"""Draws the files that the commands read: two plans, and two boards of which each tells some of the other's."""
import json
import random
import sys
from pathlib import Path

sys.dont_write_bytecode = True
sys.path.append(str(Path(__file__).resolve().parents[2] / "tools" / "model"))
from plain_board import Board, Change, union
from plain_frames import TOP

PARTS = 64
SUBS = 63


def plan_of(draw, ranges):
    """A plan of so many ranges, neighbours of which have different partitions."""
    ends, found = [*sorted(draw.sample(range(1, 1 << 44), ranges - 1)), TOP], []
    for end in ends:
        found.append((end, draw.choice([it for it in range(PARTS) if not found or it != found[-1][1]])))
    return found


def text_of(plan):
    """The text of a plan."""
    starts, pair = [0, *(end for end, _ in plan)], lambda rank: "end" if rank == TOP else divmod(rank, 1 << 32)
    return json.dumps({"plan": [{"part": it, "from": pair(lo), "to": pair(hi)} for lo, (hi, it) in zip(starts, plan)]})


def board_of(draw, change, cells):
    """A board of so many cells of one to four spans each. Those of the first number have parts of the moves."""
    board, at = Board(), 0
    for lo, hi, (_, part, sub) in change.moves:
        board.load((1, sub, part), [(lo, lo + max(1, (hi - lo) // draw.randint(1, 4)))])
    for it in draw.sample(sorted(board.loaded), len(board.loaded) // 8):
        board.done.add(it)
    board.opened = {number: draw.randint(1, SUBS) for number in range(1, 9)}
    while len(board.loaded) < cells:
        at += 1
        cell = 2 + at // (SUBS * PARTS), at // PARTS % SUBS, at % PARTS
        bounds = sorted(draw.sample(range(1 << 40), 2 * draw.randint(1, 4)))
        board.loaded[cell] = union(zip(bounds[::2], bounds[1::2]))
    return board


def other_of(draw, board):
    """A board that lacks a third of the cells, and has another third with other spans."""
    other = Board()
    other.opened = dict(list(board.opened.items())[::2])
    other.done = {it for it in board.done if draw.randrange(2)}
    for cell, spans in board.loaded.items():
        kind = draw.randrange(3)
        if kind:
            other.loaded[cell] = spans if kind == 1 else [(lo, min(hi + (hi - lo) // 2, TOP)) for lo, hi in spans[:1]]
    return other


def write(folder, cells, ranges):
    """Writes old.json, new.json, a.bin and b.bin."""
    draw = random.Random(f"{cells} {ranges}")
    old, new = plan_of(draw, ranges), plan_of(draw, ranges)
    one = board_of(draw, Change(1, old, new), cells)
    (folder / "old.json").write_text(text_of(old), encoding="ascii")
    (folder / "new.json").write_text(text_of(new), encoding="ascii")
    (folder / "a.bin").write_bytes(b"".join(one.pieces()))
    (folder / "b.bin").write_bytes(b"".join(other_of(draw, one).pieces()))
