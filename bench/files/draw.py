"""Draws the files of bench/files/memory into this folder: those of inputs.py, and small.bin, a frame for each load.

    python3 bench/files/draw.py CELLS
"""
import sys
from pathlib import Path

sys.dont_write_bytecode = True
import inputs
from plain_frames import framed, spelled_cell

RANGES = 4096
PARTS = 10_000


def load(at):
    """The frame of a load whose span touches no other one: ten spans make a cell."""
    cell, lo = at // 10, 4 * (at % 10)
    return framed(1, [], [], [spelled_cell(1 + cell // PARTS, 0, cell % PARTS, 0, [(lo, lo + 2)])])


def main():
    cells = int(sys.argv[1])
    inputs.write(Path(), cells, RANGES)
    with open("small.bin", "wb") as file:
        for at in range(cells):
            file.write(load(at))


if __name__ == "__main__":
    main()
