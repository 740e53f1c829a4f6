"""Frames as docs/FORMATS.md says: their bytes, and what bytes say or why they are no frame.

A message is what its frame lists, in ranks: no list of it is turned into a set here.
"""
import hashlib
import struct
from dataclasses import dataclass, field

TOP = 0xFFFFFFFF00000000
MOST = 1048576
ONE, CLASH = 1, 2


@dataclass
class Message:
    """What a frame lists: openings (number, count), issues (number, old and new plan or nothing for a clash), and cells
    (number, sub-plan, partition, done, spans). Issues of a digest are (number, hash), and its rows (number, sub-plan,
    hash). A plan is a list of ranges (end, partition)."""

    kind: str
    openings: list = field(default_factory=list)
    issues: list = field(default_factory=list)
    cells: list = field(default_factory=list)
    rows: list = field(default_factory=list)


# ---- bytes


def digest_of(text):
    return hashlib.sha256(text).digest()


def counted(items):
    return struct.pack(">I", len(items)) + b"".join(items)


def spelled_plan(ranges):
    return counted([struct.pack(">QI", end, part) for end, part in ranges])


def spelled_issue(number, plans):
    """An issue of a pair of plans, or of a clash if there is none."""
    if plans is None:
        return struct.pack(">IB", number, CLASH)
    return struct.pack(">IB", number, ONE) + b"".join(map(spelled_plan, plans))


def spelled_cell(number, sub, part, done, spans):
    head = struct.pack(">IIIBI", number, sub, part, done, len(spans))
    return head + b"".join(struct.pack(">QQ", lo, hi) for lo, hi in spans)


def framed(kind, openings, issues, rest):
    """The frame of a kind, whose openings are pairs of numbers, and whose issues and rest are spelled."""
    body = counted([struct.pack(">II", *it) for it in openings]) + (counted(issues) if issues else b"") + counted(rest)
    return b"SQ" + struct.pack(">BBI", 2 if issues else 1, kind, len(body)) + body


def delta_frame(openings, issues, cells):
    return framed(1, openings, [spelled_issue(*it) for it in issues], [spelled_cell(*it) for it in cells])


def digest_frame(openings, issues, cells):
    """The frame of the digest of a board of these lists."""
    hashes = [struct.pack(">I", number) + digest_of(spelled_issue(number, plans)) for number, plans in issues]
    rows = {}
    for cell in cells:
        rows[cell[:2]] = rows.get(cell[:2], b"") + spelled_cell(*cell)
    return framed(2, openings, hashes, [struct.pack(">II", *row) + digest_of(text) for row, text in rows.items()])


# ---- what bytes say


class Fault(Exception):
    """Why bytes are no frame."""


class Reader:
    """Reads a body item by item: of each first whether it is there, then its limits, then its order."""

    def __init__(self, body):
        self.body, self.at = body, 0

    def item(self, form):
        size = struct.calcsize(form)
        if len(self.body) - self.at < size:
            raise Fault("Count")
        self.at += size
        return struct.unpack_from(form, self.body, self.at - size)

    def check(self, within, after):
        if not within:
            raise Fault("Range")
        if not after:
            raise Fault("Order")

    def count(self, least=0):
        count, = self.item(">I")
        self.check(count >= least, True)
        return count

    def rising(self, form, within, least=0):
        """A counted list of items, each of which is within its limits and above the one before by its key."""
        last, found = None, []
        for _ in range(self.count(least)):
            fields = self.item(form)
            is_within, key = within(*fields)
            self.check(is_within, last is None or last < key)
            last = key
            found.append(fields)
        return found

    def plan(self):
        ranges, at, last = [], 0, None
        count, = self.item(">I")
        self.check(1 <= count <= 4096, True)
        for left in range(count, 0, -1):
            end, part = self.item(">QI")
            self.check(end <= TOP and part <= 9999 and (left > 1 or end == TOP), at < end and part != last)
            ranges.append((end, part))
            at, last = end, part
        return ranges

    def issues(self):
        last, found = 0, []
        for _ in range(self.count(1)):
            number, mark = self.item(">IB")
            self.check(number >= 1 and mark in (ONE, CLASH), last < number)
            last = number
            found.append((number, (self.plan(), self.plan()) if mark == ONE else None))
        return found

    def cells(self):
        last, found = None, []
        for _ in range(self.count()):
            number, sub, part, done, count = self.item(">IIIBI")
            within = number >= 1 and sub <= 9999 and part <= 9999 and done <= 1 and (done or count)
            self.check(within, last is None or last < (number, sub, part))
            last, spans = (number, sub, part), []
            for _ in range(count):
                lo, hi = self.item(">QQ")
                self.check(lo <= TOP and hi <= TOP, (spans[-1][1] if spans else -1) < lo < hi)
                spans.append((lo, hi))
            found.append((*last, done, spans))
        return found

    def message(self, version, kind):
        said = Message("delta" if kind == 1 else "digest")
        said.openings = self.rising(">II", lambda number, count: (number >= 1 and 1 <= count <= 10000, number))
        if kind == 1:
            said.issues = self.issues() if version == 2 else []
            said.cells = self.cells()
        else:
            said.issues = self.rising(">I32s", lambda number, _: (number >= 1, number), 1) if version == 2 else []
            said.rows = self.rising(">II32s", lambda number, sub, _: (number >= 1 and sub <= 9999, (number, sub)))
        if self.at < len(self.body):
            raise Fault("Spare")
        return said


def decoded(data):
    """The message whose frame the bytes begin with, and the length of the frame."""
    for at, wanted, fault in ((0, b"S", "Magic"), (1, b"Q", "Magic"), (2, b"\1\2", "Version"), (3, b"\1\2", "Kind")):
        if len(data) <= at:
            raise Fault("Short")
        if data[at] not in wanted:
            raise Fault(fault)
    if len(data) < 8:
        raise Fault("Short")
    length, = struct.unpack_from(">I", data, 4)
    if length > MOST:
        raise Fault("TooLong")
    if len(data) < 8 + length:
        raise Fault("Short")
    return Reader(data[8:8 + length]).message(data[2], data[3]), 8 + length
