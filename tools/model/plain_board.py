"""Boards and changes over all keys, as docs/DEFINITIONS.md says: plain_files.py answers commands by them.

Keys are ranks, a set of keys is a list of spans by rising key, and a plan is a list of ranges (end, partition).
"""
import json
import re
from bisect import bisect_right

from plain_frames import MOST, TOP, delta_frame, digest_of, spelled_cell, spelled_issue

HALF = 1 << 32


class Refused(Exception):
    """What ends a command: its line, and its status."""

    def __init__(self, line, status=1):
        super().__init__(line)
        self.line, self.status = line, status


# ---- keys and sets of keys


def bound(rank):
    return "end" if rank == TOP else f"{rank // HALF}:{rank % HALF}"


def span(lo, hi):
    return f"[{bound(lo)},{bound(hi)})"


def number_of(word):
    return int(word) if re.fullmatch("[0-9]{1,10}", word) and int(word) < HALF else None


def rank_of(word):
    """The rank of a bound."""
    halves = [number_of(it) for it in word.split(":")]
    if word == "end" or (len(halves) == 2 and None not in halves and halves[0] * HALF + halves[1] == TOP):
        return TOP
    if len(halves) != 2 or None in halves or halves[0] == HALF - 1:
        return None
    return halves[0] * HALF + halves[1]


def swept(rule, *sets):
    """The keys for which the rule holds of whether each set has them."""
    steps = {}
    for which, spans in enumerate(sets):
        for lo, hi in spans:
            steps.setdefault(lo, []).append((which, 1))
            steps.setdefault(hi, []).append((which, -1))
    depths, found, begin = [0] * len(sets), [], None
    for at in sorted(steps):
        for which, step in steps[at]:
            depths[which] += step
        within = rule(*(depth > 0 for depth in depths))
        if within and begin is None:
            begin = at
        elif not within and begin is not None:
            found.append((begin, at))
            begin = None
    return found


def union(*sets):
    return swept(lambda *are_in: any(are_in), *sets)


def minus(one, other):
    return swept(lambda is_in, is_out: is_in and not is_out, one, other)


def meet(one, other):
    return swept(lambda is_in, is_too: is_in and is_too, one, other)


def size(spans):
    return sum(hi - lo for lo, hi in spans)


def joined(entries):
    """Entries (low, high, value) by rising key, in the longest runs of one value."""
    found = []
    for lo, hi, value in entries:
        if found and found[-1][1:] == (lo, value):
            lo = found.pop()[0]
        found.append((lo, hi, value))
    return found


# ---- plans and changes


def plan_of(text):
    """The ranges of a plan's text, or the fault that makes it none."""
    try:
        entries = json.loads(text)["plan"]
    except ValueError:
        raise Refused("Json") from None
    rank = lambda it: TOP if it == "end" else it[0] * HALF + it[1]
    told = [(rank(it["from"]), rank(it["to"]), it["part"]) for it in entries]
    faults = [f"BadPart {at}" for at, (_, _, part) in enumerate(told) if part > 9999]
    faults += [f"EmptyRange {at}" for at, (lo, hi, _) in enumerate(told) if lo >= hi]
    cuts = sorted({0, TOP, *(at for lo, hi, _ in told for at in (lo, hi))})
    owners = [[part for lo, hi, part in told if lo <= at < hi] for at in cuts[:-1]]
    faults += [f"Overlap {bound(at)}" for at, found in zip(cuts, owners) if len(found) > 1]
    faults += [f"Gap {bound(at)}" for at, found in zip(cuts, owners) if not found]
    if faults:
        raise Refused(faults[0])
    return [(hi, part) for _, hi, part in joined((lo, hi, part) for lo, hi, (part,) in zip(cuts, cuts[1:], owners))]


class Change:
    """A numbered change from one plan to another: spans (low, high, (source, destination, sub-plan)) of all keys. Those
    that stay have no sub-plan."""

    def __init__(self, number, old, new):
        self.number = number
        cuts = sorted({0, *(end for end, _ in [*old, *new])})
        owners = [(self.owner(old, at), self.owner(new, at)) for at in cuts[:-1]]
        fed = {p: sorted({q for source, q in owners if source == p != q}) for p, _ in owners}
        kinds = [(p, q, fed[p].index(q) if p != q else None) for p, q in owners]
        self.spans = joined(zip(cuts, cuts[1:], kinds))
        self.moves = [it for it in self.spans if it[2][2] is not None]
        self.count = max(map(len, fed.values()))

    @staticmethod
    def owner(plan, at):
        return plan[bisect_right([end for end, _ in plan], at)][1]


class Board:
    """What was reported: loads and completions by (number, sub-plan, partition), openings, and issues, each a pair of
    plans or nothing for a clash."""

    def __init__(self):
        self.loaded, self.done, self.opened, self.issued = {}, set(), {}, {}

    def load(self, cell, spans):
        self.loaded[cell] = union(self.loaded.get(cell, []), spans)

    def open(self, number, count):
        self.opened[number] = max(self.opened.get(number, 0), count)

    def issue(self, number, plans):
        same = number not in self.issued or self.issued[number] == plans
        self.issued[number] = plans if same else None

    def join(self, openings, issues, cells):
        """Takes what a delta lists."""
        for number, count in openings:
            self.open(number, count)
        for number, plans in issues:
            self.issue(number, plans)
        for *cell, is_done, spans in cells:
            if is_done:
                self.done.add(tuple(cell))
            if spans:
                self.load(tuple(cell), spans)

    def cells(self):
        return sorted(self.loaded.keys() | self.done)

    def listed(self):
        """Its openings, issues and cells, by rising numbers."""
        cells = [(*cell, cell in self.done, self.loaded.get(cell, [])) for cell in self.cells()]
        return sorted(self.opened.items()), sorted(self.issued.items(), key=lambda it: it[0]), cells

    def lines(self):
        """What `squall board` shows."""
        shown = [f"opened {number} {count}" for number, count in sorted(self.opened.items())]
        shown += [f"issue {it} {'clash' if self.issued[it] is None else 'one'}" for it in sorted(self.issued)]
        for number, sub, part, is_done, spans in self.listed()[2]:
            told = [f"cell {number} {sub} {part} {'done' if is_done else 'open'}", *(span(*it) for it in spans)]
            shown.append(" ".join(told))
        return shown or ["empty"]

    # ---- boards of it

    def items(self):
        """The lists of its items, in the order of its delta: of each the bytes that it takes, and how many more if no
        other one of its kind, an issue or an item of this cell, is there."""
        openings, issues, cells = self.listed()
        for opening in openings:
            yield ([opening], [], []), 8, 0, None
        for issue in issues:
            yield ([], [issue], []), len(spelled_issue(*issue)), 4, "issue"
        for *cell, is_done, spans in cells:
            if is_done:
                yield ([], [], [(*cell, True, [])]), 0, 17, tuple(cell)
            for it in spans:
                yield ([], [], [(*cell, False, [it])]), 16, 17, tuple(cell)

    def pieces(self):
        """The frames of its pieces, each of as many of the next items as fit the body of a frame."""
        found, length, there = [], MOST, set()
        for lists, own, head, kind in self.items():
            if length + own + (0 if kind in there else head) > MOST:
                found.append([])
                length, there = 8, set()
            found[-1].append(lists)
            length += own + (0 if kind in there else head)
            there.add(kind)
        return [delta_frame(*assembled(piece)) for piece in found]

    def beyond(self, other):
        """What it tells and the other does not."""
        rest = Board()
        rest.opened = {it: count for it, count in self.opened.items() if count > other.opened.get(it, 0)}
        for number, plans in self.issued.items():
            if number not in other.issued or other.issued[number] not in (plans, None):
                rest.issued[number] = plans
        rest.done = self.done - other.done
        lacks = {cell: minus(spans, other.loaded.get(cell, [])) for cell, spans in self.loaded.items()}
        rest.loaded = {cell: spans for cell, spans in lacks.items() if spans}
        return rest

    def repair(self, digest):
        """What a digest does not show."""
        counts, issues = dict(digest.openings), dict(digest.issues)
        hashes = {(number, sub): text for number, sub, text in digest.rows}
        rest, rows = Board(), {}
        rest.opened = {it: count for it, count in self.opened.items() if count > counts.get(it, 0)}
        for number, plans in self.issued.items():
            if issues.get(number) != digest_of(spelled_issue(number, plans)):
                rest.issued[number] = plans
        for cell in self.listed()[2]:
            rows.setdefault(cell[:2], []).append(cell)
        for row, cells in rows.items():
            if hashes.get(row) != digest_of(b"".join(spelled_cell(*cell) for cell in cells)):
                rest.join([], [], cells)
        return rest

    # ---- where keys are

    def newest(self, first):
        """The change of the greatest number above 1 that has one pair of plans, or else the first."""
        known = [number for number, plans in self.issued.items() if number > 1 and plans is not None]
        return Change(max(known), *self.issued[max(known)]) if known else first

    def come(self, change, lo, hi, kind):
        """The keys of a move that have come."""
        cell = change.number, kind[2], kind[1]
        return [(lo, hi)] if cell in self.done else meet([(lo, hi)], self.loaded.get(cell, []))

    def legs(self, change):
        """The longest runs of keys of which one partition is to be asked."""
        found = []
        for lo, hi, (p, q, sub) in change.spans:
            there = [(lo, hi)] if sub is None else self.come(change, lo, hi, (p, q, sub))
            found += [(*it, q) for it in there] + [(*it, p) for it in minus([(lo, hi)], there)]
        return joined(sorted(found))

    def status(self, change, only_waiting):
        """The lines of `squall status`."""
        counts = [size(self.come(change, *move)) for move in change.moves]
        came, total = sum(counts), size((lo, hi) for lo, hi, _ in change.moves)
        last = min(self.opened.get(change.number, 0), change.count) - 1
        shares = [count * 1000 // (hi - lo) for (lo, hi, _), count in zip(change.moves, counts)]
        receivers = [{(change.number, sub, kind[1]) for _, _, kind in change.moves if kind[2] == sub}
                     for sub in range(change.count)]
        yield (f"course {change.number} moves {shares.count(1000)} of {len(shares)} "
               f"sub-plans {sum(due <= self.done for due in receivers)} of {change.count} open "
               f"{last if last >= 0 else 'none'} loaded {came} of {total} keys "
               f"share {sum(shares) // len(shares) if shares else 1000}/1000")
        for sub, due in enumerate(receivers):
            yield f"sub-plan {sub} receivers {len(due & self.done)} of {len(due)} done"
        for (lo, hi, kind), count in zip(change.moves, counts):
            missing = minus([(lo, hi)], self.come(change, lo, hi, kind))
            how = f"loaded {count} of {hi - lo} missing {span(*missing[0])}" if missing and count else "not started"
            if missing or not only_waiting:
                yield f"move {span(lo, hi)} {kind[0]} to {kind[1]} sub {kind[2]} {how if missing else 'complete'}"


def assembled(items):
    """The lists of a board of these items, of which those of a cell follow each other."""
    openings, issues, cells = [], [], []
    for its_openings, its_issues, its_cells in items:
        openings += its_openings
        issues += its_issues
        for *cell, is_done, spans in its_cells:
            if cells and cells[-1][:3] == tuple(cell):
                cells[-1][4].extend(spans)
            else:
                cells.append((*cell, is_done, [*spans]))
    return openings, issues, cells
