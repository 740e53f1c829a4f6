"""The inputs of bench/programs: scenarios and plans that are drawn from a seed, so that they are the same in each run.

    python3 bench/programs/inputs.py WORKLOAD SIZE    writes the input
"""
import random
import struct
import sys
from itertools import pairwise

TOP = 0xFFFFFFFF00000000
RANGES = 4096
PARTS = 64
WORLD_PARTS = 7
WORLD_RANGES = 64
ROUTERS = 4
ALL = 18446744073709551615

# The sizes of each workload.
WORKLOADS = {
    "loads": (1000, 10000, 100000, 500000),
    "keys": (1000, 10000, 30000, 100000),
    "routes": (10000, 100000, 1000000),
    "frames": (2000, 5000, 20000),
    "world": (10000, 100000, 300000),
    "check": (RANGES,),
    "course": (RANGES,),
}


def bound(rank):
    return "end" if rank == TOP else f"{rank >> 32}:{rank & 0xFFFFFFFF}"


def pair(rank):
    return f"[{rank >> 32},{rank & 0xFFFFFFFF}]"


def drawn_plan(draw, ranges, parts, top=TOP):
    """A plan of so many ranges: where each begins and ends, and its partition, which differs from that before it."""
    cuts = set()
    while len(cuts) < ranges - 1:
        cuts.add(draw.randrange(1, top))
    plan, part = [], 0
    for lo, hi in pairwise([0, *sorted(cuts), TOP]):
        part = draw.choice([it for it in range(1, parts + 1) if it != part])
        plan.append((lo, hi, part))
    return plan


def text(plan):
    """The text of a plan, on one line."""
    entries = (f'{{"part":{part},"from":{pair(lo)},"to":{pair(hi)}}}' for lo, hi, part in plan)
    return f'{{"plan":[{",".join(entries)}]}}'


def moves(old, new):
    """What moves between two plans: from where to where, the source, the destination and the sub-plan."""
    found, at, begin = [], 0, 0
    for lo, hi, source in old:
        while lo < hi:
            _, end, dest = new[at]
            stop = min(hi, end)
            if source != dest:
                found.append((lo, stop, source, dest))
            lo = stop
            at += stop == end
    links = sorted({it[2:] for it in found})
    subs = {}
    for at, link in enumerate(links):
        begin = at if at == 0 or link[0] != links[at - 1][0] else begin
        subs[link] = at - begin
    return [(*it, subs[it[2:]]) for it in found]


def piece(draw, lo, hi, least=1000):
    """A piece of a span, at most a part of it of this many."""
    length = 1 + draw.randrange(max(1, (hi - lo) // least))
    lo = draw.randrange(lo, hi - length + 1)
    return lo, lo + length


def loaded(draw, all_moves):
    """A report of some keys of some move."""
    lo, hi, _, dest, sub = draw.choice(all_moves)
    lo, hi = piece(draw, lo, hi)
    return f"loaded 1 {sub} {dest} {bound(lo)} {bound(hi)}\n"


def begun(draw, ranges=RANGES, parts=PARTS, top=TOP):
    """The first lines of a scenario, and what moves between its plans."""
    old, new = (drawn_plan(draw, ranges, parts, top) for _ in range(2))
    return f"old {text(old)}\nnew {text(new)}\n", moves(old, new)


def last_legs(draw):
    """Asks for the legs of a hundredth of all keys, so that the answers show what was taken."""
    lo = draw.randrange(TOP - TOP // 100)
    return f"legs {bound(lo)} {bound(lo + TOP // 100)}\n"


def loads(draw, size):
    """Reports of pieces of the moves between two plans of 4,096 ranges."""
    head, all_moves = begun(draw)
    yield head
    for _ in range(size):
        yield loaded(draw, all_moves)
    yield last_legs(draw)


def keys(draw, size):
    """Reports of one key each, at random places of one move."""
    whole = [[(0, TOP, part)] for part in (1, 2)]
    yield f"old {text(whole[0])}\nnew {text(whole[1])}\n"
    for _ in range(size):
        key = draw.randrange(TOP)
        yield f"loaded 1 0 2 {bound(key)} {bound(key + 1)}\n"
    yield last_legs(draw)


def routes(draw, size):
    """Routes of random keys, and a load before every tenth."""
    head, all_moves = begun(draw)
    yield head
    for at in range(size):
        if at % 10 == 0:
            yield loaded(draw, all_moves)
        yield f"route {bound(draw.randrange(TOP))}\n"


def frame(draw, cells):
    """The frame of a delta that tells of these cells, each with its mark and its spans."""
    body = struct.pack(">II", 0, len(cells))
    for (sub, part), (done, spans) in sorted(cells.items()):
        body += struct.pack(">IIIBI", 1, sub, part, done, len(spans))
        body += b"".join(struct.pack(">QQ", lo, hi) for lo, hi in spans)
    return b"SQ\1\1" + struct.pack(">I", len(body)) + body


def drawn_frame(draw, by_cell, least=1000, done=False):
    """A frame of one to eight cells of one to eight spans."""
    cells = {}
    for cell in draw.sample(sorted(by_cell), min(len(by_cell), draw.randint(1, 8))):
        spans = []
        for lo, hi in sorted(draw.sample(by_cell[cell], min(len(by_cell[cell]), draw.randint(1, 8)))):
            lo, hi = piece(draw, lo, hi, least)
            if not spans or spans[-1][1] < lo:
                spans.append((lo, hi))
        cells[cell] = (done and draw.randrange(8) == 0, spans)
    return frame(draw, cells)


def cells_of(all_moves):
    """The moves to each partition in each sub-plan."""
    found = {}
    for lo, hi, _, dest, sub in all_moves:
        found.setdefault((sub, dest), []).append((lo, hi))
    return found


def frames(draw, size):
    """Frames of small boards, each on a line."""
    head, all_moves = begun(draw)
    yield head
    by_cell = cells_of(all_moves)
    for _ in range(size):
        yield f"hear {drawn_frame(draw, by_cell).hex()}\n"
    yield last_legs(draw)


class Events:
    """The events of a world whose courses are worked off one after another."""

    def __init__(self, draw, ranges=WORLD_RANGES, parts=WORLD_PARTS, top=TOP, asked=0.58):
        self.draw, self.ranges, self.parts, self.top, self.asked = draw, ranges, parts, top, asked
        self.lines, self.messages, self.chunks, self.course = [], 0, 0, 1
        self.plan = drawn_plan(draw, ranges, parts, top)

    def next_plan(self):
        old, self.plan = self.plan, drawn_plan(self.draw, self.ranges, self.parts, self.top)
        return text(old), text(self.plan), moves(old, self.plan)

    def do(self, line):
        """The event, and those that happen beside it."""
        self.lines.append(line + "\n")
        while self.draw.random() < self.asked:
            self.ask()

    def ask(self):
        """A question, or a message that comes late."""
        draw, kind = self.draw, self.draw.randrange(11)
        key = bound(draw.randrange(min(self.top, TOP)))
        if kind < 5:
            self.lines.append(f"route {draw.randrange(ROUTERS)} {key}\n")
        elif kind < 9 or self.messages == 0:
            after = draw.choice(["", f" {draw.randint(max(0, self.course - 3), self.course)}"])
            self.lines.append(f"serve {draw.randint(1, self.parts)} {key}{after}\n")
        else:
            self.lines.append(f"deliver {draw.randrange(self.messages)} {self.node()}\n")

    def node(self):
        draw = self.draw
        return draw.choice(["l", f"r{draw.randrange(ROUTERS)}", f"p{draw.randint(1, self.parts)}"])

    def tell(self, sender, receivers):
        self.do(f"send {sender}")
        message, self.messages = self.messages, self.messages + 1
        for node in self.draw.sample(receivers, len(receivers)):
            self.do(f"deliver {message} {node}")

    def give(self, source, left):
        """The source gives some of the first keys that are left: how many chunks there are afterwards."""
        lo, hi, dest = left[0]
        most = self.draw.choice([ALL, ALL, ALL, max(1, (hi - lo) // 2)])
        self.do(f"give {source} {most}")
        left[0] = (min(hi, lo + most), hi, dest)
        if left[0][0] == hi:
            left.pop(0)
        self.chunks += 1

    def work_off(self, sub, all_moves):
        """A sub-plan, from its opening to the last report."""
        draw, parts = self.draw, [f"p{it}" for it in range(1, self.parts + 1)]
        routers = [f"r{it}" for it in range(ROUTERS)]
        self.do("open")
        self.tell("l", [*parts, draw.choice(routers)])
        left = {}
        for lo, hi, source, dest, of in all_moves:
            if of == sub:
                left.setdefault(source, []).append((lo, hi, dest))
        receivers = sorted({dest for told in left.values() for _, _, dest in told})
        waiting = []
        while left or waiting:
            if left and draw.randrange(2):
                source = draw.choice(sorted(left))
                waiting.append(self.chunks)
                self.give(source, left[source])
                if not left[source]:
                    del left[source]
            elif waiting:
                self.do(f"load {waiting.pop(draw.randrange(len(waiting)))}")
            # A chunk comes again, or before its turn.
            if self.chunks and draw.randrange(16) == 0:
                self.do(f"load {draw.randrange(self.chunks)}")
        for part in draw.sample(receivers, len(receivers)):
            self.do(f"finish {part} {sub}")
            self.tell(f"p{part}", ["l", *draw.sample(routers, draw.randrange(3))])

    def run(self, size):
        first, second, all_moves = self.next_plan()
        yield f"old {first}\nnew {second}\nworld {ROUTERS}\n"
        while size > 0:
            for sub in range(1 + max((it[4] for it in all_moves), default=-1)):
                self.work_off(sub, all_moves)
            _, plan, all_moves = self.next_plan()
            self.course += 1
            self.do(f"begin {plan}")
            yield from self.lines[:size]
            size -= len(self.lines)
            self.lines = []


def world(draw, size):
    """Events of a world with four routers and seven partitions, whose plans have 64 ranges."""
    return Events(draw).run(size)


def check(draw, size):
    """The text of a plan."""
    yield text(drawn_plan(draw, size, PARTS))


course = check


def reports(draw):
    """A small scenario, in which pieces meet and are reported where they belong and where not."""
    top = draw.choice([40, 1000, TOP])
    ranges = draw.randint(1, 12)
    head, all_moves = begun(draw, ranges, draw.randint(2, 5), top)
    yield head
    by_cell = cells_of(all_moves)
    rank = lambda: draw.choice([draw.randrange(top), draw.choice(all_moves)[0] if all_moves else 0])
    waiting = ""
    for _ in range(draw.randrange(200)):
        kind = draw.randrange(20)
        number, sub, part = draw.choice([1, 1, 1, 2, 3]), draw.randrange(3), draw.randint(1, 5)
        lo, hi = sorted([rank(), draw.choice([rank() + 1, TOP])])
        if by_cell and draw.randrange(4):
            sub, part = draw.choice(sorted(by_cell))
        if kind < 7 and lo < hi:
            yield f"loaded {number} {sub} {part} {bound(lo)} {bound(hi)}\n"
        elif kind == 7:
            yield draw.choice([f"done {number} {sub} {part}\n", f"opened {number} {sub}\n"])
        elif kind == 8 and draw.randrange(4) == 0:
            yield f"issued {number} {text(drawn_plan(draw, ranges, 5, top))}\n"
        elif kind < 12 and by_cell:
            waiting += drawn_frame(draw, by_cell, draw.choice([1, 3, 1000]), True).hex()
            cut = draw.choice([len(waiting), 2 * draw.randint(1, len(waiting) // 2)])
            yield f"hear {waiting[:cut]}\n"
            waiting = waiting[cut:]
        elif kind < 14 and lo < hi:
            yield f"legs {bound(lo)} {bound(hi)}\n"
        else:
            yield f"route {bound(rank())}\n"
    yield "legs 0:0 end\nboard\n"


def events(draw):
    """A small world, now and then with two events in the wrong order."""
    top = draw.choice([100, TOP])
    told = "".join(Events(draw, draw.randint(1, 6), draw.randint(2, 5), top, draw.random() / 2).run(400))
    lines = told.splitlines(True)
    for _ in range(draw.randrange(20)):
        at = draw.randrange(3, len(lines) - 1)
        if draw.randrange(3):
            lines[at], lines[at + 1] = lines[at + 1], lines[at]
        else:
            del lines[at]
    return lines


def small(seed):
    """A small random scenario."""
    draw = random.Random(f"small {seed}")
    return draw.choice([reports, events])(draw)


def lines_of(workload, size, copy=0):
    """The input of a workload, piece by piece; the second plan of a course is its copy 1."""
    draw = random.Random(f"{workload} {size} {copy}")
    return globals()[workload](draw, size)


if __name__ == "__main__":
    if len(sys.argv) != 3 or sys.argv[1] not in WORKLOADS:
        sys.exit(__doc__)
    sys.stdout.writelines(lines_of(sys.argv[1], int(sys.argv[2])))
