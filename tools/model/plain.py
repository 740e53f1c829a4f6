"""A plain, slow program of squall's definitions, which tools/model runs beside the built one.

It shares no code with the crates, and answers as docs/ says: keys are places in a list, sets are Python's, and what a
node knows is asked key by key. Each of the keys 0:0, 0:1 .. has a place, and all keys above share the last one.
plain_frames.py has the bytes of frames, plain_world.py the worlds, plain_files.py the commands over files.
"""
from plain_frames import TOP, Fault, decoded, delta_frame, digest_frame

PLACES = 41


def rank(place):
    """The rank of the bound before the place, the top behind the last one."""
    return TOP if place == PLACES else place


def bound(place):
    return "end" if place == PLACES else f"0:{place}"


def place_of(key):
    """The place of a key: the last one of all keys that have none of their own."""
    root, second = map(int, key.split(":"))
    return min(second, PLACES - 1) if root == 0 else PLACES - 1


def span(lo, hi):
    return f"[{bound(lo)},{bound(hi)})"


def runs(values):
    """The longest runs of equal values: where each begins and ends, and the value."""
    values, found, begin = list(values), [], 0
    for at in range(1, len(values) + 1):
        if at == len(values) or values[at] != values[begin]:
            found.append((begin, at, values[begin]))
            begin = at
    return found


def spans_of(places):
    """A set of places as spans that don't touch."""
    found = []
    for it in sorted(places):
        lo = found.pop()[0] if found and found[-1][1] == it else it
        found.append((lo, it + 1))
    return found


class Course:
    """A numbered change from one plan to another; a plan is the owner of each place."""

    def __init__(self, number, old, new):
        self.number, self.old, self.new = number, old, new
        fed = {source: sorted({q for p, q in zip(old, new) if p == source != q}) for source in set(old)}
        self.sub = [fed[p].index(q) if p != q else None for p, q in zip(old, new)]
        self.count = max(map(len, fed.values()))

    def moves(self, place):
        return self.old[place] != self.new[place]

    def incoming(self, sub, part):
        return {it for it, of in enumerate(self.sub) if of == sub and self.new[it] == part}

    def outgoing(self, sub, part):
        return {it for it, of in enumerate(self.sub) if of == sub and self.old[it] == part}

    def lines(self):
        """What `squall course` writes."""
        kinds = [(p, q, sub) for p, q, sub in zip(self.old, self.new, self.sub)]
        moves = [(lo, hi, kind) for lo, hi, kind in runs(kinds) if kind[2] is not None]
        shown = [f"move {span(lo, hi)} {p} to {q} sub {sub}" for lo, hi, (p, q, sub) in moves]
        return [f"moves {len(moves)}", f"sub-plans {self.count}", *shown]


class Facts:
    """What was reported: loads and completions by (number, sub-plan, partition), openings and plans by number."""

    def __init__(self):
        self.loaded, self.done, self.opened, self.issued = {}, set(), {}, {}

    def load(self, place, keys):
        self.loaded.setdefault(place, set()).update(keys)

    def open(self, number, sub):
        self.opened[number] = max(self.opened.get(number, 0), sub + 1)

    def issue(self, number, old, new):
        self.issued.setdefault(number, set()).add((old, new))

    def join(self, other):
        for place, keys in other.loaded.items():
            self.load(place, keys)
        self.done |= other.done
        for number, count in other.opened.items():
            self.open(number, count - 1)
        for number, pairs in other.issued.items():
            self.issued.setdefault(number, set()).update(pairs)

    def covers(self, other):
        """Whether these tell all that the others tell."""
        loads = all(keys <= self.loaded.get(cell, set()) for cell, keys in other.loaded.items())
        opened = all(count <= self.opened.get(number, 0) for number, count in other.opened.items())
        issued = all(pairs <= self.issued.get(number, set()) for number, pairs in other.issued.items())
        return loads and opened and issued and other.done <= self.done

    def copied(self):
        copy = Facts()
        copy.join(self)
        return copy

    def newest(self, first):
        """The course of the greatest number above 1 under which one pair of plans is issued, or else the first."""
        known = [number for number, pairs in self.issued.items() if number > 1 and len(pairs) == 1]
        return Course(max(known), *next(iter(self.issued[max(known)]))) if known else first

    def routes(self, first):
        """The partition to ask for each place."""
        course = self.newest(first)
        return [self.route(course, place) for place in range(PLACES)]

    def route(self, course, place):
        cell = course.number, course.sub[place], course.new[place]
        arrived = place in self.loaded.get(cell, ()) or cell in self.done
        return course.new[place] if arrived else course.old[place]

    def cells(self):
        return sorted(self.loaded.keys() | self.done)

    def lines(self):
        """What the line `board` answers."""
        shown = [f"opened {number} {count}" for number, count in sorted(self.opened.items())]
        shown += [f"issue {it} {'one' if len(self.issued[it]) == 1 else 'clash'}" for it in sorted(self.issued)]
        for cell in self.cells():
            spans = "".join(f" {span(lo, hi)}" for lo, hi in spans_of(self.loaded.get(cell, ())))
            shown.append(f"cell {cell[0]} {cell[1]} {cell[2]} {'done' if cell in self.done else 'open'}{spans}")
        return shown or ["empty"]

    # ---- frames

    def listed(self):
        """The openings, issues and cells of its delta, by rising numbers."""
        issues = [(it, told_issue(self.issued[it])) for it in sorted(self.issued)]
        told = lambda cell: [(rank(lo), rank(hi)) for lo, hi in spans_of(self.loaded.get(cell, ()))]
        return sorted(self.opened.items()), issues, [(*cell, cell in self.done, told(cell)) for cell in self.cells()]

    def frame(self):
        """The frame of the delta that holds all of it."""
        return delta_frame(*self.listed())

    def digest_frame(self):
        """The frame of its digest."""
        return digest_frame(*self.listed())


def told_issue(pairs):
    """The one pair of plans, each as its ranges, or nothing for a clash."""
    if len(pairs) > 1:
        return None
    return tuple([(rank(hi), part) for _, hi, part in runs(plan)] for plan in next(iter(pairs)))


def facts_of(message):
    """The facts of a delta."""
    facts = Facts()
    facts.opened = dict(message.openings)
    for number, plans in message.issues:
        # Of a clash no plan is told; two that no text gives stand for it.
        facts.issued[number] = {((0,), (1,)), ((1,), (0,))} if plans is None else {tuple(map(owners_of, plans))}
    for *cell, done, spans in message.cells:
        if done:
            facts.done.add(tuple(cell))
        for lo, hi in spans:
            facts.load(tuple(cell), range(places_below(lo), places_below(hi)))
    return facts


def owners_of(ranges):
    """The owner of each place, by the ranges of a plan."""
    owners = []
    for end, part in ranges:
        owners += [part] * (places_below(end) - len(owners))
    return tuple(owners)


def places_below(at):
    """How many places lie below a rank; the ranks inside the last place are never drawn."""
    return PLACES if at == TOP else min(at, PLACES - 1)


class Feed:
    """A stream of frames, cut anywhere."""

    def __init__(self):
        self.waiting, self.failed = b"", False

    def push(self, piece):
        """The messages whose frames end in the piece, and what follows them: a fault, or nothing."""
        self.waiting += piece
        heard = []
        try:
            while True:
                message, length = decoded(self.waiting)
                heard.append((message.kind, facts_of(message) if message.kind == "delta" else None))
                self.waiting = self.waiting[length:]
        except Fault as fault:
            self.failed = fault.args[0] != "Short"
            return heard, fault.args[0] if self.failed else None
