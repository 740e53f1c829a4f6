"""Worlds as docs/SCENARIOS.md says, beside which tools/model runs those of the program: what each event answers."""
from plain import PLACES, Course, Facts, place_of, span, spans_of


class Refused(Exception):
    """Why an event does nothing."""


def shown(row):
    """The line of a row, whose bytes are in hex if they are no UTF-8."""
    try:
        return f"row {row.decode()}"
    except UnicodeDecodeError:
        return f"bytes {row.hex()}"


class World:
    """A leader, partitions and routers, from the beginning of course 1 on."""

    def __init__(self, old, new, routers):
        self.courses = {1: Course(1, old, new)}
        self.last, self.counts, self.routers = 1, {1: 0}, routers
        self.held, self.given, self.loaded, self.closed = {}, {}, {}, set()
        self.facts = {"l": Facts(), **{f"r{it}": Facts() for it in range(routers)}}
        self.messages, self.chunks = [], []
        # The rows of each partition, and the copies that each chunk took along, by their keys; and the one map that they are.
        self.rows, self.copies, self.map = {}, [], {}
        self.add_parts(old, new)
        for place, part in enumerate(old):
            self.held[part].add(place)
        self.facts["l"].issue(1, old, new)

    def add_parts(self, *plans):
        for part in sorted({part for plan in plans for part in plan}):
            self.held.setdefault(part, set())
            self.rows.setdefault(part, {})
            self.facts.setdefault(f"p{part}", Facts())

    def node(self, name):
        if name not in self.facts:
            raise Refused("NoSuch")
        return self.facts[name]

    def knows(self, name, number):
        return number == 1 or number in self.node(name).issued

    def newest(self, name):
        return self.node(name).newest(self.courses[1])

    @property
    def opened(self):
        """How many sub-plans of the course begun last are opened."""
        return self.counts[self.last]

    # ---- the leader

    def waited_for(self):
        """The least partition that has not reported to the leader that it has all of the sub-plan opened last."""
        course, sub = self.courses[self.last], self.opened - 1
        due = [it for it in sorted(self.held) if self.opened and course.incoming(sub, it)]
        return next((it for it in due if (self.last, sub, it) not in self.facts["l"].done), None)

    def is_over(self):
        return self.opened == self.courses[self.last].count and self.waited_for() is None

    def open(self):
        part = self.waited_for()
        if part is not None:
            raise Refused(f"NotDone {self.opened - 1} {part}")
        if self.opened == self.courses[self.last].count:
            raise Refused("NoMore")
        self.facts["l"].open(self.last, self.opened)
        self.counts[self.last] += 1
        return f"opened {self.opened - 1}"

    def begin(self, plan):
        if not self.is_over():
            raise Refused("Running")
        return self.begun(self.courses[self.last].new, plan)

    def begun(self, old, plan):
        self.last += 1
        self.counts[self.last] = 0
        self.courses[self.last] = Course(self.last, old, plan)
        self.add_parts(plan)
        self.facts["l"].issue(self.last, old, plan)
        return f"begun {self.last} {len(self.held)}"

    # ---- a course that ends early

    def is_left(self, place, part):
        """Whether the course begun last leaves the key at the partition."""
        course, at = self.courses[self.last], (self.last, part)
        if part == course.new[place]:
            return not course.moves(place) or place in self.loaded.get(at, ())
        return part == course.old[place] and place not in self.given.get(at, ()) and at in self.closed

    def begin_from(self, old, plan):
        if not all(self.is_left(place, part) for place, part in enumerate(old)):
            raise Refused("Running")
        return self.begun(old, plan)

    def close(self, part):
        course = self.newest(f"p{part}")
        self.closed.add((course.number, part))
        return f"closed {course.number}"

    def where_left(self):
        """Where the keys are, those on their way at their destination."""
        course = self.courses[self.last]
        loaded = [self.loaded.get((self.last, part), ()) for part in course.new]
        return tuple(new if it in keys else old for it, (keys, old, new) in enumerate(zip(loaded, course.old, course.new)))

    # ---- keys that go

    def going(self, part):
        """The course and the sub-plan by which the partition sends keys on."""
        course = self.newest(f"p{part}")
        if (course.number, part) in self.closed:
            raise Refused("Ended")
        opened = self.facts[f"p{part}"].opened.get(course.number, 0)
        if not opened:
            raise Refused("NotOpen")
        return course, opened - 1

    def gave(self, part, course, sub, lo, hi):
        self.held[part] -= set(range(lo, hi))
        self.given.setdefault((course.number, part), set()).update(range(lo, hi))
        self.chunks.append((course.number, sub, part, course.new[lo], lo, hi))
        self.copies.append({key: row for key, row in self.rows[part].items() if place_of(key) in range(lo, hi)})
        return f"chunk {len(self.chunks) - 1} sub {sub} {part} to {course.new[lo]} {span(lo, hi)}"

    def give(self, part, most):
        course, sub = self.going(part)
        left = course.outgoing(sub, part) & self.held[part]
        if not left:
            raise Refused("NothingLeft")
        if not most:
            raise Refused("ZeroMax")
        lo, hi = spans_of(left)[0]
        return self.gave(part, course, sub, lo, min(hi, lo + most))

    def giveat(self, part, place):
        course, sub = self.going(part)
        if place not in course.outgoing(sub, part):
            raise Refused("NotOutgoing")
        if place in self.given.get((course.number, part), ()):
            raise Refused("Given")
        if place not in self.held[part]:
            raise Refused("NotHeld")
        return self.gave(part, course, sub, place, place + 1)

    # ---- keys that come

    def in_flight(self, chunk):
        """The keys of the chunk that its destination has not loaded in its course."""
        number, _, _, dest, lo, hi = chunk
        return set(range(lo, hi)) - self.loaded.get((number, dest), set())

    def load(self, index):
        if index >= len(self.chunks):
            raise Refused("NoSuch")
        number, sub, _, dest, lo, hi = self.chunks[index]
        facts = self.node(f"p{dest}")
        if not self.knows(f"p{dest}", number):
            raise Refused("Stranger")
        if facts.opened.get(number, 0) <= sub:
            raise Refused("NotOpen")
        missing = self.in_flight(self.chunks[index])
        if not missing:
            return "again"
        self.install(index, dest, missing)
        self.held[dest] |= missing
        self.loaded.setdefault((number, dest), set()).update(missing)
        facts.load((number, sub, dest), range(lo, hi))
        return f"loaded {dest} {span(lo, hi)}"

    def install(self, index, dest, places):
        """The destination has the chunk's rows of these places, and no others there."""
        rows = {key: row for key, row in self.rows[dest].items() if place_of(key) not in places}
        self.rows[dest] = {**rows, **{key: row for key, row in self.copies[index].items() if place_of(key) in places}}

    def finish(self, part, sub):
        course = self.newest(f"p{part}")
        if self.facts[f"p{part}"].opened.get(course.number, 0) <= sub:
            raise Refused("NotOpen")
        due = course.incoming(sub, part)
        missing = due - self.loaded.get((course.number, part), set())
        if missing:
            raise Refused(f"NotAll {span(*spans_of(missing)[0])}")
        if not due:
            raise Refused("NothingDue")
        self.facts[f"p{part}"].done.add((course.number, sub, part))
        return f"done {sub} {part}"

    # ---- messages and questions

    def send(self, name):
        self.messages.append(self.node(name).copied())
        return f"sent {len(self.messages) - 1}"

    def send_part(self, name, said):
        """The node sends these facts alone, if it knows all of them."""
        if not self.node(name).covers(said):
            raise Refused("NotKnown")
        self.messages.append(said.copied())
        return f"sent {len(self.messages) - 1}"

    def deliver(self, index, name):
        facts = self.node(name)
        if index >= len(self.messages):
            raise Refused("NoSuch")
        facts.join(self.messages[index])
        return "delivered"

    def route(self, router, place):
        facts = self.node(f"r{router}")
        return facts.route(facts.newest(self.courses[1]), place)

    def serve(self, part, place, after):
        """What the partition replies for the key: the kind of the reply, and what it names."""
        name = f"p{part}"
        self.node(name)
        known = [it for it in self.courses if self.knows(name, it)]
        gave = max((it for it in known if place in self.given.get((it, part), ())), default=0)
        newest = self.courses[max(known)]
        is_due = newest.moves(place) and newest.new[place] == part
        comes = newest.number if is_due and place not in self.loaded.get((newest.number, part), ()) else 0
        if place in self.held[part]:
            return "held", ()
        if comes > gave:
            return "pending", (self.courses[comes].old[place],)
        if gave > after:
            return "moved", (self.courses[gave].new[place], gave)
        if after > max(known):
            return "behind", ()
        return "elsewhere", (self.courses[max(known)].old[place],)

    # ---- rows

    def on_row(self, part, key, change):
        """Runs a command on the row of the key, if the partition holds it: the row as it was, or what it replies."""
        word, told = self.serve(part, place_of(key), 0)
        if word != "held":
            return " ".join(map(str, [word, *told]))
        row = self.rows[part].pop(key, None)
        after = change(row)
        for rows in (self.rows[part], self.map):
            rows.pop(key, None)
            if after is not None:
                rows[key] = after
        return "row" if row is None else shown(row)

    def put(self, part, key, row):
        return self.on_row(part, key, lambda _: row)

    def get(self, part, key):
        return self.on_row(part, key, lambda row: row)

    def delete(self, part, key):
        return self.on_row(part, key, lambda _: None)

    def carried(self):
        """The row of each key at the partition that holds it, or in the chunk that has it on its way."""
        held = [(rows, self.held[part]) for part, rows in self.rows.items()]
        flying = [(rows, self.in_flight(chunk)) for rows, chunk in zip(self.copies, self.chunks)]
        return {key: row for rows, places in held + flying for key, row in rows.items() if place_of(key) in places}

    # ---- what is promised

    def broken(self):
        """The promise that does not hold now, if there is one."""
        if any(not {source, dest} <= self.held.keys() for _, _, source, dest, _, _ in self.chunks):
            return "both ends of each chunk are there"
        flying = [(chunk, self.in_flight(chunk)) for chunk in self.chunks]
        carried = sorted(place for keys in [*self.held.values(), *(keys for _, keys in flying)] for place in keys)
        if carried != list(range(PLACES)):
            return "each key has one carrier"
        if self.carried() != self.map:
            return "all partitions and chunks together are one map"
        moving = [chunk for chunk, keys in flying if keys]
        if len({chunk[2] for chunk in moving}) != len({(chunk[2], chunk[3]) for chunk in moving}):
            return "a source feeds one destination at a time"
        if any(chunk[:2] != (self.last, self.opened - 1) for chunk in moving):
            return "keys on their way are of the sub-plan opened last"
        if self.is_over() and any(place not in self.held[part] for place, part in enumerate(self.courses[self.last].new)):
            return "once a course is over each key is where its new plan has it"
        for name, facts in self.facts.items():
            if not self.happened(facts):
                return f"what {name} was told happened"
        return None

    def comes(self, part, place, source):
        """Whether a key for which the partition waits is at the source or on its way, or its course ended early."""
        newest = self.newest(f"p{part}").number
        flying = any(it[2:4] == (source, part) and place in self.in_flight(it) for it in self.chunks)
        return place in self.held[source] or flying or (newest < self.last and (newest, source) in self.closed)

    def may_be_sent(self, router, place, part):
        """Whether the partition to which a router sends the key is the old one, or has loaded it."""
        course = self.newest(f"r{router}")
        return part == course.old[place] or place in self.loaded.get((course.number, part), ())

    def happened(self, facts):
        """Whether all that is told happened."""
        loads = all(keys <= self.loaded.get((cell[0], cell[2]), set()) for cell, keys in facts.loaded.items())
        due = [(self.courses[it].incoming(sub, part), it, part) for it, sub, part in facts.done]
        dones = all(keys <= self.loaded.get((it, part), set()) for keys, it, part in due)
        opened = all(count <= self.counts.get(it, 0) for it, count in facts.opened.items())
        return loads and dones and opened and all(it in self.courses for it in facts.issued)
