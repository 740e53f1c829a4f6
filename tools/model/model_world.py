"""Worlds of random events, for tools/model."""
from model_draw import Lines, Trial
from plain import PLACES, Facts, bound, place_of, spans_of
from plain_world import Refused, World

EVENTS = 5000
KEPT = 32
# What a row begins with: among them a remark, blanks inside, and a byte that is no UTF-8.
TEXTS = ["row ", "#", "two  words\t", "{}", "bad line 3: word", "é", "\udcff"]


class Events:
    """The events of a world, one after the other, and what they answer."""

    def __init__(self, draw):
        self.draw, self.lines, self.asked = draw, Lines(), []
        old, new = draw.plan(6, 2), draw.plan(6, 2)
        self.lines.begin(draw, old, new)
        self.world = World(old, new, draw.randrange(4))
        self.ask(f"world {self.world.routers}", lambda: f"world {len(self.world.held)} {self.world.routers}")

    def ask(self, line, step, *words):
        """The line answers what the step does; afterwards each promise holds."""
        try:
            answer = step(*words)
        except Refused as why:
            answer = f"no {why}"
        self.lines.ask(line, answer)
        broken = self.world.broken()
        if broken:
            raise AssertionError(f"after {line}: {broken}")
        return answer

    def part(self):
        return self.draw.choice([*range(7), *range(7), 9999])

    def node(self):
        return self.draw.choice(["l", "l", f"p{self.part()}", f"p{self.part()}", "r0", f"r{self.draw.randrange(5)}"])

    def index(self, count):
        """One of the last of so many, or any, or one that is not there."""
        late = max(0, count - 1 - self.draw.randrange(8))
        return late if self.draw.random() < 0.6 else self.draw.randrange(count + 2)

    def drawn(self):
        """Any event."""
        world, draw = self.world, self.draw
        part, place, most = self.part(), draw.randrange(PLACES), draw.choice([0, 0, 1, 3, 18446744073709551615])
        kind = draw.randrange(11)
        if not draw.randrange(200):
            self.ask(f"close {part}", world.close, part)
        elif kind == 0:
            self.ask(f"give {part} {most}", world.give, part, most)
        elif kind == 1:
            self.ask(f"giveat {part} {bound(place)}", world.giveat, part, place)
        elif kind in (2, 3):
            chunk = self.index(len(world.chunks))
            self.ask(f"load {chunk}", world.load, chunk)
        elif kind == 4:
            sub = draw.randrange(4)
            self.ask(f"finish {part} {sub}", world.finish, part, sub)
        elif kind == 5:
            self.send(self.node())
        elif kind == 6:
            message, node = self.index(len(world.messages)), self.node()
            self.ask(f"deliver {message} {node}", world.deliver, message, node)
        elif kind == 7:
            self.follow(draw.randrange(5), place)
            if self.asked:
                self.next_of(*draw.choice(self.asked))
        elif kind == 8:
            self.ask_for(part, place, draw.choice([0, 0, draw.randrange(8)]))
        else:
            self.on_row(self.holder(place) if draw.randrange(2) else part, draw.key(place))

    def holder(self, place):
        """The partition that holds the key, or any while the key is on its way."""
        return next((part for part, held in self.world.held.items() if place in held), 1)

    def on_row(self, part, key):
        """A command on the row of the key."""
        world, draw = self.world, self.draw
        kind = draw.choice(["put", "put", "get", "get", "get", "del"])
        if kind == "put":
            text = draw.choice(TEXTS) + str(len(self.lines))
            blanks = draw.choice([" ", "  ", "\t"])
            self.ask(f"put {part} {key}{blanks}{text}", world.put, part, key, text.encode(errors="surrogateescape"))
        elif kind == "get":
            self.ask(f"get {part} {key}", world.get, part, key)
        else:
            self.ask(f"del {part} {key}", world.delete, part, key)

    def ask_for(self, part, place, after):
        """Asks a partition for a key: the kind of its reply, and what it names."""
        key = self.draw.key(place)
        try:
            word, told = self.world.serve(part, place, after)
            answer = " ".join(map(str, [word, *told]))
        except Refused as why:
            word, told, answer = "no", (), f"no {why}"
        self.lines.ask(f"serve {part} {key}" + (f" {after}" if after or self.draw.random() < 0.5 else ""), answer)
        return word, told

    def follow(self, router, place):
        """Asks a router for a key, and then the partitions that are named, until one has it or waits for it."""
        key, after = self.draw.key(place), 0
        try:
            part = self.world.route(router, place)
        except Refused as why:
            self.lines.ask(f"route {router} {key}", f"no {why}")
            return
        self.lines.ask(f"route {router} {key}", f"route {key} {part}")
        if not self.world.may_be_sent(router, place, part):
            raise AssertionError(f"a router's key {key} has not been loaded at {part}")
        while part is not None:
            part, after = self.next_of(part, place, after)

    def next_of(self, part, place, after):
        """Asks a partition that a router or a move named: whom the reply names next, if it says that the key moved. It
        may be asked again later."""
        word, told = self.ask_for(part, place, after)
        wrong = ["elsewhere", "no", *([] if after else ["behind"])]
        if word == "pending" and not self.world.comes(part, place, *told):
            raise AssertionError(f"{part} waits for the key {bound(place)}, which does not come")
        if self.world.last == 1:
            wrong += ["behind", "moved" if after else "pending"]
        if word in wrong or (word == "moved" and told[1] <= after):
            raise AssertionError(f"the key {bound(place)} is neither held nor waited for nor sent on: {word} {told}")
        self.asked = [*self.asked[-KEPT:], (part, place, after)]
        return told if word == "moved" else (None, after)

    def ask_all(self):
        """Each router is asked for each key, and what was asked before once more."""
        for part, place, after in self.asked:
            self.next_of(part, place, after)
        for router in range(self.world.routers):
            for place in range(PLACES):
                self.follow(router, place)

    def send(self, node):
        """The node sends all that it knows or a report, which now and then it does not know."""
        if self.draw.randrange(2):
            self.ask(f"send {node}", self.world.send, node)
        else:
            said = Facts()
            report = self.report(self.world.facts.get(node, Facts()), said)
            self.ask(f"send {node} {report}", self.world.send_part, node, said)

    def report(self, known, said):
        """A report, mostly of what is known, which `said` takes: its words."""
        draw = self.draw
        facts = [("loaded", known.loaded), ("done", known.done), ("opened", known.opened)]
        drawn = [(kind, at) for kind, places in facts for at in sorted(places)]
        if not drawn or not draw.randrange(6):
            return draw.report(said, [])
        kind, at = draw.choice(drawn)
        if kind == "loaded":
            lo, hi = draw.choice(spans_of(known.loaded[at]))
            lo, hi = draw.choice([(lo, hi), (lo, lo + 1), (hi - 1, hi), (lo, min(PLACES, hi + draw.randrange(2)))])
            said.load(at, range(lo, hi))
            return f"loaded {at[0]} {at[1]} {at[2]} {bound(lo)} {bound(hi)}"
        if kind == "done":
            said.done.add(at)
            return f"done {at[0]} {at[1]} {at[2]}"
        sub = draw.randrange(known.opened[at])
        said.open(at, sub)
        return f"opened {at} {sub}"

    def tell(self, sender, receivers):
        """A node sends what it knows; one message in 24 is lost."""
        self.ask(f"send {sender}", self.world.send, sender)
        message = len(self.world.messages) - 1
        for node in receivers:
            if self.draw.randrange(24):
                self.ask(f"deliver {message} {node}", self.world.deliver, message, node)

    def drive(self):
        """The next sub-plan, or the next course, from its opening to the last report."""
        world, draw, parts = self.world, self.draw, sorted(self.world.held)
        if not draw.randrange(4):
            self.turn()
        elif world.is_over() == bool(draw.randrange(6)):
            plan = draw.plan(7, 2)
            self.ask(f"begin {draw.text(draw.entries(plan))}", world.begin, plan)
        self.ask("open", world.open)
        self.tell("l", [f"p{part}" for part in parts])
        for part in parts * 3:
            most = draw.randint(1, 9)
            self.ask(f"give {part} {most}", world.give, part, most)
        for key in [draw.key(draw.randrange(PLACES)) for _ in range(4)]:
            self.on_row(self.holder(place_of(key)), key)
        for chunk in range(max(0, len(world.chunks) - 24), len(world.chunks)):
            self.ask(f"load {chunk}", world.load, chunk)
        for part in parts:
            sub = max(world.opened - 1, 0)
            self.ask(f"finish {part} {sub}", world.finish, part, sub)
            self.tell(f"p{part}", ["l", *([f"r{draw.randrange(world.routers)}"] if world.routers else [])])


    def turn(self):
        """The course begun last ends early: its sources close, mostly, and the next begins from where the keys are."""
        world, draw = self.world, self.draw
        for part in sorted(world.held):
            if draw.randrange(12):
                self.ask(f"close {part}", world.close, part)
        for chunk in range(len(world.chunks)):
            if world.in_flight(world.chunks[chunk]) and draw.randrange(24):
                self.ask(f"load {chunk}", world.load, chunk)
        left = world.where_left() if draw.randrange(6) else draw.plan(7, 2)
        plan = draw.plan(7, 2)
        texts = [draw.text(draw.entries(it)) for it in (left, plan)]
        self.ask(f"begin-from {' '.join(texts)}", world.begin_from, left, plan)


def world(draw):
    """A world of random events, now and then a round by which courses get done."""
    events = Events(draw)
    while len(events.lines) < EVENTS:
        if draw.randrange(40):
            events.drawn()
        else:
            events.drive()
            events.ask_all()
    return Trial.of([], events.lines)
