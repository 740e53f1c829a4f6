"""Random files and words of the commands over files and words, for tools/model."""
import json

from model_draw import Trial
from plain_board import HALF, Board, Change, assembled, bound, joined
from plain_files import Files, answer
from plain_frames import TOP, delta_frame, digest_frame

INNER = [1, 2, 40, HALF - 1, HALF, HALF + 1, 2 * HALF, 2 * HALF + 5, 3 * HALF, 9 * HALF, TOP - HALF, TOP - 1]
BOUNDS = [0, *INNER, TOP]
WORDS = ["0", "1", "2", "01", "9999", "10000", "4294967295", "4294967296", "00000000001", "", "x", "1 ", "+1"]
PLACES = ["0:0", "2:0", "02:5", "2:5", "9:4294967295", "end", "4294967294:4294967295", "4294967295:0"]
NO_PLACES = ["4294967295:1", "2", "2:", ":2", "2:0:0", "2:x", "", " 2:0", "END", "4294967296:0"]


class Drawn:
    """Plans, boards and files, all of one seed."""

    def __init__(self, draw):
        self.draw, self.files, self.text = draw, {}, b""
        plans = [self.plan() for _ in range(4)]
        self.pairs = [tuple(plans[:2]), *(tuple(draw.sample(plans, 2)) for _ in range(2))]
        self.changes = [Change(number, *pair) for number, pair in enumerate(self.pairs, 1)]
        self.files["old.json"], self.files["new.json"] = map(self.told, plans[:2])

    def plan(self):
        cuts = [0, *sorted(self.draw.sample(INNER, self.draw.randrange(8))), TOP]
        owned = joined((lo, hi, self.draw.randrange(1, 5)) for lo, hi in zip(cuts, cuts[1:]))
        return [(hi, part) for _, hi, part in owned]

    def told(self, plan):
        """The text of the plan, or in one of 16 cases of something else."""
        draw = self.draw
        ends = [0, *(end for end, _ in plan)]
        entries = [{"part": part, "from": ends[at], "to": end} for at, (end, part) in enumerate(plan)]
        if not draw.randrange(16):
            draw.choice(entries)[draw.choice(["from", "to"])] = draw.choice(BOUNDS)
        for entry in entries:
            entry["from"] = divmod(entry["from"], HALF)
            entry["to"] = "end" if entry["to"] == TOP and draw.randrange(4) else divmod(entry["to"], HALF)
        return json.dumps({"plan": draw.sample(entries, len(entries))}).encode()

    def span(self):
        """A span, mostly of keys of a move, with the cell to which they are to go."""
        draw, change = self.draw, self.draw.choice(self.changes)
        if not change.moves or not draw.randrange(3):
            return (draw.randrange(1, 4), draw.randrange(3), draw.randrange(5)), *sorted(draw.sample(BOUNDS, 2))
        lo, hi, (_, part, sub) = draw.choice(change.moves)
        inner = sorted({lo, hi, *(it for it in BOUNDS if lo < it < hi), lo + draw.randrange(min(9, hi - lo))})
        return (change.number, sub, part), *sorted(draw.sample(inner, 2))

    def board(self):
        board = Board()
        for _ in range(self.draw.randrange(14)):
            kind = self.draw.randrange(9)
            cell, lo, hi = self.span()
            if kind < 5:
                board.load(cell, [(lo, hi)])
            elif kind < 6:
                board.done.add(cell)
            elif kind < 7:
                board.open(cell[0], self.draw.choice([1, 2, 3, 10000]))
            else:
                number = self.draw.randint(1, 3)
                board.issue(number, self.pairs[number - 1] if self.draw.randrange(3) else self.draw.choice(self.pairs))
        return board

    def whole(self):
        """A board on which each move of some change is complete."""
        board, change = Board(), self.draw.choice(self.changes)
        board.issue(change.number, self.pairs[change.number - 1])
        for lo, hi, (_, part, sub) in change.moves:
            board.load((change.number, sub, part), [(lo, hi)])
        return board

    def frames(self, board):
        """Frames that tell the board: one, or several of some items each, in any order and some of them twice."""
        items = [lists for lists, *_ in board.items()]
        if self.draw.randrange(2):
            return [delta_frame(*board.listed())]
        owners = [self.draw.randrange(3) for _ in items]
        frames = [delta_frame(*assembled(it for it, owner in zip(items, owners) if owner == at)) for at in range(3)]
        return self.draw.sample(frames * 2, self.draw.randrange(3, 7))

    def spoil(self, data):
        """The bytes, in one of eight cases cut, spoilt at a byte, or with a digest behind."""
        if self.draw.randrange(8):
            return data
        digest = digest_frame(*self.board().listed())
        at = self.draw.randrange(len(data) + 1)
        inside, head = self.draw.spoilt(data or digest), self.draw.spoilt((data or digest)[:8])
        return self.draw.choice([data[:at], data + digest, data + digest[:at], inside, head + (data or digest)[8:]])

    def named(self, name, data):
        """The name under which a command finds the bytes: now and then that of standard input."""
        if not self.draw.randrange(12):
            self.text = self.text or data
            return "-"
        self.files[name] = data
        return name

    def file(self, name, boards=3):
        """A file of frames."""
        frames = [it for _ in range(self.draw.randrange(boards + 1)) for it in self.frames(self.board())]
        return self.named(name, self.spoil(b"".join(frames)))

    def some_files(self, least):
        return [self.file(name) for name in ["a.bin", "b.bin", "c.bin"][:self.draw.randrange(least, 4)]]

    def plans(self):
        return [self.named(it, self.files[it]) for it in ("old.json", "new.json")]

    def optional(self, words, *options):
        """The words with each of the options, which may have several words, anywhere among them."""
        groups = [[it] for it in words]
        for option in options:
            groups.insert(self.draw.randrange(len(groups) + 1), option)
        return [word for group in groups for word in group]

    def boards(self):
        """Options that name boards."""
        return [self.draw.choice([["--board", it], [f"--board={it}"]]) for it in self.some_files(self.draw.choice([0, 1, 1]))]

    def form(self):
        """The option for JSON, in one of three cases."""
        return [] if self.draw.randrange(3) else [["--json"]]

    def bound(self, bad):
        """The text of a bound; one in so many is none."""
        draw = self.draw
        return draw.choice(PLACES + [bound(draw.choice(BOUNDS)) for _ in PLACES] if draw.randrange(bad) else NO_PLACES)

    def trial(self, command, words):
        """The trial of a command over the files."""
        out, err, status = answer([command, *words], Files(self.files, self.text))
        return Trial([command, *words], self.text, out, err, status, self.files)


def report(draw):
    """The words of a report, in one of three cases with a number outside its limits, or a word too few or too many."""
    drawn, bad = Drawn(draw), not draw.randrange(3)
    number = lambda: draw.choice(WORDS if bad and draw.randrange(2) else WORDS[1:5])
    kind = draw.choice(["loaded", "done", "opened", "issued"])
    words = [kind, *(number() for _ in range({"loaded": 3, "done": 3, "opened": 2, "issued": 1}[kind]))]
    if kind == "loaded":
        lo, hi = sorted(draw.sample(BOUNDS, 2))
        words += [drawn.bound(4), drawn.bound(4)] if bad else [bound(lo), bound(hi)]
    if kind == "issued":
        words += drawn.plans()
    elif bad:
        words = draw.choice([words, words, words[:-1], [*words, "1"], ["lost", *words[1:]]])
    return drawn.trial("report", words)


def board(draw):
    """The board of some files."""
    drawn = Drawn(draw)
    return drawn.trial("board", drawn.optional(drawn.some_files(1), *drawn.form()))


def status(draw):
    """How far the newest change is, by some files."""
    drawn = Drawn(draw)
    words = [*drawn.plans(), *drawn.some_files(0)]
    flags = [[it] for it in ("--waiting", "--exit-status") if draw.randrange(2)]
    return drawn.trial("status", drawn.optional(words, *flags, *(drawn.boards() if len(words) == 2 else []), *drawn.form()))


def watch(draw):
    """How far the newest change is as frames come."""
    drawn = Drawn(draw)
    words = drawn.plans()
    frames = [it for _ in range(draw.randrange(5)) for it in drawn.frames(drawn.board())]
    until = [["--until-complete"]] if draw.randrange(2) else []
    if until and draw.randrange(2):
        frames.insert(draw.randrange(len(frames) + 1), delta_frame(*drawn.whole().listed()))
    drawn.text = drawn.spoil(b"".join(frames))
    return drawn.trial("watch", drawn.optional(words, *until, *drawn.form()))


def route(draw):
    """Routes of keys, few of which are none, or of rows by their names."""
    drawn = Drawn(draw)
    words = [*drawn.plans(), *(drawn.bound(20) for _ in range(draw.randint(1, 12)))]
    named = [] if draw.randrange(3) else [["--name"]]
    return drawn.trial("route", drawn.optional(words, *drawn.boards(), *named))


def legs(draw):
    """The legs of all keys, or of two bounds, or of words that are no two bounds."""
    drawn = Drawn(draw)
    words = [*drawn.plans(), *(drawn.bound(12) for _ in range(draw.choice([0, 0, 0, 2, 2, 2, 2, 1, 3])))]
    return drawn.trial("legs", drawn.optional(words, *drawn.boards(), *drawn.form()))


def merge(draw):
    """The frames of what some files tell."""
    drawn = Drawn(draw)
    return drawn.trial("merge", drawn.some_files(1))


def beyond(draw):
    """The frames of what one file tells and another does not, or whether there are any."""
    drawn = Drawn(draw)
    words = [drawn.file("a.bin"), drawn.file("b.bin", draw.choice([0, 3, 3]))]
    if not draw.randrange(6):
        words[1] = words[0]
    return drawn.trial("beyond", drawn.optional(words, *[["--quiet"]] * draw.randrange(2)))


def digest(draw):
    """The frame of the digest of a file."""
    drawn = Drawn(draw)
    return drawn.trial("digest", [drawn.file("a.bin")])


def repair(draw):
    """The frames of what a file tells and a digest does not show, which is mostly that of some items of the file."""
    drawn = Drawn(draw)
    board = drawn.board()
    items = [it for it in (lists for lists, *_ in board.items()) if draw.randrange(4)]
    told = digest_frame(*draw.choice([assembled(items), assembled(items), board.listed(), drawn.board().listed()]))
    if not draw.randrange(10):
        told = draw.choice([b"", told + told, delta_frame(*board.listed())])
    one = drawn.named("a.bin", drawn.spoil(b"".join(drawn.frames(board))))
    return drawn.trial("repair", [one, drawn.named("b.digest", drawn.spoil(told))])


def made(draw):
    """A plan with the keys of a few spans at other partitions. One in so many words is none, or is left out."""
    drawn = Drawn(draw)
    words = [drawn.plans()[0]]
    for _ in range(draw.randint(1, 4)):
        lo, hi = sorted(draw.sample(BOUNDS, 2))
        bounds = draw.choice([[bound(lo), bound(hi)]] * 9 + [[drawn.bound(4), drawn.bound(4)]])
        words += [*bounds, draw.choice(WORDS if not draw.randrange(9) else ["0", "1", "2", "3", "4", "9999"])]
    if len(words) > 4 and not draw.randrange(5):
        del words[-draw.randint(1, 2):]
    return drawn.trial("plan", words)


def shared(draw):
    """A plan in which partitions share keys. One in so many words is none, and so many partitions are too many."""
    drawn = Drawn(draw)
    below = draw.choice([drawn.bound(12), "40:0", "480:0", "0:7", "0:4000", "end"])
    runs = [f"{it}-{it + draw.randrange(4)}" for it in (draw.randrange(40) for _ in range(4))]
    bad = [*WORDS, "3-1", "1-", "-", "1-2-3", "9999-10000"]
    words = [draw.choice(runs + ["7", "0", "9999"] if draw.randrange(9) else bad) for _ in range(draw.randint(1, 6))]
    return drawn.trial("split", [below, *(it for it in words if not it.startswith("-")), "1"])


def diff(draw):
    """The words by which one plan is made of another."""
    drawn = Drawn(draw)
    words = drawn.plans()
    return drawn.trial("diff", words if draw.randrange(6) else words[:1] * 2)


def key(draw):
    """The keys of a few names."""
    parts = ["2", "7", "02", "4294967294", "4294967295", "4294967296", "", "cart", ":", ":", "{", "}", "{17}", " ", "schl\u00fcssel", "x"]
    names = ["".join(draw.choice(parts) for _ in range(draw.randint(1, 6))) for _ in range(draw.randint(1, 5))]
    return Drawn(draw).trial("key", names)


def pieces(draw):
    """Boards of more than a frame can hold, in two files that share some of it."""
    drawn, whole = Drawn(draw), Board()
    command = draw.choice(["merge", "beyond", "repair", "digest"])
    spans = lambda of: [(3 * it, 3 * it + 2) for it in of]
    for part in range(draw.randint(1, 4)):
        whole.loaded[1, 0, part] = spans(sorted(draw.sample(range(200000), draw.randrange(9000))))
    whole.loaded[2, 0, 0] = spans(range(draw.randrange(66000)))
    many = [(it + 1, it % 2) for it in range(4095)] + [(TOP, 1)]
    for number in range(2, draw.randint(3, 16)):
        whole.issue(number, (many, drawn.plan()))
    rows = 9999 if command == "digest" else draw.choice([10, 9999])
    whole.done |= {(number, sub, 3) for number in range(1, 4) for sub in range(rows)}
    lists, frames = whole.listed(), whole.pieces()
    drawn.files["a.bin"] = b"".join(draw.sample(frames, len(frames)))
    drawn.files["b.bin"] = b"".join(draw.sample(frames, draw.randrange(len(frames))))
    drawn.files["b.digest"] = digest_frame([], lists[1][:2], lists[2][:draw.randrange(10)])
    others = {"merge": ["b.bin"], "beyond": ["b.bin"], "repair": ["b.digest"], "digest": []}
    return drawn.trial(command, ["a.bin", *others[command]])
