"""The commands over files and words as docs/SCENARIOS.md says: what they write, and their status."""
import json

from plain_board import HALF, Board, Change, Refused, bound, joined, number_of, plan_of, rank_of, span
from plain_frames import MOST, TOP, Fault, decoded, digest_frame
from plain_json import object_of
from plain_keys import key_of

# They write frames, a plan or words of one, so that their refusals go to standard error.
WRITE_BYTES = ("report", "merge", "beyond", "digest", "repair", "plan", "split", "diff")
INPUT_TAKEN = "squall: standard input is read as it comes, so that no file can be -"


class Files:
    """The files by name; the first file named - is standard input, and each other one of that name is empty."""

    def __init__(self, files, text):
        self.files, self.text = files, text

    def read(self, name):
        if name != "-":
            return self.files[name]
        text, self.text = self.text, b""
        return text

    def messages(self, name, kind, data):
        """The messages of the file, all of which have to be of one kind."""
        while data:
            try:
                message, length = decoded(data)
                if message.kind != kind:
                    raise Fault("Kind")
            except Fault as fault:
                raise Refused(f"refused {name} {fault}") from None
            yield message
            data = data[length:]

    def board(self, *names):
        """What the files tell."""
        board = Board()
        for name in names:
            for message in self.messages(name, "delta", self.read(name)):
                board.join(message.openings, message.issues, message.cells)
        return board

    def digest(self, name):
        """The digest of which the file has the frame, and nothing else."""
        data = self.read(name)
        message = next(self.messages(name, "digest", data), None)
        if message is None:
            raise Refused(f"refused {name} Short")
        if len(data) > decoded(data)[1]:
            raise Refused(f"refused {name} Spare")
        return message

    def plan(self, which, name):
        try:
            return plan_of(self.read(name))
        except Refused as why:
            raise Refused(f"refused {which} {why.line}") from None


def no_report(word, why):
    """Words that are no report, of which this one is at fault."""
    return Refused(f"squall: refused {word} {why}: see squall help report", 2)


def report(words, files):
    """The frame of a report."""
    board, kind = Board(), words[0]
    forms = {"loaded": 6, "done": 4, "opened": 3, "issued": 4}
    if len(words) != forms.get(kind):
        raise no_report(kind, "NoReport")
    told = [number_of(it) for it in words[1:4]]
    if told[0] in (None, 0):
        raise no_report(words[1], "NoCourse")
    if kind == "issued":
        board.issue(told[0], (files.plan("old", words[2]), files.plan("new", words[3])))
        return board.pieces()
    for word, number, why in zip(words[2:4], told[1:], ("NoSubPlan", "NoPart")):
        if number is None or number > 9999:
            raise no_report(word, why)
    if kind == "opened":
        board.open(told[0], told[1] + 1)
    elif kind == "done":
        board.done.add(tuple(told))
    else:
        board.load(tuple(told), [loaded_span(*words[4:])])
    return board.pieces()


def loaded_span(first, last):
    """The span of a report of a load."""
    lo, hi = rank_of(first), rank_of(last)
    for word, rank in ((first, lo), (last, hi)):
        if rank is None:
            raise no_report(word, "NoBound")
    if lo >= hi:
        raise no_report(last, "NoSpan")
    return lo, hi


def routed(words, files, boards):
    """The newest change, by the plans of the first two words and the boards, and what the boards tell."""
    first = Change(1, files.plan("old", words[0]), files.plan("new", words[1]))
    board = files.board(*boards)
    return board.newest(first), board


def route(words, files, boards, flags):
    """The partition to ask for each key, or for each row by its name."""
    change, board = routed(words, files, boards)
    legs_of_all, shown = board.legs(change), []
    for word in words[2:]:
        rank = key_of(word.encode()) if "--name" in flags else rank_of(word)
        if rank in (None, TOP):
            raise Refused("\n".join([*shown, f"refused {word} NoKey"]))
        part = next(part for lo, hi, part in legs_of_all if lo <= rank < hi)
        shown.append(f"route {word if '--name' in flags else bound(rank)} {part}")
    return shown


def span_of(words):
    """The two bounds that the words write, the first below the second."""
    if len(words) == 2:
        bounds = [rank_of(it) for it in words]
        for word, rank in zip(words, bounds):
            if rank is None:
                raise Refused(f"refused {word} NoBound")
        if bounds[0] < bounds[1]:
            return bounds
    raise Refused(f"refused {' '.join(words)} NoSpan")


def legs(words, files, boards):
    change, board = routed(words, files, boards)
    lo, hi = span_of(words[2:]) if words[2:] else (0, TOP)
    cut = [(max(low, lo), min(high, hi), part) for low, high, part in board.legs(change)]
    return [f"leg {span(low, high)} {part}" for low, high, part in cut if low < high]


class Judged(list):
    """Lines, and the status with which they come."""

    status = 0


def is_complete(board, change):
    """Whether each move of the change is complete."""
    return not any(it.startswith("move ") for it in board.status(change, True))


def status(words, files, boards, flags):
    """The lines of the status. If it is asked for, status 5 says that a move is not complete."""
    change, board = routed(words, files, [*words[2:], *boards])
    lines = Judged(board.status(change, "--waiting" in flags))
    if "--exit-status" in flags and not is_complete(board, change):
        lines.status = 5
    return lines


def watch(words, files, flags):
    """The lines of the status, or its JSON, that each frame of standard input changes. If it is asked for, the frame that makes the
    newest change complete is the last one, and status 5 says that there was none."""
    if "-" in words:
        raise Refused(INPUT_TAKEN, 2)
    in_form = as_json if "--json" in flags else as_lines
    board, before, shown = Board(), [], Judged()
    try:
        first = Change(1, files.plan("old", words[0]), files.plan("new", words[1]))
        for message in files.messages("-", "delta", files.read("-")):
            board.join(message.openings, message.issues, message.cells)
            now = in_form("status", list(board.status(board.newest(first), False)))
            shown += [line for at, line in enumerate(now) if before[at:at + 1] != [line]]
            before = now
            if "--until-complete" in flags and is_complete(board, board.newest(first)):
                return shown
    except Refused as why:
        raise Refused("\n".join([*shown, *in_form("status", [why.line])])) from None
    if "--until-complete" in flags:
        shown.status = 5
    return shown


def beyond(words, files):
    one, other = (files.board(it) for it in words)
    return one.beyond(other).pieces()


def digest(words, files):
    frame = digest_frame(*files.board(*words).listed())
    if len(frame) > 8 + MOST:
        raise Refused("no TooLong")
    return [frame]


def repair(words, files):
    board = files.board(words[0])
    return board.repair(files.digest(words[1])).pieces()


def given(words):
    """The spans that the words write, with the partition of each."""
    spans = []
    for at in range(0, len(words) - 2, 3):
        lo, hi = span_of(words[at:at + 2])
        part = number_of(words[at + 2])
        if part is None or part > 9999:
            raise Refused(f"refused {words[at + 2]} NoPart")
        spans.append((lo, hi, part))
    left = words[3 * len(spans):]
    if left:
        raise Refused(f"refused {' '.join(left)} NoPart")
    return spans


def plan_text(ranges):
    """The text of the plan of the ranges."""
    ranges = joined(ranges)
    if len(ranges) > 4096:
        raise Refused("refused plan Many")
    pair = lambda rank: list(divmod(rank, HALF))
    shown = [{"from": pair(lo), "part": part, "to": "end" if hi == TOP else pair(hi)} for lo, hi, part in ranges]
    return [json.dumps({"plan": shown}, separators=(",", ":"))]


def plan(words, files):
    """The text of the plan of the first word with the keys of spans at other partitions."""
    ends = files.plan("old", words[0])
    spans = given(words[1:])
    cuts = sorted({0, *(end for end, _ in ends), *(it for lo, hi, _ in spans for it in (lo, hi))})
    owner = lambda key: next((part for lo, hi, part in reversed(spans) if lo <= key < hi), None)
    old = lambda key: next(part for end, part in ends if key < end)
    return plan_text((lo, hi, old(lo) if owner(lo) is None else owner(lo)) for lo, hi in zip(cuts, cuts[1:]))


def parts_of(words):
    """The partitions that words write, a number or a run each."""
    parts = []
    for word in words:
        low, hyphen, high = word.partition("-")
        low, high = number_of(low), number_of(high if hyphen else low)
        if None in (low, high) or not low <= high <= 9999:
            raise Refused(f"refused {word} NoPart")
        parts += range(low, high + 1)
    return parts


def split(words):
    """The text of the plan in which partitions share the keys below a bound."""
    below = rank_of(words[0])
    if below is None:
        raise Refused(f"refused {words[0]} NoBound")
    parts = parts_of(words[1:])
    unit = 1 if below % HALF else HALF
    units = below // unit
    if units < len(parts):
        raise Refused("refused plan Few")
    starts = [-(-at * units // len(parts)) * unit for at in range(len(parts))]
    return plan_text(zip(starts, [*starts[1:], TOP], parts))


def diff(words, files):
    """The words by which the plan of the second file is made of that of the first."""
    change = Change(1, files.plan("old", words[0]), files.plan("new", words[1]))
    return [f"{bound(lo)} {bound(hi)} {part}" for lo, hi, (_, part, _) in change.moves]


def key(words):
    """The keys of rows by their names."""
    return [bound(key_of(word.encode())) for word in words]


def parsed(words):
    """The words of a command without its options, the files of `--board`, and the other options."""
    plain, boards, flags = [], [], set()
    left = iter(words)
    for word in left:
        if word.startswith("--board"):
            boards.append(word.partition("=")[2] or next(left))
        elif word.startswith("--"):
            flags.add(word)
        else:
            plain.append(word)
    return plain, boards, flags


def as_lines(command, lines):
    return lines


def as_json(command, lines):
    """The line of the object that has what the lines of a command say."""
    return [object_of(command, lines)]


def found(command, words, files, boards, flags):
    """The lines or the frames that a command writes. Those of `watch` have the form that is asked for."""
    return {
        "report": lambda: report(words, files),
        "board": lambda: files.board(*words).lines(),
        "status": lambda: status(words, files, boards, flags),
        "watch": lambda: watch(words, files, flags),
        "route": lambda: route(words, files, boards, flags),
        "legs": lambda: legs(words, files, boards),
        "merge": lambda: files.board(*words).pieces(),
        "beyond": lambda: beyond(words, files),
        "digest": lambda: digest(words, files),
        "repair": lambda: repair(words, files),
        "plan": lambda: plan(words, files),
        "split": lambda: split(words),
        "diff": lambda: diff(words, files),
        "key": lambda: key(words),
    }[command]()


def answer(words, files):
    """What the program writes to standard output and standard error, and its status."""
    plain, boards, flags = parsed(words[1:])
    in_form = as_json if "--json" in flags and words[0] != "watch" else as_lines
    try:
        shown = found(words[0], plain, files, boards, flags)
        told = in_form(words[0], list(shown))
    except Refused as why:
        line = "".join(f"{it}\n" for it in in_form(words[0], [why.line])).encode()
        if why.status == 1 and words[0] in WRITE_BYTES:
            return b"", b"squall: " + line, 1
        return (b"", line, why.status) if why.status == 2 else (line, b"", why.status)
    if "--quiet" in flags:
        return b"", b"", int(bool(told))
    return b"".join(it if isinstance(it, bytes) else f"{it}\n".encode() for it in told), b"", getattr(shown, "status", 0)
