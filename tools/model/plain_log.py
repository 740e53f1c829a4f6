"""Logs of what nodes did, as docs/AUDIT.md says: plain_audit.py judges them."""
from __future__ import annotations

import json
import re
from pathlib import Path
from typing import NamedTuple

from plain_board import Refused, bound, number_of, plan_of, rank_of, span
from plain_frames import TOP

# The forms of lines, by the role of the node. A word in small letters is written as it is. A plan is its JSON text on one line.
HEARD = ["heard loaded N S P LO HI", "heard done N S P", "heard opened N S", "heard issued N OLD NEW"]
FORMS = {
    "leader": ["begin N C NEW", "begin-from N C OLD NEW", "open S", *HEARD],
    "part": [
        "give LO HI to P course N sub S",
        "load LO HI from P course N sub S HOW",
        "forget LO HI to P course N",
        "done N S",
        "close N",
        "serve K after A held",
        "serve K after A moved P N",
        "serve K after A pending P",
        "serve K after A behind",
        "serve K after A elsewhere P",
        *HEARD,
    ],
    "router": ["route K P", *HEARD],
}
# The least and the greatest value of each number.
NUMBERS = {"N": (1, 2**32 - 1), "A": (0, 2**32 - 1), "C": (0, 2**32 - 1), "S": (0, 9999), "P": (0, 9999)}

# A plan is its ranges: the rank at which each ends, and its partition.
Plan = list[tuple[int, int]]
Value = int | str | Plan


class Malformed(Exception):
    """A file of another form: why, and in which line."""

    def __init__(self, file: str, at: int, why: str) -> None:
        super().__init__(f"{file} {at}: {why}")


class Line(NamedTuple):
    """A line: its number in the file, its form and the values of the words in capitals."""

    at: int
    form: str
    values: dict[str, Value]

    def number(self, name: str) -> int:
        """A number, a key or a bound of the line."""
        value = self.values[name]
        assert isinstance(value, int)
        return value

    def plan(self, name: str) -> Plan:
        """A plan of the line."""
        value = self.values[name]
        assert isinstance(value, list)
        return value

    def rest(self, first: int) -> str:
        """The words from one on, numbers without leading zeros."""
        return " ".join(self.word(it) for it in self.form.split()[first:])

    def word(self, name: str) -> str:
        """A word of the line, of which the form has the name."""
        if name in ("LO", "HI", "K"):
            return str(bound(self.number(name)))
        return "PLAN" if name in ("OLD", "NEW") else str(self.values.get(name, name))

    def span(self) -> str:
        """The span of the line, as squall writes it."""
        return span(self.number("LO"), self.number("HI"))


class Log(NamedTuple):
    """What one node did: its file, its name in a world, and its lines."""

    file: str
    node: str
    lines: list[Line]


def words_of(text: str) -> list[str]:
    """The words of a line. A word that begins with `{` is a text in JSON."""
    words, rest = [], text.strip()
    while rest:
        end = json.JSONDecoder().raw_decode(rest)[1] if rest[0] == "{" else re.match(r"\S+", rest).end()  # type: ignore[union-attr]
        words.append(rest[:end])
        rest = rest[end:].lstrip()
    return words


def read_plan(text: str) -> Plan:
    """The plan of a text in JSON."""
    try:
        ranges: Plan = plan_of(text)
    except Refused as fault:
        raise ValueError(f"no plan: {fault.line}") from None
    except (KeyError, TypeError, IndexError):
        raise ValueError("no plan: Json") from None
    return ranges


def read_word(name: str, word: str) -> Value:
    """The value of a word that a form names in capitals."""
    if name in ("OLD", "NEW"):
        return read_plan(word)
    if name == "HOW" and word in ("new", "again"):
        return word
    value: int | None = number_of(word) if name in NUMBERS else rank_of(word) if name != "HOW" else None
    least, most = NUMBERS.get(name, (0, TOP - 1 if name == "K" else TOP))
    if value is None or not least <= value <= most:
        raise ValueError(f"`{word[:40]}` is no {name}")
    return value


def is_of(form: str, words: list[str]) -> bool:
    """Whether the words are as many as those of the form, and the small ones are the same."""
    wanted = form.split()
    return len(wanted) == len(words) and all(it.isupper() or it == word for it, word in zip(wanted, words))


def read_line(at: int, text: str, role: str) -> Line:
    """A line of a node of this role."""
    words = words_of(text)
    form = next((it for it in FORMS[role] if is_of(it, words)), None)
    if form is None:
        raise ValueError(f"no line of a {role}")
    values = {name: read_word(name, word) for name, word in zip(form.split(), words) if name.isupper()}
    line = Line(at, form, values)
    if "LO" in values and line.number("LO") >= line.number("HI"):
        raise ValueError(f"the span {line.span()} has no key")
    return line


def read_node(text: str) -> tuple[str, str]:
    """The role and the name in a world of the node of a first line."""
    match = re.fullmatch(r"node (?:(leader)|(part|router) (\d{1,4}))", " ".join(text.split()))
    if match is None:
        raise ValueError("the first line is `node leader`, `node part P` or `node router R`")
    if match[1]:
        return "leader", "l"
    if match[2] == "router" and int(match[3]) > 999:
        raise ValueError("a router's number is at most 999")
    return match[2], f"{match[2][0]}{int(match[3])}"


def read_log(file: str, text: str) -> Log:
    """The log of a file with that text. Lines without words, and those that begin with `#`, are passed over."""
    node, role, lines = None, "", []
    for at, line in enumerate(text.splitlines(), 1):
        if not line.strip() or line.strip().startswith("#"):
            continue
        try:
            if node is None:
                role, node = read_node(line)
            else:
                lines.append(read_line(at, line, role))
        except ValueError as why:
            raise Malformed(file, at, str(why)) from None
    if node is None:
        raise Malformed(file, 1, "the file has no line")
    return Log(file, node, lines)


def read_file(file: str) -> str:
    """The text of a file."""
    try:
        return Path(file).read_text(encoding="utf-8")
    except (OSError, ValueError) as why:
        raise Malformed(file, 1, f"it can't be read: {why}") from None


def read_logs(files: list[str]) -> list[Log]:
    """The logs of these files, each of another node."""
    logs = [read_log(file, read_file(file)) for file in files]
    for at, log in enumerate(logs):
        twin = next((it for it in logs[:at] if it.node == log.node), None)
        if twin is not None:
            raise Malformed(log.file, 1, f"{twin.file} is of the same node")
    return logs


def first_plan(file: str) -> Plan:
    """The plan of a file."""
    try:
        return read_plan(read_file(file))
    except ValueError as why:
        raise Malformed(file, 1, str(why)) from None


def bounds_of(line: Line) -> set[int]:
    """The ranks at which the line tells keys apart."""
    ranks = {line.number(it) for it in ("LO", "HI") if it in line.values}
    ranks |= {rank for it in ("OLD", "NEW") if it in line.values for rank, _ in line.plan(it)}
    return ranks | ({line.number("K"), line.number("K") + 1} if "K" in line.values else set())
