"""Plans."""

from __future__ import annotations

import json
from operator import index
from typing import Dict, Iterable, Tuple, Union

from .errors import PlanError
from .keys import END

#: The keys of a partition: `(lo, hi, part)`, from the rank `lo` on, below `hi`. A `Leg` is one.
Range = Tuple[int, int, int]


class Plan:
    """The text of a plan, which gives each key to exactly one partition.

    A `Plan` only holds a text. Whether it is a plan is for the library to say, if a router or a
    course is opened with it, if a router is given it, or if `check` is called.

    >>> halves = Plan.of([(0, Rank(5, 0), 1), (Rank(5, 0), END, 2)])
    >>> print(halves)
    {"plan":[{"part":1,"from":[0,0],"to":[5,0]},{"part":2,"from":[5,0],"to":"end"}]}
    >>> Plan(str(halves)) == halves
    True
    >>> Plan.of([(0, Rank(5, 0), 1)]).check()
    Traceback (most recent call last):
    squall.errors.PlanError: the text is no plan: Gap 5:0: this key is in no range
    """

    __slots__ = ("_text",)

    _text: bytes

    def __init__(self, text: PlanText) -> None:
        """A plan with a copy of this text of JSON, in the form of docs/FORMATS.md."""
        if isinstance(text, Plan):
            self._text = text._text
        elif isinstance(text, str):
            # Half of a surrogate pair becomes bytes that are no UTF-8, which the library refuses.
            self._text = str.encode(text, "utf-8", "surrogatepass")
        else:
            self._text = bytes(memoryview(text))

    @classmethod
    def of(cls, ranges: Iterable[Range]) -> Plan:
        """The plan of these ranges, `(lo, hi, part)` each, in any order.

        Whether each key lies in exactly one of them is for the library to say. Raises `TypeError`
        if something is no whole number.
        """
        entries = [_entry(*it) for it in ranges]
        return cls(json.dumps({"plan": entries}, separators=(",", ":")))

    @property
    def text(self) -> bytes:
        """The text, as bytes of UTF-8."""
        return self._text

    def check(self) -> None:
        """Raises `PlanError` if the text is no plan. Costs as much as to open a router."""
        # Routers know plans, so that this module can't import theirs when it is loaded.
        from .router import Router  # pylint: disable=import-outside-toplevel,cyclic-import

        try:
            Router(1, self, self).close()
        except PlanError as error:
            raise PlanError(None, error.fault, error.index, error.bound) from None

    def __eq__(self, other: object) -> bool:
        if not isinstance(other, Plan):
            return NotImplemented
        return self._text == other._text

    def __hash__(self) -> int:
        return hash(self._text)

    def __str__(self) -> str:
        return self._text.decode("utf-8", "backslashreplace")

    def __repr__(self) -> str:
        return f"<Plan of {len(self._text)} bytes>"


#: What is taken for a plan: one, or its text.
PlanText = Union[Plan, str, bytes, bytearray, memoryview]


def _bound(rank: int) -> object:
    """How JSON writes a bound."""
    return "end" if rank == END else divmod(index(rank), 1 << 32)


def _entry(lo: int, hi: int, part: int) -> Dict[str, object]:
    """How JSON writes a range."""
    return {"part": index(part), "from": divmod(index(lo), 1 << 32), "to": _bound(hi)}
