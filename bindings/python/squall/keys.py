"""Keys, bounds, legs and spans."""

from __future__ import annotations

import operator
import re
from typing import TYPE_CHECKING, Callable, NamedTuple, Tuple

from . import _library as lib
from ._buffers import Lent
from ._fork import REFUSED, refuse
from .errors import NumberError

if TYPE_CHECKING:
    from _typeshed import ReadableBuffer

_WORD = 0xFFFFFFFF
_RANK = 0xFFFFFFFFFFFFFFFF
_PAIR = re.compile("([0-9]{1,10}):([0-9]{1,10})")


def _whole(most: int, name: str = "") -> Callable[[int], int]:
    """A check that a number is from 0 to `most`, which returns it.

    It raises `NumberError` if it is not, and `TypeError` if it is no whole number.
    """

    def check(number: int) -> int:
        number = operator.index(number)
        if not 0 <= number <= most:
            raise NumberError(f"{name}{number} is not from 0 to {most}")
        return number

    return check


#: A number of 32 bits: the library looks whether it is within its limits.
word = _whole(_WORD)
#: A number of 64 bits: the library looks whether it is the rank of a key.
rank = _whole(_RANK, "the rank ")
#: A number of 64 bits.
wide = _whole(_RANK)


class Rank(int):
    """A key or a bound, as the number by which keys are ordered.

    That of root:second is `root * 2**32 + second`. The ranks below `END` are keys. A `Rank` is an
    `int`, and a call that takes a key takes any `int`.

    >>> Rank(2, 7)
    Rank(2, 7)
    >>> int(Rank(2, 7)), str(Rank(2, 7)), str(END)
    (8589934599, '2:7', 'end')
    >>> Rank.of(8589934599) == Rank.parse("2:7") == Rank(2, 7)
    True
    """

    __slots__ = ()

    def __new__(cls, root: int, second: int) -> Rank:
        """The rank of root:second. Raises `NumberError` if one has no 32 bits."""
        return super().__new__(cls, word(root) << 32 | word(second))

    @classmethod
    def of(cls, number: int) -> Rank:
        """The rank that is this number. Raises `NumberError` if it has no 64 bits."""
        return int.__new__(cls, rank(number))

    @classmethod
    def parse(cls, text: str) -> Rank:
        """The rank of a text `root:second`, or `end`. Raises `NumberError` if it is none."""
        if text == "end":
            return END
        pair = _PAIR.fullmatch(text)
        if pair is None:
            raise NumberError(f"{text!r} is no root:second")
        return cls(int(pair[1]), int(pair[2]))

    @property
    def root(self) -> int:
        """The first number of the pair."""
        return int(self) >> 32

    @property
    def second(self) -> int:
        """The second number of the pair."""
        return int(self) & _WORD

    def __getnewargs__(self) -> Tuple[int, int]:  # type: ignore[override]
        return self.root, self.second

    def __repr__(self) -> str:
        return f"Rank({self.root}, {self.second})"

    def __str__(self) -> str:
        return "end" if self == END else f"{self.root}:{self.second}"


#: The end of all keys, and no key itself.
END = Rank(0xFFFFFFFF, 0)

#: No partition: what `View.routes` writes for a rank that is no key's.
NOWHERE = 0xFFFFFFFF


def key_of(row: ReadableBuffer) -> Rank:
    """The key to which a row belongs whose own key is these bytes.

    All programs of a deployment have to map a row to the same key, and this is the map. Bytes that
    begin with two numbers, as `2:7` or `2:7:cart`, belong to the key of these numbers. A number has
    1 to 10 decimal digits and is at most 4294967295, the first one at most 4294967294. All other
    bytes belong to the key of a hash. It is that of the bytes between the first `{` and the next
    `}` after it, if there is at least one, or else that of all bytes.

    >>> key_of(b"2:7:cart")
    Rank(2, 7)
    >>> key_of(b"cart{17}") == key_of(b"basket{17}")
    True

    Raises `TypeError` if the object has no bytes, as a `str`, and `BufferError` or `ValueError` if
    they do not follow each other in memory.
    """
    if REFUSED:
        refuse()
    with Lent(row) as lent:
        return Rank.of(lib.key_of(lent.at, lent.size))


class Leg(NamedTuple):
    """The keys from `lo` on, below `hi`, are to be asked for at the partition `part`."""

    #: The first key.
    lo: Rank
    #: Where the keys end: a key, or `END`.
    hi: Rank
    #: The partition, from 0 to 9999.
    part: int

    def __str__(self) -> str:
        return f"[{self.lo},{self.hi}) {self.part}"


class Span(NamedTuple):
    """The keys from `lo` on, below `hi`."""

    #: The first key.
    lo: Rank
    #: Where the keys end: a key, or `END`.
    hi: Rank

    def __str__(self) -> str:
        return f"[{self.lo},{self.hi})"
