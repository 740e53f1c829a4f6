"""What goes wrong at a partition, and what the guard replies."""

from __future__ import annotations

from contextlib import contextmanager
from typing import Iterator, NamedTuple, Optional

import psycopg2

#: The guard refuses a statement: the message is a reply.
_REFUSED = "SQ001"
#: A step of a mover is refused.
_STEP = "SQ002"
#: Another transaction was in the way, or the server lacks memory, disk or connections.
_PASSES = ("40001", "40P01", "55P03", "53")
#: The server ends, or the connection has.
_ENDS = ("57P", "08")


class LostError(Exception):
    """The connection was lost, or the server can't serve now. It passes."""


class BusyError(LostError):
    """Something at the server is in the way, and a step was not done."""


class StoppedError(LostError):
    """A source has stopped because another one has, which knows why."""


class StepError(Exception):
    """A partition refuses a step of a course, in the words of PROTOCOL.md."""


class Refusal(NamedTuple):
    """What the guard replies if a key is not there."""

    #: `MOVED`, `PENDING`, `ELSEWHERE`, `COURSE` or `AGAIN`.
    word: str
    #: The partition that it names.
    part: Optional[int]
    #: The number of a course that it names.
    number: Optional[int]
    #: The key of which it speaks, as root:second.
    key: str


def refusal(error: psycopg2.Error) -> Optional[Refusal]:
    """What the guard has replied, if it is that."""
    if error.pgcode != _REFUSED:
        return None
    word, *numbers = (error.diag.message_primary or "").split()
    values = [int(it) for it in numbers]
    key = (error.diag.message_detail or "").rpartition(" ")[2]
    if word == "COURSE":
        return Refusal(word, None, values[0], key)
    part = values[0] if values else None
    return Refusal(word, part, values[1] if len(values) > 1 else None, key)


def is_busy(error: psycopg2.Error) -> bool:
    """Whether the same transaction may be done again, since it was not done."""
    return error.pgcode is not None and error.pgcode.startswith(_PASSES)


def is_lost(error: psycopg2.Error) -> bool:
    """Whether the connection has ended."""
    if error.pgcode is None:
        return isinstance(error, (psycopg2.OperationalError, psycopg2.InterfaceError))
    return str(error.pgcode).startswith(_ENDS)


@contextmanager
def steps_of(name: str) -> Iterator[None]:
    """Turns the faults of psycopg2 into those of a partition of that name."""
    try:
        yield
    except psycopg2.Error as error:
        said = f"{name}: {first_line(error)}"
        if error.pgcode == _STEP:
            raise StepError(said) from error
        if is_busy(error):
            raise BusyError(said) from error
        if is_lost(error):
            raise LostError(said) from error
        raise


def first_line(error: Exception) -> str:
    """The first line of what an error says."""
    lines = str(error).splitlines()
    return lines[0] if lines else "the server has ended the connection"
