"""A mover's connection to a partition."""

from __future__ import annotations

import io
import json
import time
from contextlib import contextmanager
from pathlib import Path
from typing import Any, Callable, Dict, Iterator, List, NamedTuple, Sequence, Tuple, TypeVar

import psycopg2
from psycopg2 import sql

from squall import Course, Rank, Span

from .errors import BusyError, StepError, steps_of

T = TypeVar("T")

_FILES = ("state", "guard", "steps", "tables")
#: A place is a rank less this, since bigint has a sign.
_OFFSET = 1 << 63
#: A server that does not answer is given up after some ten seconds.
OPTIONS = {
    "connect_timeout": 5,
    "keepalives_idle": 5,
    "keepalives_interval": 2,
    "keepalives_count": 3,
    "tcp_user_timeout": 10000,
}
#: A step that was answered is on the disk.
_SETTINGS = "set role squall_mover; set synchronous_commit = on"
#: For how many seconds a step waits for statements in flight, which keeps others back: at first,
#: and at most. In between it lets others go on for a while, so no long transaction stops them all.
_WAIT, _MOST_WAIT, _BETWEEN = 0.5, 8.0, 0.2
#: How often it waits.
_TRIES = 20


def place_of(rank: int) -> int:
    """The place of a rank, as SQL has it."""
    return int(rank) - _OFFSET


def rank_of(place: int) -> Rank:
    """The rank of a place."""
    return Rank.of(place + _OFFSET)


class Step(NamedTuple):
    """What a step of a move has come to."""

    #: Up to where the keys are given, loaded or forgotten now.
    edge: Rank
    #: The partition's generation.
    generation: int


class Stand(NamedTuple):
    """How far a move is at one of its ends."""

    edge: Rank
    forgot: Rank


class Partition:
    """One connection. One thread uses it."""

    def __init__(self, part: int, address: str) -> None:
        """The partition of that number, at the address of a database. Raises `LostError`."""
        self.part = part
        self.name = f"partition {part}"
        with steps_of(self.name):
            self._connection: Any = psycopg2.connect(
                address, application_name="squall mover", **OPTIONS
            )
            self._connection.autocommit = True
            #: The tables whose rows move, and their columns.
            self._tables: List[Tuple[str, List[str]]] = []

    def enter(self) -> "Partition":
        """Takes the mover's role. Raises `LostError` and `StepError`."""
        with steps_of(self.name), self._connection.cursor() as cursor:
            try:
                cursor.execute(_SETTINGS)
                self._set_wait(_MOST_WAIT)
            except psycopg2.errors.UndefinedObject as error:
                raise StepError(f"{self.name} is not set up") from error
        return self

    def close(self) -> None:
        """Ends the connection."""
        self._connection.close()

    def setup(self, tables: Sequence[str]) -> None:
        """Makes what a partition needs, and puts tables under the guard, as a superuser."""
        here = Path(__file__).resolve().parent
        with self._transaction() as cursor:
            for name in _FILES:
                cursor.execute((here / f"{name}.sql").read_text("utf-8"))
            for table in tables:
                cursor.execute("select squall.adopt(%s::regclass)", [table])

    # ---- a course

    def begin_fault(self, course: Course, is_fresh: bool) -> str:
        """Why the course may not begin here, or `again` if it has begun, or nothing."""
        words = [self.part, course.number, course.old_text(), course.new_text(), is_fresh]
        (said,) = self._ask("select squall.begin_fault(%s, %s, %s, %s, %s)", *words)
        return said or ""

    def begin(self, course: Course, is_fresh: bool) -> int:
        """Begins the course: the partition's generation. Raises `StepError`."""
        legs = [[place_of(it.lo), place_of(it.hi)] for it in self._legs(course)]
        moves = [
            [place_of(it.lo), place_of(it.hi), *self._role(it.source, it.dest)]
            for it in course.moves()
        ]
        words = [self.part, course.number, course.old_text(), course.new_text(), is_fresh]
        words += [json.dumps(legs), json.dumps(moves)]
        begin = "select squall.begin(%s, %s, %s, %s, %s, %s, %s)"
        (generation,) = self._patiently(lambda: self._ask(begin, *words))
        return int(generation)

    def _legs(self, course: Course) -> List[Any]:
        return [it for it in course.new_plan() if it.part == self.part]

    def _role(self, source: int, dest: int) -> Tuple[str, int]:
        if source == self.part:
            return "out", dest
        return ("in", source) if dest == self.part else ("none", source)

    def tell(self, number: int, issue: bytes) -> None:
        """Stores the frame by which routers learn of the course."""
        self._ask("select squall.tell(%s, %s)", number, issue)

    def generation(self) -> int:
        """How many steps it has done. 0 before the first."""
        (count,) = self._ask("select coalesce(max(generation), 0) from squall.clock")
        return int(count)

    def seen(self) -> Dict[int, int]:
        """The highest generation that it has seen of each other partition."""
        with steps_of(self.name), self._connection.cursor() as cursor:
            cursor.execute("select part, generation from squall.seen")
            return dict(cursor.fetchall())

    def progress(self) -> List[str]:
        """A line for each move of its course, and one for the course."""
        with steps_of(self.name), self._connection.cursor() as cursor:
            cursor.execute("select number from squall.state")
            lines = [f"{self.name}: course {number}" for (number,) in cursor.fetchall()]
            cursor.execute("select role, peer, lo, hi, edge, forgot from squall.progress")
            for role, peer, lo, hi, edge, forgot in cursor.fetchall():
                if role != "none":
                    gone = f", forgotten below {forgot}" if role == "out" else ""
                    lines.append(f"{role} [{lo},{hi}) {peer}: done below {edge}{gone}")
        return lines

    # ---- a move

    def stand(self, number: int, lo: Rank) -> Stand:
        """How far the move is that begins there. Raises `StepError` in another course."""
        found = self._ask(
            "select m.edge, m.forgot from squall.moves m, squall.state s"
            " where m.lo = %s and s.number = %s",
            place_of(lo),
            number,
        )
        if not found:
            raise StepError(f"{self.name}: it is in another course than {number}")
        return Stand(*map(rank_of, found))

    def chunk_end(self, number: int, lo: Rank, size: int) -> Rank:
        """Where the next chunk of about so many rows ends."""
        return rank_of(
            *self._ask("select squall.chunk_end(%s, %s, %s)", number, place_of(lo), size)
        )

    def give(self, number: int, lo: Rank, edge: Rank) -> Step:
        """Gives the keys of the move below the edge. Raises `BusyError`."""
        words = "select * from squall.give(%s, %s, %s)"
        return self._patiently(lambda: self._step(words, number, lo, edge))

    def forget(self, number: int, lo: Rank, edge: Rank, loaded: int) -> Step:
        """Deletes rows that the destination has loaded in that generation."""
        return self._step("select * from squall.forget(%s, %s, %s, %s)", number, lo, edge, loaded)

    def rows(self, lo: Rank, hi: Rank) -> Dict[str, bytes]:
        """The rows of the keys from `lo` on, below `hi`, in the format of COPY."""
        found = {}
        with self._transaction() as cursor:
            for table, columns in self.tables():
                words = sql.SQL(
                    "copy (select {} from {} where (root, second) >= (%s, %s)"
                    " and (root, second) < (%s, %s)) to stdout"
                ).format(_list(columns), sql.SQL(table))
                span = [lo.root, lo.second, hi.root, hi.second]
                out = io.BytesIO()
                cursor.copy_expert(cursor.mogrify(words, span).decode(), out)
                found[table] = out.getvalue()
        return found

    def load(self, number: int, lo: Rank, chunk: Span, rows: Dict[str, bytes], given: int) -> Step:
        """Puts the rows of a chunk in place, and loads its keys, in one transaction.

        The source had given them in that generation. If another mover has done it, nothing is.
        """
        with self._transaction() as cursor:
            places = [number, place_of(lo), place_of(chunk.lo), place_of(chunk.hi)]
            cursor.execute("select squall.open_load(%s, %s, %s, %s)", places)
            (is_mine,) = cursor.fetchone()
            if is_mine:
                self._put(cursor, rows)
            edge = chunk.hi if is_mine else lo
            words = [number, place_of(lo), place_of(edge), given]
            cursor.execute("select * from squall.load(%s, %s, %s, %s)", words)
            edge_now, generation = cursor.fetchone()
        return Step(rank_of(edge_now), generation)

    def _put(self, cursor: Any, rows: Dict[str, bytes]) -> None:
        for table, columns in self.tables():
            words = sql.SQL("copy {} ({}) from stdin").format(sql.SQL(table), _list(columns))
            cursor.copy_expert(words, io.BytesIO(rows[table]))

    def tables(self) -> List[Tuple[str, List[str]]]:
        """The tables whose rows move, and their columns that are no others' results."""
        if not self._tables:
            with steps_of(self.name), self._connection.cursor() as cursor:
                cursor.execute(
                    "select t.name::regclass::text, array_agg(a.attname::text order by a.attname)"
                    " from squall.tables t join pg_attribute a on a.attrelid = t.name"
                    " where a.attnum > 0 and not a.attisdropped and a.attgenerated = ''"
                    " group by 1 order by 1"
                )
                self._tables = cursor.fetchall()
        return self._tables

    def _patiently(self, step: Callable[[], T]) -> T:
        """A step that waits for statements in flight, again and again. Raises `BusyError`."""
        seconds = _WAIT
        for _ in range(_TRIES):
            self._set_wait(seconds)
            try:
                return step()
            except BusyError:
                time.sleep(_BETWEEN)
            seconds = min(2 * seconds, _MOST_WAIT)
        return step()

    def _set_wait(self, seconds: float) -> None:
        self._ask("select set_config('lock_timeout', %s, false)", f"{int(seconds * 1000)}ms")

    def _step(self, words: str, number: int, lo: Rank, edge: Rank, *more: int) -> Step:
        edge_now, generation = self._ask(words, number, place_of(lo), place_of(edge), *more)
        return Step(rank_of(edge_now), generation)

    def _ask(self, words: str, *values: object) -> Tuple[Any, ...]:
        """The one row that a statement answers, or none."""
        with steps_of(self.name), self._connection.cursor() as cursor:
            cursor.execute(words, values)
            found: Tuple[Any, ...] = cursor.fetchone() or ()
        return found

    @contextmanager
    def _transaction(self) -> Iterator[Any]:
        with steps_of(self.name):
            self._connection.autocommit = False
            try:
                with self._connection, self._connection.cursor() as cursor:
                    yield cursor
            finally:
                if not self._connection.closed:
                    self._connection.autocommit = True


def _list(columns: List[str]) -> sql.Composed:
    return sql.SQL(", ").join(map(sql.Identifier, columns))
