"""Frames in a table of PostgreSQL, with NOTIFY to wake readers."""

from __future__ import annotations

from contextlib import contextmanager
from pathlib import Path
from typing import Any, Iterator, List, Optional

import psycopg2

from .bus import BusError, KeepingBus, Merged, Message, TooLarge
from .pieces import is_delta, joined
from .seal import Letters
from .sockets import is_readable

_SETUP = Path(__file__).with_name("postgres.sql")
#: The deployment's name, with which the table's begins, and the table.
_NAME, _TABLE = "squall", "squall_frames"
#: How many frames are read at once.
_AT_ONCE = 64
#: A server that does not answer is given up after some ten seconds.
_OPTIONS = {
    "connect_timeout": 5,
    "keepalives_idle": 5,
    "keepalives_interval": 2,
    "keepalives_count": 3,
    "tcp_user_timeout": 10000,
    "application_name": "squall",
}


class PostgresBus(KeepingBus):
    """Keeps each frame in a row. `place` is the id of the row that was read last."""

    def __init__(self, url: str, secret: Optional[bytes] = None) -> None:
        """A bus in the database of this address, as libpq reads it: `postgres://..`.

        With a secret each frame is sealed, and one of anybody else is passed over.
        """
        self._url = url
        self._letters = Letters(secret, _NAME)
        self._connection: Any = None
        #: Whether nothing was read over this connection.
        self._is_new = True

    @property
    def foreign(self) -> int:
        """How many frames were passed over."""
        return self._letters.foreign

    def connect(self) -> None:
        if self._connection is None:
            with _faults():
                self._connection = psycopg2.connect(self._url, **_OPTIONS)
                self._connection.autocommit = True
                self._do("listen squall_frames")
                self._is_new = True

    def close(self) -> None:
        if self._connection is not None:
            self._connection.close()
            self._connection = None

    def setup(self) -> None:
        """Makes the table and its procedures."""
        self.connect()
        with _faults():
            self._do(_SETUP.read_text("utf-8"))

    def send(self, frame: bytes) -> None:
        with _faults():
            self._do("call squall_append(array[%s::bytea])", self._letters.closed(_TABLE, frame))

    def hear(self, seconds: float) -> List[Message]:
        with _faults():
            rows = self._rows()
            if not rows and self._wakes(seconds):
                rows = self._rows()
        if rows:
            self.place = rows[-1][0]
        opened = (self._opened(frame, answered) for _, frame, answered in rows)
        return [Message(frame) for frame in opened if frame is not None]

    def merge(self) -> Merged:
        """Does it in one transaction."""
        with _faults(), self._transaction():
            self._do("call squall_turn()")
            rows = self._ask("delete from squall_frames returning frame, re")
            opened = (self._opened(frame, answered) for frame, answered in rows)
            good = [frame for frame in opened if frame is not None and is_delta(frame)]
            board = joined(good)
            closed = [self._letters.closed(_TABLE, frame) for frame in board]
            self._do("call squall_append(%s::bytea[])", closed)
        return Merged(len(rows), len(rows) - len(good), len(board))

    def _opened(self, frame: Any, answered: Optional[str]) -> Optional[bytes]:
        """The frame of a row, or None if it is passed over. A repair names what it answers."""
        return self._letters.opened(_TABLE, bytes(frame), answered)

    @contextmanager
    def _transaction(self) -> Iterator[None]:
        self._connection.autocommit = False
        try:
            with self._connection:
                yield
        finally:
            self._connection.autocommit = True

    def _rows(self) -> List[Any]:
        """The next rows. If the table is older than the place, they are its first ones."""
        if self._is_new:
            ((newest,),) = self._ask("select coalesce(max(id), 0) from squall_frames")
            self.place = self.place if self.place <= newest else 0
            self._is_new = False
        return self._ask(
            "select id, frame, re from squall_frames where id > %s order by id limit %s",
            self.place,
            _AT_ONCE,
        )

    def _wakes(self, seconds: float) -> bool:
        """Whether a transaction has notified within the time."""
        connection = self._connection
        if not connection.notifies:
            is_readable(connection, seconds)
            connection.poll()
        woken = bool(connection.notifies)
        connection.notifies.clear()
        return woken

    def _do(self, words: str, *values: object) -> None:
        with self._connection.cursor() as cursor:
            cursor.execute(words, values or None)

    def _ask(self, words: str, *values: object) -> List[Any]:
        with self._connection.cursor() as cursor:
            cursor.execute(words, values or None)
            rows: List[Any] = cursor.fetchall()
        return rows


@contextmanager
def _faults() -> Iterator[None]:
    """Turns the faults of psycopg2 into those of a bus."""
    try:
        yield
    except psycopg2.errors.ProgramLimitExceeded as error:
        raise TooLarge(str(error).strip()) from error
    except psycopg2.Error as error:
        lines = str(error).splitlines()
        raise BusError(lines[0] if lines else "the server has ended the connection") from error
