"""Statements at the partition that has their key."""

from __future__ import annotations

import random
import threading
import time
from typing import Any, Callable, Dict, Mapping, Optional, Sequence, TypeVar

import psycopg2

from squall import Errand, Next, Rank, Reply

from .errors import Refusal, first_line, is_busy, is_lost, refusal
from .partition import OPTIONS
from .routes import Routes

T = TypeVar("T")

#: How long a client waits before it asks again: at first, and at most.
_FIRST, _MOST = 0.002, 0.1
_REPLIES = {"MOVED": Reply.MOVED, "PENDING": Reply.PENDING, "ELSEWHERE": Reply.ELSEWHERE}


class AwayError(Exception):
    """No partition has done it in time. It was not done."""


class UnknownError(Exception):
    """The connection was lost before the answer came: it is not known whether it was done."""


class Client:
    """Connections to all partitions. One thread uses it; threads may share the `Routes`."""

    def __init__(
        self, addresses: Mapping[int, str], routes: Routes, patience: float = 30.0
    ) -> None:
        """It waits at most `patience` seconds until a partition has done what it asks."""
        self._addresses = dict(addresses)
        self.routes = routes
        self._patience = patience
        self._connections: Dict[int, Any] = {}
        #: How often a partition sent this client on, or let it wait.
        self.refusals = 0

    def close(self) -> None:
        """Ends all connections."""
        for part in list(self._connections):
            self._drop(part)

    def execute(self, key: Rank, mode: str, words: str, values: Sequence[object] = ()) -> Any:
        """The rows that one statement answers, or how many it has changed if it answers none.

        The mode is `read` or `write`: a read may be done again if its answer was lost. The key's
        name and the statement go to the server together, in one transaction. Raises `AwayError`,
        `UnknownError`, and any other fault of the statement.
        """

        def act(connection: Any) -> Any:
            with connection.cursor() as cursor:
                named = "select squall.name_key(%s, %s);" + words
                cursor.execute(named, [key.root, key.second, *values])
                return cursor.fetchall() if cursor.description else cursor.rowcount

        return self._find(key, act, mode == "read")

    def transact(self, keys: Sequence[Rank], act: Callable[[Any], T], mode: str = "write") -> T:
        """What `act` answers, which does statements of one transaction by a cursor.

        All keys have to be at one partition; else the client waits until they are. `act` is called
        again if the transaction was not done. Raises what `execute` raises.
        """

        def once(connection: Any) -> T:
            with connection.cursor() as cursor:
                cursor.execute("begin")
                for key in keys:
                    words = [key.root, key.second, mode]
                    cursor.execute("select squall.guard(%s, %s, %s)", words)
                done = act(cursor)
                committing.set()
                cursor.execute("commit")
            return done

        def whole(connection: Any) -> T:
            committing.clear()
            try:
                return once(connection)
            except BaseException:
                _roll_back(connection)
                raise

        committing = threading.Event()
        return self._find(keys[0], whole, mode == "read", committing)

    # ---- to find the partition

    def _find(
        self,
        key: Rank,
        act: Callable[[Any], T],
        is_safe: bool,
        committing: Optional[threading.Event] = None,
    ) -> T:
        """What the partition answers that has the key. `is_safe`: it may be done twice."""
        until, pause = time.monotonic() + self._patience, _FIRST
        errand, said = self.routes.view.errand(key), ""
        while True:
            connection, step = None, Next.AGAIN
            try:
                connection = self._connect(errand.asked)
                done = act(connection)
                if errand.number > 0 and self.routes.is_due():
                    self._learn(errand.asked)
                return done
            except psycopg2.Error as error:
                said = f"partition {errand.asked}: {first_line(error)}"
                refused = refusal(error)
                if refused is not None:
                    self.refusals += 1
                    step = self._heed(errand, key, refused)
                elif is_lost(error):
                    self._drop(errand.asked)
                    may_be_done = committing is None or committing.is_set()
                    if connection is not None and may_be_done and not is_safe:
                        raise UnknownError(said) from error
                elif not is_busy(error):
                    raise
            if time.monotonic() > until:
                raise AwayError(f"key {key}: {said}")
            if step is not Next.ASK:
                time.sleep(random.uniform(pause / 2, pause))
                pause = min(2 * pause, _MOST)
            if step is Next.LOST:
                errand = self.routes.view.errand(key)

    def _heed(self, errand: Errand, key: Rank, refused: Refusal) -> Next:
        """What to do after a reply of the guard."""
        reply = _REPLIES.get(refused.word)
        if reply is not None and refused.key == str(key):
            return errand.heed(reply, refused.part, refused.number)
        if refused.word == "COURSE":
            # It is in another course: the partition may know of one that this program does not.
            self._learn(errand.asked)
            return Next.LOST
        # Another key of the transaction is elsewhere, or the snapshot was too early.
        return Next.AGAIN

    def _learn(self, part: int) -> None:
        try:
            with self._connect(part).cursor() as cursor:
                self.routes.learn(cursor)
        except psycopg2.Error:
            self._drop(part)

    # ---- connections

    def _connect(self, part: int) -> Any:
        found = self._connections.get(part)
        if found is None:
            found = psycopg2.connect(self._addresses[part], **OPTIONS)
            found.autocommit = True
            self._connections[part] = found
        return found

    def _drop(self, part: int) -> None:
        found = self._connections.pop(part, None)
        if found is not None:
            found.close()


def _roll_back(connection: Any) -> None:
    """Ends a transaction that was not done. If the connection is lost, the server ends it."""
    try:
        with connection.cursor() as cursor:
            cursor.execute("rollback")
    except psycopg2.Error:
        pass
