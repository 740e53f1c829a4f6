"""Partitions on servers of their own, on loopback."""

from __future__ import annotations

import itertools
from contextlib import closing
from pathlib import Path
from typing import Any, Dict, List, Optional, Sequence, Tuple

import psycopg2

# The servers are those of the transports' tests.
from tests.servers import Postgres

from squall import END, Course, Plan, Rank
from squall_bus import open_bus
from squall_bus.bus import KeepingBus
from squall_postgresql import Job, Mover, Pace, Partition
from squall_postgresql.partition import OPTIONS

# The machine may be busy with much else.
OPTIONS["connect_timeout"] = 60
#: What the tables of the tests are.
TABLES = """
create table public.notes (
  root bigint not null, second bigint not null, v text, n bigint not null default 0,
  primary key (root, second)
);
create table public.entries (
  root bigint not null, second bigint not null, at bigint not null, word text not null,
  primary key (root, second, at)
);
"""
_EMPTY = """
set role squall_mover;
truncate squall.state, squall.moves, squall.legs, squall.seen, squall.clock, squall_rows.notes,
  squall_rows.entries;
"""
#: Plans between which courses go to and fro. There is more than one sub-plan.
WEST = [(0, 400, 1), (400, 700, 2), (700, None, 3)]
EAST = [(0, 250, 3), (250, 550, 1), (550, 800, 2), (800, None, 1)]


def plan(ranges: Sequence[Tuple[int, Optional[int], int]]) -> Plan:
    """The plan of ranges of roots."""
    return Plan.of(
        (Rank(lo, 0), END if hi is None else Rank(hi, 0), part) for lo, hi, part in ranges
    )


PLANS = [plan(WEST), plan(EAST)]


def course(number: int) -> Course:
    """The courses go from the first plan to the second, and back."""
    return Course(number, PLANS[number % 2], PLANS[1 - number % 2])


class Server(Postgres):
    """A server with a database from which partitions are made."""

    def __init__(self) -> None:
        super().__init__()
        self.start()
        execute(self.url(), "create role app login")
        url = self.database("like_it")
        execute(url, TABLES)
        with closing(Partition(0, url)) as it:
            it.setup([])
            # Twice: an operator may run it again.
            it.setup(["public.notes", "public.entries"])
        execute(url, "grant squall_app to app")

    def database(self, name: str, *words: str) -> str:
        """Makes one: its address."""
        execute(self.url(), " ".join(["create database", name, *words]))
        return f"{self.url().rpartition('/')[0]}/{name}"


class Deployment:
    """Three partitions and a bus: databases of one server, or servers of their own."""

    _count = itertools.count()

    def __init__(self, server: Optional[Server] = None) -> None:
        """With a server all are there, and stay there in the end."""
        self.servers: List[Server] = []
        self.addresses: Dict[int, str] = {}
        #: The same for programs, whose role has no rights but those of the guard.
        self.apps: Dict[int, str] = {}
        own = next(self._count)
        for part in (1, 2, 3):
            url = self._server(server).database(f"p{part}_{own}", "template like_it")
            self.addresses[part] = url
            self.apps[part] = url.replace("squall@", "app@")
        self.bus = self._server(server).database(f"bus_{own}")
        keeps = open_bus(self.bus)
        assert isinstance(keeps, KeepingBus)
        keeps.setup()
        keeps.close()

    def _server(self, given: Optional[Server]) -> Server:
        if given is not None:
            return given
        self.servers.append(Server())
        return self.servers[-1]

    def empty(self) -> None:
        """Leaves no row and no course."""
        for url in self.addresses.values():
            execute(url, _EMPTY)
        execute(self.bus, "truncate squall_frames")

    def begin(self) -> None:
        """Begins course 1."""
        job = Job(1, lambda frame: None, Pace())
        Mover(Course(1, PLANS[0], PLANS[0]), self.addresses, job).init()

    def mover(self, number: int, job: Job) -> Mover:
        """The mover of a course."""
        return Mover(course(number), self.addresses, job)

    def remove(self) -> None:
        """Ends its own servers."""
        for server in self.servers:
            server.remove()


def execute(url: str, words: str, *values: object) -> List[Any]:
    """What a statement answers that knows nothing of squall."""
    with closing(psycopg2.connect(url)) as connection:
        connection.autocommit = True
        with connection.cursor() as cursor:
            cursor.execute(words, values or None)
            return list(cursor.fetchall()) if cursor.description else []


def write_plans(folder: str) -> Tuple[str, str]:
    """The files of both plans."""
    west, east = Path(folder, "west.json"), Path(folder, "east.json")
    west.write_bytes(PLANS[0].text)
    east.write_bytes(PLANS[1].text)
    return str(west), str(east)
