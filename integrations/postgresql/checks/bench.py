"""What the guard costs: `python3 -m checks.bench` prints a table of it, on a machine at rest."""

from __future__ import annotations

import io
import random
import sys
import threading
import time
from typing import Any, Callable, List, Tuple

import psycopg2

from squall import Rank
from squall_bus import open_bus
from squall_postgresql import Client, Job, Pace, Routes
from squall_postgresql.pace import Progress

from .deploy import PLANS, Deployment, execute

_SECONDS = 10.0
_THREADS = 8
#: One row for each of these keys of each root.
_SECONDS_OF_ROOT = 20
_FILL = (
    "set role squall_mover; insert into {} select r, s, repeat('x', 100), 0"
    " from generate_series(%s, %s) r, generate_series(1, %s) s"
)
_READ = "select v, n from public.{} where root = %s and second = %s"
_WRITE = "update public.{} set n = n + 1 where root = %s and second = %s"

#: Does a statement on a key: whether it reads.
Act = Callable[[Rank, bool], Any]


def fill(deployment: Deployment) -> None:
    """Rows as the first plan has them, and a table beside them that nothing guards."""
    for part, lo, hi in ((1, 0, 399), (2, 400, 699), (3, 700, 999)):
        url = deployment.addresses[part]
        execute(url, _FILL.format("squall_rows.notes"), lo, hi, _SECONDS_OF_ROOT)
        execute(url, "create table public.plain as select * from squall_rows.notes")
        execute(url, "alter table public.plain add primary key (root, second)")
        execute(url, "grant select, update on public.plain to app; analyze")


def measure(acts: List[Act]) -> Tuple[int, float, float]:
    """How many statements a second there are, and how many milliseconds half and 99 % take."""
    times: List[List[float]] = [[] for _ in acts]
    until = time.monotonic() + _SECONDS

    def run(act: Act, own: List[float], dice: random.Random) -> None:
        while (began := time.monotonic()) < until:
            key = Rank(dice.randrange(1000), dice.randint(1, _SECONDS_OF_ROOT))
            act(key, dice.random() < 0.5)
            own.append(time.monotonic() - began)

    threads = [
        threading.Thread(target=run, args=[act, own, random.Random(at)])
        for at, (act, own) in enumerate(zip(acts, times))
    ]
    for thread in threads:
        thread.start()
    for thread in threads:
        thread.join()
    every = sorted(it for own in times for it in own)
    middle, late = every[len(every) // 2], every[len(every) * 99 // 100]
    return round(len(every) / _SECONDS), middle * 1000, late * 1000


def plain(deployment: Deployment) -> Act:
    """Without the guard, at the partition of the first plan."""
    routes = Routes(PLANS[0])
    all_of_them = {part: psycopg2.connect(url) for part, url in deployment.apps.items()}
    for it in all_of_them.values():
        it.autocommit = True

    def act(key: Rank, reads: bool) -> Any:
        part = routes.view.route(key)
        assert part is not None
        with all_of_them[part].cursor() as cursor:
            cursor.execute((_READ if reads else _WRITE).format("plain"), [key.root, key.second])
            return cursor.fetchall() if reads else cursor.rowcount

    return act


def guarded(deployment: Deployment, routes: Routes) -> Act:
    """With it."""
    client = Client(deployment.apps, routes)

    def act(key: Rank, reads: bool) -> Any:
        words = (_READ if reads else _WRITE).format("notes")
        return client.execute(key, "read" if reads else "write", words, (key.root, key.second))

    return act


def main() -> None:
    """Prints the table."""
    deployment = Deployment()
    deployment.begin()
    fill(deployment)
    routes = Routes(PLANS[0], open_bus(deployment.bus))
    show("without the guard", measure([plain(deployment) for _ in range(_THREADS)]))
    show("with it", measure([guarded(deployment, routes) for _ in range(_THREADS)]))
    job = Job(2, lambda frame: None, Pace(chunk=100, rate=500))
    job.progress = Progress(io.StringIO())
    mover = threading.Thread(target=deployment.mover(2, job).run)
    mover.start()
    show("while rows move", measure([guarded(deployment, routes) for _ in range(_THREADS)]))
    print(f"{job.progress.rows} rows moved meanwhile", file=sys.stderr)
    mover.join()
    deployment.remove()


def show(name: str, found: Tuple[int, float, float]) -> None:
    """A row of the table."""
    count, middle, late = found
    print(f"| {name} | {count:,} | {middle:.1f} | {late:.1f} |", flush=True)


if __name__ == "__main__":
    main()
