"""The program `squall-postgresql`."""

from __future__ import annotations

import argparse
import sys
from contextlib import closing
from pathlib import Path
from typing import Any, Callable, Dict, List, Optional, Tuple

import psycopg2

from squall import Course, Plan, SquallError
from squall_bus import Node, open_bus

from .errors import LostError, StepError
from .feeder import Job
from .metrics import Metrics, serve
from .mover import Mover
from .pace import Pace
from .partition import Partition
from .reports import Reports


def main(words: Optional[List[str]] = None) -> int:
    """Runs a command: its status."""
    options = _parser().parse_args(words)
    try:
        status: int = options.act(options)
        return status
    except (LostError, StepError, SquallError, ValueError, OSError, psycopg2.Error) as error:
        print(f"squall-postgresql: {str(error).strip()}", file=sys.stderr)
        return 1
    except KeyboardInterrupt:
        return 130


def _parser() -> argparse.ArgumentParser:
    parser = argparse.ArgumentParser(
        prog="squall-postgresql", description="Moves rows between servers of PostgreSQL."
    )
    commands = parser.add_subparsers(required=True, metavar="COMMAND")

    def add(name: str, act: Callable[[Any], int], about: str) -> argparse.ArgumentParser:
        one = commands.add_parser(name, help=about, description=about)
        one.set_defaults(act=act)
        one.add_argument(
            "--part",
            action="append",
            type=_part,
            required=True,
            metavar="N=ADDRESS",
            help="a partition and the address of its database, as libpq reads it; once for each",
        )
        return one

    one = add("setup", _setup, "Makes the guard in each database, as a superuser.")
    one.add_argument("--table", action="append", default=[], help="a table to guard")
    one = add("init", _init, "Begins course 1, which moves nothing, at each partition.")
    one.add_argument("--first", type=_plan, required=True, help="the file of its plan")
    one = add("move", _move, "Does a course. It may be killed, and started again.")
    _move_words(one)
    add("show", _show, "Shows how far each move is at each partition.")
    return parser


def _move_words(one: argparse.ArgumentParser) -> None:
    one.add_argument("--number", type=int, required=True, help="that of the course")
    for name in ("old", "new"):
        one.add_argument(
            f"--{name}", type=_plan, required=True, help=f"the file of its {name} plan"
        )
    one.add_argument("--first", type=_plan, help="the file of course 1's plan, for the bus")
    one.add_argument("--bus", help="where reports go: an address of squall-bus")
    one.add_argument("--chunk", type=int, default=1000, help="about how many rows a chunk has")
    one.add_argument("--pause", type=float, default=0.0, help="seconds after each chunk")
    one.add_argument("--rate", type=float, default=0.0, help="rows a second of each source")
    one.add_argument("--patience", type=float, default=60.0, help="seconds without any progress")
    one.add_argument(
        "--metrics", metavar="HOST:PORT", help="where Prometheus reads /metrics while rows move"
    )
    one.add_argument("--dry-run", action="store_true", help="shows the moves, and changes nothing")


def _part(text: str) -> Tuple[int, str]:
    number, _, address = text.partition("=")
    if not number.isdigit() or not address:
        raise argparse.ArgumentTypeError(f"{text!r} is no N=ADDRESS")
    return int(number), address


def _plan(path: str) -> Plan:
    try:
        return Plan(Path(path).read_bytes())
    except OSError as error:
        raise argparse.ArgumentTypeError(str(error)) from error


def _setup(options: Any) -> int:
    for part, address in options.part:
        with closing(Partition(part, address)) as it:
            it.setup(options.table)
    return 0


def _init(options: Any) -> int:
    addresses: Dict[int, str] = dict(options.part)
    job = Job(1, lambda frame: None, Pace())
    Mover(Course(1, options.first, options.first), addresses, job).init()
    print(f"course 1 has begun at {len(addresses)} partitions")
    return 0


def _move(options: Any) -> int:
    course = Course(options.number, options.old, options.new)
    if options.dry_run:
        for move in course.moves():
            print(f"move {move}")
        return 0
    reports = _reports(options)
    job = Job(
        options.number,
        (lambda frame: None) if reports is None else reports.put,
        Pace(options.chunk, options.pause, options.rate),
    )
    if options.metrics is not None:
        serve(options.metrics, Metrics(course, job, reports).page)
    Mover(course, dict(options.part), job).run(options.patience)
    progress = job.progress
    print(f"course {options.number}: moved {progress.rows} rows in {progress.took():.1f} s")
    if reports is not None and not reports.settle(options.patience):
        raise LostError("all rows have moved; start it again once the bus is up")
    return 0


def _reports(options: Any) -> Optional[Reports]:
    if options.bus is None:
        return None
    if options.first is None:
        raise ValueError("--bus needs --first")
    return Reports(Node(open_bus(options.bus), options.first))


def _show(options: Any) -> int:
    for part, address in options.part:
        with closing(Partition(part, address).enter()) as it:
            for line in it.progress():
                print(line)
    return 0
