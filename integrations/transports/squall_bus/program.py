"""The words of the program `squall-bus`."""

from __future__ import annotations

import argparse
import signal
import sys
from pathlib import Path
from typing import Any, Callable, List, Optional

from squall import Course, Plan, Rank, SquallError

from .address import open_bus
from .board_file import BoardFile
from .bus import Bus, BusError, KeepingBus, TooLarge
from .etcd import EtcdBus
from .follow import follow
from .node import Node
from .publish import publish, reported, work_off
from .seal import read_secret
from .tls import Tls

#: Makes a bus of another one, as for tests that lose messages.
Wrap = Callable[[Bus], Bus]


def main(words: Optional[List[str]] = None, wrap: Wrap = lambda bus: bus) -> int:
    """The status of the program: 0 if it is done, 1 after a fault, 2 if its words are wrong."""
    signal.signal(signal.SIGTERM, _end)
    options = _parser().parse_args(words)
    try:
        secret = options.secret_file and read_secret(options.secret_file)
        bus = wrap(open_bus(options.bus, options.act is _publish, _tls(options), secret))
        try:
            return int(options.act(bus, options))
        finally:
            bus.close()
    except KeyboardInterrupt:
        return 0
    except (BusError, ImportError, OSError, SquallError, TooLarge, ValueError) as error:
        print(f"squall-bus: {error}", file=sys.stderr)
        return 1


def _end(_number: int, _frame: object) -> None:
    sys.exit(0)


def _parser() -> argparse.ArgumentParser:
    parser = argparse.ArgumentParser(
        "squall-bus",
        description="Carries frames of squall over NATS, JetStream, PostgreSQL or etcd.",
    )
    commands = parser.add_subparsers(required=True, metavar="COMMAND")
    bus = _bus_words()
    node = argparse.ArgumentParser(add_help=False)
    node.add_argument("--first", type=_plan, required=True, help="the file of course 1's plan")
    node.add_argument("--pace", type=float, default=1.0, help="seconds between two digests")

    def add(
        name: str, act: Callable[..., int], about: str, *parents: argparse.ArgumentParser
    ) -> Any:
        command = commands.add_parser(name, parents=[bus, *parents], help=about, description=about)
        command.set_defaults(act=act)
        return command

    one = add("follow", _follow, "Prints routes as frames come, until it is ended.", node)
    one.add_argument("--key", type=_key, action="append", default=[], help="a key, as 2:7")
    one.add_argument("--board", type=Path, help="a file that keeps the board")
    one = add("publish", _publish, "Sends reports: those of its input, or a trial's.", node)
    trial = ("N", "OLD", "NEW")
    one.add_argument("--trial", nargs=3, metavar=trial, help="works off a course, and moves no row")
    one.add_argument("--chunks", type=int, default=10, help="how many a move has")
    one.add_argument("--pause", type=float, default=0.0, help="seconds after each report")
    one.add_argument("--wait", type=float, default=60.0, help="seconds for others to know all")
    one.add_argument("--board", type=Path, help="a file that gets the board in the end")
    add("setup", _setup, "Makes the table of PostgreSQL, or the stream of JetStream.")
    one = add("merge", _merge, "Puts one board into the place of all frames that are kept.")
    one.add_argument("--compact", action="store_true", help="etcd: forgets the history of all keys")
    one = add("draw", _draw, "Draws the number of the next course by etcd, and issues it.")
    one.add_argument("old", type=_plan, metavar="OLD")
    one.add_argument("new", type=_plan, metavar="NEW")
    return parser


def _bus_words() -> argparse.ArgumentParser:
    """What each command takes."""
    words = argparse.ArgumentParser(add_help=False)
    schemes = "nats://.., tls://.., jetstream://.., postgres://.. or etcd://.."
    words.add_argument("bus", metavar="BUS", help=schemes)
    about = "the secret of the deployment, which seals all messages"
    words.add_argument("--secret-file", type=Path, metavar="FILE", help=about)
    tls = words.add_argument_group("TLS, for NATS and JetStream")
    tls.add_argument("--tls-bus", action="store_true", help="never in the clear, as with tls://")
    for name, about in (
        ("ca", "who has signed the servers' certificates (those that the system trusts)"),
        ("own-cert", "the certificate that servers are shown, if they ask for one"),
        ("own-key", "its key"),
    ):
        tls.add_argument(f"--tls-{name}", type=Path, metavar="FILE", help=about)
    return words


def _tls(options: Any) -> Tls:
    return Tls(options.tls_bus, options.tls_ca, options.tls_own_cert, options.tls_own_key)


def _plan(path: str) -> Plan:
    try:
        return Plan(Path(path).read_bytes())
    except OSError as error:
        raise argparse.ArgumentTypeError(str(error)) from error


def _key(text: str) -> Rank:
    try:
        return Rank.parse(text)
    except SquallError as error:
        raise argparse.ArgumentTypeError(str(error)) from error


def _follow(bus: Bus, options: Any) -> int:
    node = Node(bus, options.first, options.pace)
    file = options.board and BoardFile(options.board)
    if file is not None:
        file.load(node)
    follow(node, options.key, file)
    return 0


def _publish(bus: Bus, options: Any) -> int:
    node = Node(bus, options.first, options.pace)
    frames = reported(sys.stdin)
    if options.trial is not None:
        number, old, new = options.trial
        frames = work_off(Course(int(number), _plan(old), _plan(new)), options.chunks)
    count = publish(node, frames, options.pause)
    settled = node.settle(3 * options.pace, options.wait)
    if options.board is not None:
        BoardFile(options.board).save(node)
    print(f"sent {count} reports and {node.repairs} repairs")
    if not settled:
        print("squall-bus: no other node has shown that it knows all", file=sys.stderr)
    return 0 if settled else 1


def _setup(bus: Bus, _options: Any) -> int:
    _keeping(bus).setup()
    return 0


def _merge(bus: Bus, options: Any) -> int:
    bus.connect()
    done = _keeping(bus).merge()
    if options.compact and isinstance(bus, EtcdBus):
        bus.compact()
    print(f"{done.before} frames are now {done.after}; {done.bad} were none")
    return 0


def _keeping(bus: Bus) -> KeepingBus:
    if not isinstance(bus, KeepingBus):
        raise ValueError("this bus keeps no frames")
    return bus


def _draw(bus: Bus, options: Any) -> int:
    if not isinstance(bus, EtcdBus):
        raise ValueError("only etcd draws numbers")
    bus.connect()
    print(bus.draw(lambda number: Course(number, options.old, options.new).frame()))
    return 0
