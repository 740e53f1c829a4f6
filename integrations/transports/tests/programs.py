"""Programs of `squall-bus`, started apart, and what they have to show in the end."""

from __future__ import annotations

import signal
import subprocess
import sys
import time
import unittest
from pathlib import Path
from typing import Callable, List

from squall import END, Course, Plan, Rank, Router
from squall_bus import Message
from squall_bus.pieces import joined
from squall_bus.publish import work_off

from .servers import Server

HERE = Path(__file__).resolve().parent.parent
EXAMPLES = HERE.parent.parent / "examples"
OLD, NEW = EXAMPLES / "old.json", EXAMPLES / "new.json"
BUS = [str(HERE / "squall-bus")]
COURSE = 2
KEYS = ["2:0", "2:7", "7:1", "9:0"]
#: How long anything may take: the machine may be busy with much else.
_PATIENCE = 60.0


def plan(path: Path) -> Plan:
    """The plan of a file."""
    return Plan(path.read_bytes())


def course() -> Course:
    """The course of the example plans."""
    return Course(COURSE, plan(OLD), plan(NEW))


def until(what: str, is_so: Callable[[], bool]) -> None:
    """Waits for this."""
    last = time.monotonic() + _PATIENCE
    while not is_so():
        if time.monotonic() > last:
            raise AssertionError(f"{what}: not within {_PATIENCE} s")
        time.sleep(0.02)


def heard(hear: Callable[[], List[Message]]) -> List[Message]:
    """What the first of these calls brings that brings anything."""
    found: List[Message] = []

    def has_come() -> bool:
        found.extend(hear())
        return bool(found)

    until("anything comes", has_come)
    return found


class Program:
    """One that runs, with its output in a file."""

    def __init__(self, folder: Path, name: str, words: List[str]) -> None:
        self._log = folder / f"{name}.log"
        with open(self._log, "ab") as log:
            self._process = subprocess.Popen(  # pylint: disable=consider-using-with
                ["setpriv", "--pdeathsig", "KILL", sys.executable, *words],
                cwd=HERE,
                stdin=subprocess.DEVNULL,
                stdout=log,
                stderr=log,
            )

    def said(self) -> str:
        """All its output, also that of programs before it under its name."""
        return self._log.read_text("utf-8")

    def is_over(self) -> bool:
        """Whether it has ended."""
        return self._process.poll() is not None

    def end(self, number: int = signal.SIGTERM) -> int:
        """Ends it by a signal: its status, or the signal that ended it, below 0."""
        if not self.is_over():
            self._process.send_signal(number)
        return self._process.wait(_PATIENCE)


class CourseTest(unittest.TestCase):
    """Works off a course of the example plans, while three followers hear it.

    One of them is killed, and comes back.
    """

    server: Server
    #: How many of a hundred messages the followers miss.
    percent = 0
    chunks = 20
    pause = 0.06

    def start(self, name: str, words: List[str], percent: int) -> Program:
        """Starts a program of that name."""
        lossy = ["-m", "tests.lossy", str(percent)]
        program = Program(self.server.folder, name, [*(lossy if percent else BUS), *words])
        self.addCleanup(program.end, signal.SIGKILL)
        return program

    def follower(self, name: str, pace: float = 0.2) -> Program:
        """Starts a follower, which shows a digest each `pace` seconds."""
        words = ["follow", self.server.url(), "--first", str(OLD), "--pace", str(pace)]
        keys = [word for key in KEYS for word in ("--key", key)]
        return self.start(name, [*words, *keys, "--board", str(self.board(name))], self.percent)

    def publisher(self) -> Program:
        """Starts the one that reports, and misses nothing."""
        words = ["publish", self.server.url(), "--first", str(OLD), "--pace", "0.2"]
        trial = ["--trial", str(COURSE), str(OLD), str(NEW), "--chunks", str(self.chunks)]
        file = ["--board", str(self.board("publisher"))]
        return self.start("publisher", [*words, *trial, *file, "--pause", str(self.pause)], 0)

    def board(self, name: str) -> Path:
        """The file of a node's board."""
        return self.server.folder / f"{name}.board"

    def bytes_of(self, name: str) -> bytes:
        """What that file has now."""
        path = self.board(name)
        return path.read_bytes() if path.exists() else b""

    def work(self, mishap: Callable[[], None]) -> List[Program]:
        """Runs the course with a mishap in its midst. In the end all boards are equal."""
        names = ["one", "two", "three"]
        nodes = [self.follower(it) for it in names]
        until("they begin", lambda: all("course 1" in it.said() for it in nodes))
        publisher = self.publisher()
        loaded = f"key {KEYS[0]} partition 3 course {COURSE}"
        until("keys are loaded", lambda: any(loaded in it.said() for it in nodes))
        # The killed one has not heard all.
        self.assertEqual(nodes[0].end(signal.SIGKILL), -signal.SIGKILL)
        self.assertNotIn("loaded 2 of 2", nodes[0].said())
        self.assertFalse(publisher.is_over(), "the course was over before the mishap")
        mishap()
        nodes[0] = self.follower("one")
        until("the publisher ends", publisher.is_over)
        self.assertEqual(publisher.end(), 0, publisher.said())
        wanted = self.bytes_of("publisher")
        self.assertEqual(wanted, b"".join(joined(list(work_off(course(), self.chunks)))))
        until("all boards are equal", lambda: all(self.bytes_of(it) == wanted for it in names))
        for name, node in zip(names, nodes):
            self.assertEqual(node.end(), 0, node.said())
            self.assertEqual(self.bytes_of(name), wanted)
            self.routes_are_new(name, node)
        return nodes

    def routes_are_new(self, name: str, node: Program) -> None:
        """The board of the node, and the node itself, ask where the new plan says."""
        with Router(1, plan(OLD), plan(OLD)) as router, Router(1, plan(NEW), plan(NEW)) as new:
            router.feed(self.bytes_of(name))
            self.assertEqual(router.number, COURSE)
            self.assertEqual(router.legs(0, END), new.legs(0, END))
            for key in KEYS:
                lines = [it for it in node.said().splitlines() if it.startswith(f"key {key} ")]
                part = new.route(Rank.parse(key))
                self.assertEqual(lines[-1], f"key {key} partition {part} course {COURSE}")
