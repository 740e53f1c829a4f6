"""Courses to and fro without a pause, and kills of movers and servers meanwhile."""

from __future__ import annotations

import random
import signal
import subprocess
import sys
import tempfile
import threading
import time
from pathlib import Path
from typing import Optional

from .deploy import Deployment, Server, write_plans

PROGRAM = Path(__file__).resolve().parent.parent / "squall-postgresql"
_WITH_US = ["setpriv", "--pdeathsig", "KILL", sys.executable]
#: How long a mover may be without any progress, in seconds: the machine may be busy with much else.
_PATIENCE = 600


class Courses:
    """Runs movers as programs, one course after another."""

    def __init__(self, deployment: Deployment, dice: random.Random, chunk: int) -> None:
        self._folder = tempfile.mkdtemp(prefix="courses.")
        self.plans = write_plans(self._folder)
        self._dice = dice
        self._words = [f"--part={part}={url}" for part, url in deployment.addresses.items()]
        self._words += ["--bus", deployment.bus, "--first", self.plans[0]]
        self._words += ["--chunk", str(chunk), "--patience", str(_PATIENCE)]
        #: The number of the last course that has ended, and how many movers were killed.
        self.number = 1
        self.kills = 0

    def run(self, number: int, kill_after: float) -> bool:
        """Runs a mover, and kills it after so many seconds: whether its course has ended."""
        old, new = self.plans[number % 2], self.plans[1 - number % 2]
        words = ["move", "--number", str(number), "--old", old, "--new", new, *self._words]
        log = Path(self._folder, "log")
        with open(log, "ab") as out, subprocess.Popen(
            [*_WITH_US, str(PROGRAM), *words], stdout=out, stderr=out
        ) as process:
            try:
                status = process.wait(kill_after)
            except subprocess.TimeoutExpired:
                process.send_signal(signal.SIGKILL)
                process.wait()
                self.kills += 1
                return False
        if status != 0:
            raise AssertionError(log.read_text("utf-8", "replace")[-2000:])
        return True

    def turn(self, kills: int) -> None:
        """One whole course, of which at most so many movers are killed."""
        number = self.number + 1
        while not self.run(number, self._dice.uniform(0.3, 2.0) if kills > 0 else 1200.0):
            kills -= 1
        self.number = number


class CoursesThread(threading.Thread):
    """Does courses until it is told to end, and then a last one without a kill."""

    def __init__(self, courses: Courses, kills: int) -> None:
        """In each course at most so many movers are killed."""
        super().__init__(daemon=True)
        self._courses = courses
        self._kills = kills
        self._is_over = False
        self._fault: Optional[BaseException] = None
        self.start()

    def run(self) -> None:
        try:
            while not self._is_over:
                self._courses.turn(self._kills)
            self._courses.turn(0)
        except BaseException as error:  # pylint: disable=broad-except
            self._fault = error

    def has_failed(self) -> bool:
        """Whether a mover has failed: the others would go on without any course."""
        return self._fault is not None

    def end(self) -> None:
        """Waits for the last course. Raises the fault of a mover."""
        self._is_over = True
        self.join()
        if self._fault is not None:
            raise self._fault


def kill(server: Server, dice: random.Random) -> float:
    """Kills a server, and starts it again: for how many seconds it was away.

    It ends with the thread that has started it, so that has to be the one of the tests.
    """
    began = time.monotonic()
    server.end()
    time.sleep(dice.uniform(0, 0.3))
    server.start()
    return time.monotonic() - began
