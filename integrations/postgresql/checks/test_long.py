"""The long form of the check: STATEMENTS statements, or a million, and KILLS kills, or 50."""

from __future__ import annotations

import json
import os
import random
import subprocess
import sys
import tempfile
import time
import unittest
from contextlib import closing
from pathlib import Path
from typing import List

from squall_postgresql import Client, Routes

from . import load
from .chaos import Courses, CoursesThread, kill
from .deploy import PLANS, Deployment

_STATEMENTS = int(os.environ.get("STATEMENTS", "1000000"))
_KILLS = int(os.environ.get("KILLS", "50"))
_PROCESSES = 3
_THREADS = 6
#: How long the last reads may take.
_PATIENCE = 600.0


class Loads:
    """Processes that make a load as long as a file is there."""

    def __init__(self, deployment: Deployment, first: str) -> None:
        self._folder = Path(tempfile.mkdtemp(prefix="load."))
        self._file = self._folder / "goes-on"
        self._file.touch()
        self._outs = [self._folder / f"{at}.json" for at in range(_PROCESSES)]
        self._all = [self._start(deployment, first, at) for at in range(_PROCESSES)]

    def _start(self, deployment: Deployment, first: str, at: int) -> "subprocess.Popen[bytes]":
        words = ["--apps", json.dumps(deployment.apps), "--bus", deployment.bus, "--first", first]
        words += ["--file", str(self._file), "--out", str(self._outs[at])]
        words += ["--own", str(at * _THREADS), str((at + 1) * _THREADS)]
        program = ["setpriv", "--pdeathsig", "KILL", sys.executable, "-m", "checks.load"]
        return subprocess.Popen([*program, *words])  # pylint: disable=consider-using-with

    def statements(self) -> int:
        """How many there were, as far as the processes have said."""
        files = [it.with_suffix(".now") for it in self._outs]
        return sum(int(it.read_text("ascii") or 0) for it in files if it.exists())

    def are_over(self) -> bool:
        """Whether one has ended, which it has to be told before."""
        return any(it.poll() is not None for it in self._all)

    def end(self) -> List[load.Tally]:
        """Waits until all have read their keys once more: what they have counted."""
        self._file.unlink()
        for it in self._all:
            it.wait(_PATIENCE)
        return [load.Tally.read(it.read_text("ascii")) for it in self._outs]


class LongTest(unittest.TestCase):
    """Takes minutes."""

    def test_nothing_is_lost(self) -> None:
        deployment = Deployment()
        self.addCleanup(deployment.remove)
        deployment.begin()
        dice = random.Random(os.environ.get("SEED", "1"))
        courses = Courses(deployment, dice, 40)
        loads, kills, away = Loads(deployment, courses.plans[0]), 0, 0.0
        thread = CoursesThread(courses, 1)
        began = time.monotonic()
        while loads.statements() < _STATEMENTS or courses.kills + kills < _KILLS:
            self.assertFalse(loads.are_over())
            if thread.has_failed():
                break
            # On a busy machine servers begin slowly. All are there for as long as one was away.
            time.sleep(dice.uniform(2, 6) + away)
            away = kill(dice.choice(deployment.servers), dice)
            kills += 1
        thread.end()
        tallies = loads.end()
        with closing(Client(deployment.apps, Routes(PLANS[0]))) as client:
            faults = load.judge_shared(tallies, client)
        counts = {name: sum(it.counts[name] for it in tallies) for name in tallies[0].counts}
        print(
            f"measured: {counts}, {courses.number - 1} courses, {courses.kills} kills of movers,"
            f" {kills} of servers, {time.monotonic() - began:.0f} s"
        )
        self.assertEqual((faults, counts["wrong"], counts["lost"]), ([], 0, 0))
