"""A load that knows each right answer, while courses go to and fro and programs are killed."""

from __future__ import annotations

import random
import threading
import time
import unittest
from contextlib import closing

from squall_bus import open_bus
from squall_postgresql import Client, Routes

from . import load
from .chaos import Courses, CoursesThread, kill
from .deploy import PLANS, Deployment

_SECONDS = 6.0
_THREADS = 4


class CheckTest(unittest.TestCase):
    """The short form. `checks.long` is the long one."""

    def test_nothing_is_lost(self) -> None:
        deployment = Deployment()
        self.addCleanup(deployment.remove)
        deployment.begin()
        dice = random.Random(1)
        courses = Courses(deployment, dice, 20)
        routes = Routes(PLANS[0], open_bus(deployment.bus))
        tally, done, kills = load.Tally(), threading.Event(), 0
        words = (deployment.apps, routes, range(_THREADS), lambda: not done.is_set(), tally)
        thread = threading.Thread(target=load.run, args=words)
        thread.start()
        courses_thread = CoursesThread(courses, 1)
        until = time.monotonic() + _SECONDS
        while time.monotonic() < until:
            time.sleep(dice.uniform(1, 3))
            kill(dice.choice(deployment.servers), dice)
            kills += 1
        courses_thread.end()
        done.set()
        thread.join()
        routes.close()
        with closing(Client(deployment.apps, Routes(PLANS[0]))) as client:
            faults = load.judge_shared([tally], client)
        counts = tally.counts
        print(
            f"measured: {counts['statements']} statements, {courses.number - 1} courses,"
            f" {courses.kills + kills} kills"
        )
        self.assertEqual((faults, counts["wrong"], counts["lost"]), ([], 0, 0))
        self.assertGreater(counts["statements"], 200)
        self.assertGreater(courses.number, 2)
