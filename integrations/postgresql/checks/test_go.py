"""The client in Go: its own tests, over partitions that are started here, and its example."""

from __future__ import annotations

import json
import os
import subprocess
import sys
import tempfile
from pathlib import Path
from typing import Dict, List

from .deploy import write_plans
from .parts import PartitionsTest

HERE = Path(__file__).resolve().parent.parent
MODULE = HERE / "go"
#: Where Debian's package has the sources of the driver.
DRIVER = "github.com/lib/pq"
SOURCES = Path("/usr/share/gocode/src", DRIVER)


def plain(url: str) -> str:
    """The address without TLS, which this driver takes for granted."""
    return f"{url}?sslmode=disable"


class GoTest(PartitionsTest):
    """All is compiled with the race detector, so that what was compiled once serves all tests."""

    def setUp(self) -> None:
        super().setUp()
        self.west, self.east = write_plans(tempfile.mkdtemp())

    def test_the_sources(self) -> None:
        said = subprocess.check_output(["gofmt", "-l", str(MODULE)], text=True)
        self.assertEqual(said, "")
        self.run_go("vet", "-race", "./...")

    def test_the_client(self) -> None:
        parts = [f"--part={part}={url}" for part, url in self.deployment.addresses.items()]
        mover = [sys.executable, str(HERE / "squall-postgresql"), "move", *parts]
        mover += ["--bus", self.deployment.bus, "--first", self.west]
        deployment = {
            "Apps": {part: plain(url) for part, url in self.deployment.apps.items()},
            "Parts": {part: plain(url) for part, url in self.deployment.addresses.items()},
            "Bus": plain(self.deployment.bus),
            "Plans": [self.west, self.east],
            "Mover": mover,
        }
        said = self.run_go("test", "-race", "-v", ".", SQUALL_DEPLOYMENT=json.dumps(deployment))
        lines = [it for it in said if it.startswith("--- ")]
        self.assertGreater(len(lines), 6)
        self.assertEqual([it for it in lines if not it.startswith("--- PASS")], [])
        for line in said:
            if line.endswith("times sent on"):
                print("measured:", line.partition(": ")[2])

    def test_the_example_counts(self) -> None:
        words = [f"-part={part}={plain(url)}" for part, url in self.deployment.apps.items()]
        words += ["-bus", plain(self.deployment.bus), "-first", self.west]
        words += ["-key", "10:1", "-turns", "2", "-pause", "0"]
        said = self.run_go("run", "-race", "./examples/count", *words)
        self.assertEqual(said, ["10:1 is 1 at partition 1", "10:1 is 2 at partition 1"])

    def run_go(self, *words: str, **more: str) -> List[str]:
        """The lines that the program says."""
        done = subprocess.run(
            ["go", *words],
            check=False,
            cwd=MODULE,
            env={**os.environ, **self.settings(), **more},
            stdout=subprocess.PIPE,
            stderr=subprocess.STDOUT,
            text=True,
        )
        self.assertEqual(done.returncode, 0, done.stdout)
        return done.stdout.splitlines()

    def settings(self) -> Dict[str, str]:
        """The variables with which nothing is fetched, and all that is made goes elsewhere."""
        folder = Path(tempfile.gettempdir(), "go")
        mod, library = folder / "mod" / "go.mod", os.environ["SQUALL_DIR"]
        mod.parent.mkdir(parents=True, exist_ok=True)
        mod.write_text((MODULE / "go.mod").read_text("ascii"), "ascii")
        words = ["go", "mod", "edit", f"-replace={DRIVER}={SOURCES}", str(mod)]
        subprocess.run(words, check=True, cwd=folder, env={**os.environ, "GOFLAGS": ""})
        return {
            "GOPROXY": "off",
            "GOWORK": "off",
            "GOENV": "off",
            "GOFLAGS": f"-buildvcs=false -modfile={mod}",
            "GOPATH": str(folder),
            "GOCACHE": str(folder / "cache"),
            "PKG_CONFIG_PATH": library,
            "LD_LIBRARY_PATH": library,
        }
