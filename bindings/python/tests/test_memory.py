"""Allocations that fail, and blocks that are freed."""

import os
import re
import shutil
import subprocess
import sys
import tempfile
import unittest
from pathlib import Path

HERE = Path(__file__).resolve().parent


class Memory(unittest.TestCase):
    """The tests of `small_memory`, in a process of their own."""

    def test_small_memory(self) -> None:
        archive = Path(os.environ.get("SQUALL_DIR") or ".", "libsquall.a")
        compiler = shutil.which("cc")
        if not archive.is_file() or compiler is None:
            self.skipTest("needs cc, and libsquall.a in the folder SQUALL_DIR")
        with tempfile.TemporaryDirectory() as folder:
            words = [compiler, "-O2", "-Wall", "-Wextra", "-Werror", "-shared", "-fPIC"]
            words += ["-o", f"{folder}/libsquall.so.3", str(HERE / "heap.c")]
            # The functions of the header are in the members of these three.
            members = "-u,squall_router_open,-u,squall_message,-u,squall_version"
            words += [f"-Wl,{members}", str(archive)]
            subprocess.run(words, check=True)
            ran = subprocess.run(
                [sys.executable, "-B", "-m", "unittest", "tests.small_memory"],
                cwd=HERE.parent,
                env={**os.environ, "SQUALL_DIR": folder},
                stdout=subprocess.PIPE,
                stderr=subprocess.STDOUT,
                universal_newlines=True,
                check=False,
            )
        self.assertEqual(ran.returncode, 0, ran.stdout)
        self.assertRegex(ran.stdout, re.compile(r"^Ran 8 tests .*^OK$", re.MULTILINE | re.DOTALL))


if __name__ == "__main__":
    unittest.main()
