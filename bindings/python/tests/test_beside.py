"""The package with the library in its own folder, as a wheel has it."""

import os
import shutil
import subprocess
import sys
import tempfile
import unittest
from pathlib import Path

import squall
from squall import _library as lib

PACKAGE = Path(squall.__file__).resolve().parent


class Beside(unittest.TestCase):
    """The library in the package's own folder is taken before any other one."""

    def imported(self, library: Path) -> "subprocess.CompletedProcess[str]":
        """A process that imports a copy of the package with this library, and SQUALL_DIR astray."""
        with tempfile.TemporaryDirectory() as folder:
            ignored = shutil.ignore_patterns("__pycache__")
            shutil.copytree(PACKAGE, Path(folder, "squall"), ignore=ignored)
            shutil.copy(library, Path(folder, "squall", lib.SONAME))
            return subprocess.run(
                [sys.executable, "-B", "-c", "import squall; print(squall.version())"],
                cwd=folder,
                env={**os.environ, "SQUALL_DIR": "/nowhere", "PYTHONPATH": folder},
                stdout=subprocess.PIPE,
                stderr=subprocess.PIPE,
                universal_newlines=True,
                check=False,
            )

    def test_a_library_in_the_folder_of_the_package(self) -> None:
        folder = os.environ.get(lib.VARIABLE)
        if not folder:
            self.skipTest(f"needs {lib.VARIABLE}")
        ran = self.imported(Path(folder, lib.SONAME))
        self.assertEqual((ran.stdout, ran.stderr), (squall.version() + "\n", ""))

    def test_a_file_that_is_no_library(self) -> None:
        ran = self.imported(Path(__file__))
        self.assertEqual(ran.returncode, 1)
        wanted = f"{lib.SONAME} can't be loaded from the folder of the package, "
        self.assertIn(wanted, ran.stderr.splitlines()[-1])


if __name__ == "__main__":
    unittest.main()
