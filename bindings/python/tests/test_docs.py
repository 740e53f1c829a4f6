"""The examples of the documentation, and the example program."""

import ast
import doctest
import os
import re
import subprocess
import sys
import unittest
from array import array
from importlib import import_module
from pathlib import Path
from types import ModuleType
from typing import Any, Dict, List

import squall
from squall import errors

from .worked import fresh

PYTHON = Path(__file__).resolve().parent.parent
C_EXAMPLES = PYTHON.parent / "c" / "examples"
PLANS = PYTHON.parent.parent / "examples"

HALVES = '{"plan":[{"part":1,"from":[0,0],"to":[5,0]},{"part":2,"from":[5,0],"to":"end"}]}'
NAMES = "_frames _routes course errand errors frame keys leader part plan router view".split()
MODULES: List[ModuleType] = [squall, *(import_module(f"squall.{it}") for it in NAMES)]


def names() -> Dict[str, Any]:
    """What the examples of the modules name without having made it."""
    made = squall.Router(1, HALVES, HALVES)
    known = {name: getattr(squall, name) for name in squall.__all__}
    texts = {"old": HALVES, "new": HALVES.replace('"part":1', '"part":3')}
    return {**known, **texts, "array": array, "router": made, "view": made.view()}


class Documentation(unittest.TestCase):
    """What the documentation shows is what one gets."""

    def test_the_examples_of_the_modules(self) -> None:
        for module in MODULES:
            with self.subTest(module=module.__name__):
                result = doctest.testmod(module, extraglobs=names())
                self.assertEqual(result.failed, 0)
                if module is not errors:
                    self.assertGreater(result.attempted, 0)

    def test_the_examples_of_the_page(self) -> None:
        page = PYTHON / "README.md"
        result = doctest.testfile(str(page), module_relative=False)
        self.assertEqual(result.failed, 0)
        self.assertGreater(result.attempted, 10)

    def test_all_that_is_public_is_documented(self) -> None:
        for name in squall.__all__:
            it = getattr(squall, name)
            if isinstance(it, type):
                self.assertTrue(it.__doc__, name)
                for member in vars(it):
                    if not member.startswith("_") and callable(getattr(it, member)):
                        self.assertTrue(getattr(it, member).__doc__, f"{name}.{member}")

    def test_the_sources_are_those_of_python_3_8(self) -> None:
        for path in PYTHON.rglob("*.py"):
            text = path.read_text(encoding="utf-8")
            ast.parse(text, str(path), feature_version=(3, 8))
            self.assertLessEqual(len(text.splitlines()), 400, path)

    def proxy(self, lines: str) -> str:
        """What the example program answers to these lines."""
        return subprocess.run(
            [sys.executable, "-B", PYTHON / "examples/proxy.py", "old.json", "new.json"],
            cwd=PLANS,
            env={**os.environ, "PYTHONPATH": str(Path(squall.__file__).parent.parent)},
            input=lines,
            stdout=subprocess.PIPE,
            universal_newlines=True,
            check=True,
        ).stdout

    @unittest.skipUnless(C_EXAMPLES.is_dir() and PLANS.is_dir(), "examples/ is not here")
    def test_the_proxy_answers_as_that_in_c(self) -> None:
        lines, wanted = ((C_EXAMPLES / f"proxy.{it}").read_text("utf-8") for it in ["in", "out"])
        self.assertEqual(self.proxy(lines), wanted)
        self.assertEqual(self.proxy("keys\nkey 2\nframe 5\n"), "no such line\nno key\ntaken\n")

    def test_the_node_prints_its_lines(self) -> None:
        printed = subprocess.run(
            [sys.executable, "-B", PYTHON / "examples/node.py"],
            env={**os.environ, "PYTHONPATH": str(Path(squall.__file__).parent.parent)},
            stdout=subprocess.PIPE,
            universal_newlines=True,
            check=True,
        ).stdout
        self.assertEqual(printed, (PYTHON / "examples/node.out").read_text("utf-8"))

    @unittest.skipUnless(PLANS.is_dir(), "examples/ is not here")
    def test_the_proxy_answers_as_the_page_shows(self) -> None:
        page = (PYTHON / "README.md").read_text("utf-8")
        shown = re.findall(r"^    ((?:key|frame) .*)\n    (.*)$", page, re.MULTILINE)
        self.assertEqual(len(shown), 3)
        answers = self.proxy("".join(f"{line}\n" for line, _ in shown))
        self.assertEqual(answers, "".join(f"{wanted}\n" for _, wanted in shown))

    def test_the_worked_plans_are_those_of_the_examples(self) -> None:
        if PLANS.is_dir():
            old, new = ((PLANS / f"{it}.json").read_bytes() for it in ["old", "new"])
            legs = squall.Router(1, old, new).legs(0, squall.END)
            self.assertEqual(fresh().legs(0, squall.END), legs)


if __name__ == "__main__":
    unittest.main()
