"""Runs all tests, and counts as the other tests of the library do.

    python3 -m tests

says what was left out and why. The last line is `N passed, M failed`.
"""

import sys
import unittest
from pathlib import Path

HERE = Path(__file__).resolve().parent


class Result(unittest.TextTestResult):
    """Counts the tests that passed. In some versions of Python others count those left out too."""

    passed = 0

    def addSuccess(self, test: unittest.TestCase) -> None:
        super().addSuccess(test)
        self.passed += 1


def main() -> int:
    """The status of the program."""
    suite = unittest.defaultTestLoader.discover(str(HERE), top_level_dir=str(HERE.parent))
    result = unittest.TextTestRunner(resultclass=Result).run(suite)
    assert isinstance(result, Result)
    for test, reason in result.skipped:
        print(f"left out: {test.id()}: {reason}")
    # A test may have failed several times, once in each part of it.
    tests = [getattr(it, "test_case", it) for it, _ in result.failures + result.errors]
    failed = len({it.id() for it in tests})
    print(f"{result.passed} passed, {failed} failed")
    return 0 if result.passed > 0 and failed == 0 else 1


if __name__ == "__main__":
    sys.exit(main())
