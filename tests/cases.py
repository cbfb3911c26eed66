"""Tests by `unittest`, so that each has a name and runs alone: `tests/SCRIPT -k NAME`, or with `-v` all by their names.

A test may make checks (`checks.check`), of which a failed one doesn't end it; each counts. A test without checks
counts as one. The last line that a script prints is the one that the gate counts, 'N passed, M failed' and what was
skipped.
"""

import contextlib
import itertools
import pathlib
import sys
import tempfile
import traceback
import unittest
from typing import Any

import checks

# The script's words that are no options, which stand first: a program, say, and a seed. Then come the options.
WORDS = list(itertools.takewhile(lambda word: not word.startswith("-"), sys.argv[1:]))
OPTIONS = sys.argv[1 + len(WORDS) :]


def number_at(place: int, default: int) -> int:
    """The number that is the script's word at that place, the first being 1; the default if there is none."""
    return int(WORDS[place - 1]) if len(WORDS) >= place else default


class Case(unittest.TestCase):
    """A test with a directory of its own, which fails if one of its checks does."""

    folder: pathlib.Path
    # How many checks had failed before it, and failures that no check counted.
    failed_before = 0

    def setUp(self) -> None:
        self.folder = pathlib.Path(self.enterContext(tempfile.TemporaryDirectory()))
        self.failed_before = checks.failed
        self.addCleanup(self.end_checks)

    def end_checks(self) -> None:
        if checks.failed > self.failed_before:
            self.fail(f"{checks.failed - self.failed_before} of its checks failed")


class Result(unittest.TextTestResult):
    """Counts checks, and tests that make none."""

    before = 0, 0

    def startTest(self, test: unittest.TestCase) -> None:
        super().startTest(test)
        self.before = checks.passed, checks.failed

    def addSuccess(self, test: unittest.TestCase) -> None:
        super().addSuccess(test)
        if checks.passed == self.before[0]:
            checks.passed += 1

    def addSkip(self, test: unittest.TestCase, reason: str) -> None:
        super().addSkip(test, reason)
        checks.skip((test.shortDescription() or str(test)).rstrip("."), reason)

    def addFailure(self, test: unittest.TestCase, err: Any) -> None:
        super().addFailure(test, err)
        self.fail_by(test, err)

    def addError(self, test: unittest.TestCase, err: Any) -> None:
        super().addError(test, err)
        self.fail_by(test, err)

    def addSubTest(self, test: unittest.TestCase, subtest: unittest.TestCase, err: Any) -> None:
        super().addSubTest(test, subtest, err)
        if err is not None:
            self.fail_by(test, err)

    def fail_by(self, test: unittest.TestCase, err: Any) -> None:
        """Counts a failure that no check counted, and tries no more tests if too many programs hung."""
        if isinstance(err[1], checks.GivenUp):
            self.stop()
        if checks.failed == self.before[1]:
            checks.failed += 1
            if isinstance(test, Case):
                test.failed_before += 1
            print(f"FAILED {test}: {''.join(traceback.format_exception_only(*err[:2])).strip()}", flush=True)


def main(words: list[str]) -> int:
    """Runs the script's tests, as the words have it, and gives the status."""
    runner = unittest.TextTestRunner(stream=sys.stderr, resultclass=Result)
    ran = unittest.main(argv=[sys.argv[0], *words], testRunner=runner, exit=False)
    if ran.result.testsRun == 0 and checks.skipped == 0:
        print(f"FAILED no test has such a name: {' '.join(words)}")
        checks.failed += 1
    elif not ran.result.wasSuccessful():
        checks.failed = max(checks.failed, 1)
    with contextlib.suppress(BrokenPipeError):
        sys.stderr.flush()
    return checks.closing_line(*([f"{checks.skipped} skipped"] if checks.skipped else []))
