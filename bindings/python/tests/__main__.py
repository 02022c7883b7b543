"""Runs the tests of the package that Python finds. What is skipped is listed with its reason. The last line is 'N passed, M
failed, K skipped'.

    python tests [PATTERN]    the files with names like the pattern, as 'test_graphql_*.py'; by default all
"""

import os
import sys
import unittest
from collections import Counter


class Result(unittest.TextTestResult):
    """Counts the tests that pass: neither skipped ones nor those with a part that fails or is skipped."""

    passed = 0

    def addSuccess(self, test: unittest.TestCase) -> None:
        super().addSuccess(test)
        self.passed += 1


def main() -> None:
    here = os.path.dirname(os.path.abspath(__file__))
    pattern = sys.argv[1] if len(sys.argv) > 1 else "test*.py"
    tests = unittest.defaultTestLoader.discover(here, pattern=pattern, top_level_dir=here)
    result = unittest.TextTestRunner(stream=sys.stdout, resultclass=Result).run(tests)
    failed = len(result.failures) + len(result.errors) + len(result.unexpectedSuccesses)
    for why, number in Counter(why for _, why in result.skipped).items():
        print(f"tests: skipped: {why} ({number} times)")
    print(f"{result.passed} passed, {failed} failed, {len(result.skipped)} skipped")
    # Nothing at all is no success.
    sys.exit(1 if failed or not result.testsRun else 0)


if __name__ == "__main__":
    main()
