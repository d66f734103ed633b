"""Runs the tests of one module, and writes what came of them as JSON: `python3 -m tool_tests MODULE`.

`tests/tools` starts a process like this for each module.
"""

import importlib
import json
import sys
import unittest


def name_of(test: unittest.TestCase) -> str:
    """A test's class and name, as one gives them to unittest."""
    return test.id().split(".", 2)[-1]


class Outcome(unittest.TestResult):
    """What came of each test: a test with parts that failed is one test that failed."""

    def __init__(self) -> None:
        super().__init__()
        self.begun: list[str] = []

    def startTest(self, test: unittest.TestCase) -> None:
        """Notes that the test began."""
        super().startTest(test)
        self.begun.append(name_of(test))

    def as_json(self) -> str:
        """The tests that passed, and those that failed or were skipped with the reason."""
        told = [*self.failures, *self.errors]
        failed: dict[str, str] = {}
        for test, words in told:
            name = name_of(getattr(test, "test_case", test))
            failed[name] = failed.get(name, "") + words
        for test in self.unexpectedSuccesses:
            failed[name_of(test)] = "it passed, which it was not expected to"
        skipped = {name_of(test): reason for test, reason in self.skipped}
        passed = [name for name in self.begun if name not in failed and name not in skipped]
        return json.dumps({"passed": passed, "failed": failed, "skipped": skipped})


def main() -> None:
    """Runs the module's tests. The outcome goes to standard output, and what a test prints to the other."""
    out, sys.stdout = sys.stdout, sys.stderr
    module = importlib.import_module(f"{__package__}.{sys.argv[1]}")
    outcome = Outcome()
    unittest.defaultTestLoader.loadTestsFromModule(module).run(outcome)
    out.write(outcome.as_json())


if __name__ == "__main__":
    main()
