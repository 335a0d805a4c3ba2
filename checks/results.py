"""Runs tests that are made with unittest, and prints a line for each."""
import sys
import unittest


class Result(unittest.TestResult):
    """Prints a line for each test."""

    passed = 0

    def addSuccess(self, test):
        self.passed += 1
        print(f"ok: {test.shortDescription()}", flush=True)

    def addSkip(self, test, reason):
        print(f"skipped: {test.shortDescription() or test.id()}: {reason}", flush=True)

    def _tell(self, test, error):
        print(f"FAILED: {test.shortDescription()}\n{self._exc_info_to_string(error, test)}", flush=True)

    def addError(self, test, error):
        super().addError(test, error)
        self._tell(test, error)

    def addFailure(self, test, error):
        super().addFailure(test, error)
        self._tell(test, error)


def run(module, words=()):
    """Runs the tests of a module, or of these those with one of the words in their names. Returns how many passed and how many failed."""
    result, tests = Result(), unittest.TestLoader()
    tests.testNamePatterns = [f"*{word}*" for word in words] or None
    tests.loadTestsFromModule(sys.modules[module]).run(result)
    return result.passed, len(result.errors) + len(result.failures)


def finish(passed, failed):
    """Prints the counts. Returns the status: 1 where a test failed, or none was there."""
    print(f"{passed} passed, {failed} failed")
    return 1 if failed or not passed else 0
