"""Unit tests whose subtests count, and that each have a limit of time."""
import signal
import sys
import unittest

from tests.support.programs import skip

# Once a test has had its time, how long each of its subtests still has.
SOON = 0.2


class Count(unittest.TextTestResult):
    """Counts the subtests of a test in its place."""

    passed = failed = of_test = 0
    seconds = None
    # Why the tests of the library alone are skipped with the other engine: they run with their own.
    of_library = "no library"

    def startTest(self, test):
        super().startTest(test)
        self.of_test = 0
        signal.setitimer(signal.ITIMER_REAL, self.seconds, SOON)

    def stopTest(self, test):
        signal.setitimer(signal.ITIMER_REAL, 0)
        super().stopTest(test)

    def addSubTest(self, test, subtest, err):
        super().addSubTest(test, subtest, err)
        self.of_test += 1
        self.passed += err is None
        self.failed += err is not None

    def addSuccess(self, test):
        super().addSuccess(test)
        self.passed += not self.of_test

    def addFailure(self, test, err):
        super().addFailure(test, err)
        self.failed += 1

    def addError(self, test, err):
        super().addError(test, err)
        self.failed += 1

    def addSkip(self, test, reason):
        super().addSkip(test, reason)
        if reason != self.of_library:
            skip(f"{test.id()}: {reason}")


def out_of_time(*_):
    raise TimeoutError(f"no end after {Count.seconds:g} s")


def run_counted(names, seconds):
    """Runs the tests of these modules, each for at most `seconds`. Returns the result, which counts them."""
    Count.seconds = seconds
    signal.signal(signal.SIGALRM, out_of_time)
    tests = unittest.defaultTestLoader.loadTestsFromNames(names)
    return unittest.TextTestRunner(stream=sys.stdout, resultclass=Count, verbosity=0).run(tests)
