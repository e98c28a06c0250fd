"""Runs tests side by side, tells how far it is, and prints what failed."""
import os
import sys
from concurrent.futures import ThreadPoolExecutor, as_completed


class Failed(Exception):
    """A test that failed: what is wrong, and the command that shows it."""

    def __init__(self, problem, command=None):
        super().__init__(problem)
        self.problem, self.command = problem, command


class Skipped(Exception):
    """A test that can't be done on this machine, with the reason."""


class Test:
    """A test: its name, and an action that ends where it passed, and else raises Failed or Skipped.

    An action that stands for many tests gives a list, with a pair for each of them: its name, and a Failed or None. Where a test
    takes long, `weight` says so: heavy ones begin first.
    """

    def __init__(self, name, action, weight=0):
        self.name, self.action, self.weight = name, action, weight

    def results(self):
        """Pairs of a name, and None, a Failed or a Skipped."""
        try:
            found = self.action()
            return found if isinstance(found, list) else [(self.name, None)]
        except (Failed, Skipped) as result:
            return [(self.name, result)]
        except Exception as error:  # a mistake of the test is told as a failure, and ends no other test
            return [(self.name, Failed(f"the test itself broke: {type(error).__name__}: {error}"))]


class Progress:
    """How far it is, on a terminal alone."""

    def __init__(self, whole):
        self.whole, self.is_shown = whole, sys.stderr.isatty()

    def show(self, done, failed):
        if self.is_shown:
            print(f"\r{done} of {self.whole} tests, {failed} failed ", end="", file=sys.stderr, flush=True)

    def clear(self):
        if self.is_shown:
            print("\r\033[K", end="", file=sys.stderr, flush=True)


def tell(name, result):
    print(f"FAILED {name}: {result.problem}")
    if result.command:
        print(f"    {result.command}")
    sys.stdout.flush()


def run_all(tests, workers=None):
    """Runs the tests, prints what failed and the last line, and gives the status."""
    passed, failed, skipped = 0, 0, []
    progress = Progress(len(tests))
    pool = ThreadPoolExecutor(workers or len(os.sched_getaffinity(0)) + 1)
    try:
        begun = [pool.submit(test.results) for test in sorted(tests, key=lambda test: -test.weight)]
        for done, each in enumerate(as_completed(begun), 1):
            for name, result in each.result():
                if result is None:
                    passed += 1
                elif isinstance(result, Skipped):
                    skipped.append(f"skipped {name}: {result}")
                else:
                    failed += 1
                    progress.clear()
                    tell(name, result)
            progress.show(done, failed)
    finally:
        pool.shutdown(cancel_futures=True)
        progress.clear()
    for line in sorted(skipped):
        print(line)
    print(f"{passed} passed, {failed} failed")
    return 1 if failed or not passed else 0
