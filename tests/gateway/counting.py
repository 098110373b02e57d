"""The count of these tests."""
import contextlib
import io

from trying import Counts, begin, tried


def stumbles():
    """One that stumbles."""
    raise TypeError("over itself")


def stands():
    """One that stands."""


def told_of(counts, *tests):
    """The lines that running tests tells."""
    told = io.StringIO()
    with contextlib.redirect_stdout(told), contextlib.suppress(TypeError):
        for test in tests:
            counts.run(test)
    return [line.strip() for line in told.getvalue().splitlines()]


def any_fault():
    """A test that ends by a fault of any kind counts as failed, is told with its kind, and those behind it are run."""
    counts = Counts()
    told = told_of(counts, stumbles, stands)
    assert (counts.passed, counts.failed) == (1, 1), "the fault ended the run"
    assert told[1] == told[3] == "TypeError: over itself", told


def at_the_second_try():
    """A test that fails once is told with its fault, run once more, and counted by that."""
    counts, tries = Counts(), iter((stumbles, stands))

    def limps():
        """One that limps."""
        next(tries)()

    told = told_of(counts, limps)
    assert (counts.passed, counts.failed) == (1, 0), "the second try doesn't count"
    assert told == ["again   gateway: One that limps", "TypeError: over itself", "ok      gateway: One that limps"], told


def main():
    return tried(any_fault, at_the_second_try)


if __name__ == "__main__":
    begin(main)
