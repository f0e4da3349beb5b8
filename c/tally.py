"""Counts the tests of c/test, and prints those that fail or are skipped."""

passed = 0
failed = 0


def note(name, holds, why=""):
    """Counts one test, and prints a failure."""
    global passed, failed
    if holds:
        passed += 1
    else:
        failed += 1
        print(f"failed: {name}{': ' + why if why else ''}")


def add(more_passed, more_failed=0):
    """Counts the tests that a program counted."""
    global passed, failed
    passed += more_passed
    failed += more_failed


def skip(name, reason):
    """Prints the name of a part that cannot run on this machine."""
    print(f"skipped: {name} ({reason})")


def end():
    """Prints the sums, and returns the exit status."""
    print(f"{passed} passed, {failed} failed")
    return 0 if failed == 0 else 1
