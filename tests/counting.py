"""Counting checks, for the tests in Python as counting.sh is for those in bash."""


def closing(checks):
    """Prints which of the checks, each a name and whether it holds, fail, then 'N passed, M failed'. True if all hold, and there are some."""
    passed = failed = 0
    for name, holds in checks:
        passed, failed = passed + bool(holds), failed + (not holds)
        if not holds:
            print(f"FAILED: {name[:2000]}")
    print(f"{passed} passed, {failed} failed")
    return failed == 0 < passed


def built(program):
    """Whether the program is there. If not, says how to build it and counts that as a failure."""
    if not program.exists():
        print(f"{program.name} is not built; `./build {program.name}` builds it\n0 passed, 1 failed")
    return program.exists()
