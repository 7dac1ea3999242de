"""What came, beside what is wanted."""
import operator

from postgres import fail


def same(what, came, wanted):
    """Ends the script where something else came."""
    if came != wanted:
        fail(f"{what}: {came!r}, not {wanted!r}")


class Checks:
    """Counts what is as it is wanted, and says what isn't."""

    def __init__(self, alike=operator.eq):
        self.alike, self.passed, self.failed = alike, 0, 0

    def same(self, what, came, wanted):
        if self.alike(came, wanted):
            self.passed += 1
        else:
            self.failed += 1
            print(f"FAIL {what}: {came!r}, not {wanted!r}")
