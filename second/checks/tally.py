"""Counts checks and keeps what failed."""


class Tally:
    def __init__(self, seed):
        self.seed = seed
        self.passed = 0
        self.failures = []

    def same(self, what, got, want):
        """One check: what was got is what was wanted."""
        if got == want:
            self.passed += 1
        else:
            self.failures.append(f"{what}: got {short(got)}, wanted {short(want)}")

    def holds(self, what, condition):
        """One check: the condition holds."""
        self.same(what, bool(condition), True)


def short(value):
    words = repr(value)
    return words if len(words) <= 300 else words[:300] + "..."
