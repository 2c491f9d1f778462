"""How a script counts its cases, and prints those that fail."""

SHOWN = 1000  # characters of a name or an answer that are printed


def shown(value):
    text = value if isinstance(value, str) else repr(value)
    return text if len(text) <= SHOWN else f"{text[:SHOWN]}.. ({len(text)} characters)"


class Tally:
    """How many cases passed, and how many failed."""

    def __init__(self):
        self.passed = self.failed = 0

    def verdict(self, what, wanted, got):
        """Counts a case: what it is, what it should answer and what it answered."""
        if wanted == got:
            self.passed += 1
        else:
            self.failed += 1
            print(f"FAILED: {shown(what)}\n    wanted: {shown(repr(wanted))}\n    got:    {shown(repr(got))}")

    def holds(self, what, answer):
        """Counts a case that should be true."""
        self.verdict(what, True, answer)

    def compare(self, cases):
        """Counts cases, each a name, an answer, and what it should be; how many they are, and how many failed."""
        passed, failed = self.passed, self.failed
        for what, got, wanted in cases:
            self.verdict(what, wanted, got)
        return self.passed + self.failed - passed - failed, self.failed - failed

    @property
    def status(self):
        """The status of the script."""
        return 1 if self.failed else 0

    def __str__(self):
        return f"{self.passed} passed, {self.failed} failed"
