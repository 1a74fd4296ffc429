"""Checks that are counted."""


class Checks:
    """Counts checks, and prints those that are wrong."""

    def __init__(self):
        self.count, self.wrong = 0, 0

    def expect(self, what, found, expected):
        self.count += 1
        if found != expected:
            self.wrong += 1
            print(f"wrong: {what}\n  found:    {found!r:.2000}\n  expected: {expected!r:.2000}")

    def add(self, count, wrong):
        self.count, self.wrong = self.count + count, self.wrong + wrong
