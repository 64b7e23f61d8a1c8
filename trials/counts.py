"""How the trials count."""


class Counts:
    """Counts what held, what did not, and what was not there. `is_quiet`: what holds has no line."""

    def __init__(self, is_quiet=False):
        self.passed, self.failed, self.skipped, self.is_quiet = 0, 0, 0, is_quiet

    def check(self, what, holds, why=""):
        self.passed, self.failed = self.passed + bool(holds), self.failed + (not holds)
        if not (holds and self.is_quiet):
            print(f"{'ok' if holds else 'FAILED'}: {what}{'' if holds or why == '' else ': ' + str(why)}", flush=True)
        return bool(holds)

    def skip(self, what, why):
        self.skipped += 1
        print(f"skipped: {what}: {why}", flush=True)

    def end(self):
        print(f"{self.passed} passed, {self.failed} failed, {self.skipped} skipped")
        return 1 if self.failed else 0
