"""What the test scripts share: one line a test, and the count of both kinds as the last line."""


class Failed(Exception):
    """What went wrong in a test, in words."""


class Tally:
    def __init__(self):
        self.passed = 0
        self.failed = 0

    def test(self, name, run):
        """Runs one test: it fails by raising, and may return a note on what it covered."""
        try:
            note = run()
        except Exception as wrong:  # whatever stops a test is a failure of it, not of the script
            what = str(wrong) if isinstance(wrong, Failed) else f"{type(wrong).__name__}: {wrong}"
            self.failed += 1
            print(f"FAIL {name}: {what}", flush=True)
        else:
            self.passed += 1
            print(f"ok {name}" + (f" ({note})" if note else ""), flush=True)

    def skip(self, name, why):
        """Says why a test cannot be run here. It counts neither way."""
        print(f"skip {name}: {why}", flush=True)

    def end(self):
        """Prints the last line and gives the exit status: a run without any test has failed."""
        print(f"{self.passed} passed, {self.failed} failed", flush=True)
        return 0 if self.passed > 0 and self.failed == 0 else 1
