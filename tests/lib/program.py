"""What the checks in Python share: they run the program, compare, and count their cases."""
import os
import subprocess
import sys

TAPC = os.environ.get("TAPC") or sys.exit("run the checks by tests/run")


def run(*words, **how):
    """The status and the output of the program; a negative status is that of a signal."""
    how = {"stdout": subprocess.PIPE, "stderr": subprocess.PIPE, **how}
    done = subprocess.run([TAPC, *words], check=False, **how)
    if done.stderr:
        print(f"{words}: on standard error: {done.stderr[:200]!r}")
    return done.returncode, done.stdout


def write(path, text):
    """Writes a file of bytes, or of a text in ASCII or UTF-8, line ends as they are."""
    with open(path, "wb") as file:
        file.write(text if isinstance(text, bytes) else text.encode())


def read(path):
    with open(path, "rb") as file:
        return file.read()


class Cases:
    """Counts cases, and says of each that differs how."""

    def __init__(self):
        self.count = 0
        self.wrong = 0

    def hold(self, holds, what):
        self.count += 1
        if not holds:
            self.wrong += 1
            print(what)

    def finish(self, least=1):
        """Ends the check; it fails also where there were too few cases."""
        if self.count < least:
            print(f"too few cases: {self.count}, and at least {least} are expected")
        print(f"{self.count} cases")
        sys.exit(1 if self.wrong or self.count < least else 0)


def skip(why):
    print(why)
    sys.exit(77)
