"""The status that the program ends with is the one of its last line, as docs/runs.md has them.

The proofs end where `main` hands a number on. Every example is run by every command, and what is not there, too.
"""
import glob
import itertools
import re

from lib.program import Cases, run

LAST = [
    (0, "world", r"end\n"),
    (0, "check", r"process [A-Za-z]\w* \d+ \d+\n"),
    (0, "print", r"end\n"),
    (1, None, r"refused [A-Z]\d+ \d+:\d+\n"),
    (1, None, r"refused M2 \d+:\d+ [A-Za-z]\w* [A-Za-z]\w*\n"),
    (0, "replay", r"run\n"),
    (0, "make", r"(turn|arrive|lose|copy|move|damage|forge) .*\n"),
    (0, "soak", r"end\n"),
    (1, None, r"refused I\d [A-Za-z]\w*\.[A-Za-z]\w*\n"),
    (2, None, r"usage: tapc [a-z |]+\n"),
    (3, "world", r"bad line \d+\n"),
    (3, "replay", r"bad line \d+\n"),
    (8, "replay", r"not a run: line \d+\n"),
    (4, None, r"read fault\n"),
    (7, None, r"no memory\n"),
    (9, "world", r"full \d+\n"),
]
ALONE = {1, 2, 4}


def status_of(command, written):
    """The one status whose last line this is, or none."""
    last = written[written[:-1].rfind("\n") + 1:]
    found = [(status, last == written) for status, of, line in LAST if of in (None, command) and re.fullmatch(line, last)]
    if len(found) != 1 or (found[0][0] in ALONE and not found[0][1]):
        return None
    return found[0][0]


def main():
    cases = Cases()
    seen = set()
    names = [*sorted(glob.glob("examples/*/*.tap")), "examples/counter/bad_line.sch", "examples/no-such-file", ""]
    schedules = [*sorted(glob.glob("examples/*/*.sch")), "examples/ping/ping.tap", "examples/no-such-file"]
    words = [[command, name] for command in ("check", "print", "make") for name in names]
    words += [["world", *pair] for pair in itertools.product(names, schedules)]
    words += [["replay", *pair] for pair in itertools.product(names, ["examples/ping/ping.out", "examples/no-such-file"])]
    words += [[command, name, "1", "20", "5"] for command in ("make", "soak") for name in names]
    for one in words:
        status, written = run(*one)
        wanted = status_of(one[0], written.decode())
        cases.hold(status == wanted, f"{one}: status {status}, and the last line is that of {wanted}: {written[-60:]!r}")
        seen.add((one[0], status))
    for wanted in itertools.product(("check", "print", "world", "replay", "make", "soak"), (0, 1, 2, 4)):
        cases.hold(wanted in seen, f"no run of {wanted[0]} ended with {wanted[1]}")
    for wanted in ("world", 3), ("replay", 3), ("replay", 8):
        cases.hold(wanted in seen, f"no run of {wanted[0]} ended with {wanted[1]}")
    cases.finish(least=200)


main()
