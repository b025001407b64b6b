"""Long and deep inputs end within some seconds and with no signal: no proof speaks of the stack or of time.

What is refused, and where, is known from the grammar. A read of the kind that calls itself for each token would
overflow the stack on most of these.
"""
import os
import subprocess
import tempfile

from lib.program import Cases, run, write

LONGEST = 1_048_576
SECONDS = 60
TEXT, SCHEDULE = "examples/ping/ping.tap", "examples/ping/ping.sch"
GUARD = "process a begin "
VALUE = "process a begin true -> x := "


def long(front, unit, back=""):
    return front + unit * ((LONGEST - len(front) - len(back)) // len(unit)) + back


# A text, and how each command refuses it; none where `print` prints it, and the others may do as the language has it.
TEXTS = [
    ("[ alone", long("", "["), "refused S2 1:33"),
    ("( alone", long("", "("), "refused S2 1:33"),
    ("- alone", long("", "-"), "refused S1 1:1"),
    ("not alone", long("", "not "), "refused S1 1:1"),
    ("if alone", long("", "if "), f"refused S2 1:{1 + 32 * 3}"),
    ("( in a guard", long(GUARD, "("), f"refused S2 1:{len(GUARD) + 33}"),
    ("x[ in a value", long(VALUE, "x["), f"refused S2 1:{len(VALUE) + 66}"),
    ("min( in a value", long(VALUE, "min("), f"refused S2 1:{len(VALUE) + 32 * 4 + 4}"),
    ("- in a value", long(VALUE, "-"), f"refused S1 1:{len(VALUE) + 2}"),
    ("not in a guard", long(GUARD, "not "), f"refused S1 1:{len(GUARD) + 5}"),
    (") behind a value", long(VALUE + "1", ")"), f"refused S1 1:{len(VALUE) + 2}"),
    ("names", long("", "a "), "refused S1 1:1"),
    ("one name", "a" * LONGEST, "refused S1 1:1"),
    ("one number", "1" * LONGEST, "refused L2 1:1"),
    ("zeros", "0" * LONGEST, "refused S1 1:1"),
    ("a comment", "#" * LONGEST, "refused S1 1:1"),
    ("line feeds", "\n" * LONGEST, "refused S1 1:1"),
    ("a sum", long(VALUE + "1", " + 1", " end"), f"refused S3 1:{len(VALUE) + 1}"),
    ("a difference", long(VALUE + "1", " - 1", " end"), f"refused S3 1:{len(VALUE) + 1}"),
    ("a product", long(VALUE + "1", "*1", " end"), f"refused S3 1:{len(VALUE) + 1}"),
    ("or", long(GUARD + "x", " or x", " -> skip end"), f"refused S3 1:{len(GUARD) + 1}"),
    ("if in if", GUARD + "true -> " + "if true -> " * 32 + "skip " + "fi " * 32 + "end", None),
    ("( in (", VALUE + "(" * 32 + "1" + ")" * 32 + " end", None),
    ("statements", long(GUARD + "true -> skip", ";skip", " end"), None),
    ("branches", long(GUARD + "true -> if x -> skip", "[] x -> skip", " fi end"), None),
    ("targets", long(GUARD + "true -> x", ",x", " := 1 end"), None),
    ("processes", long("", "process a begin end "), None),
]
BAD_LINE = b"bad line 1\n"
SCHEDULES = [
    ("a line of 33 MB", b"a" * 33_000_000),
    ("a number of 33 MB", b"turn a " + b"1" * 33_000_000),
    ("a name of 33 MB", b"arrive a " + b"b" * 33_000_000 + b"\n"),
    ("33 MB of spaces", b" " * 33_000_000),
    ("bytes", bytes(range(256)) * 4096),
    ("bytes of 0", bytes(1_000_000)),
]


def ends(words):
    try:
        return run(*words, timeout=SECONDS)
    except subprocess.TimeoutExpired:
        return f"not ended in {SECONDS} seconds", b""


def main():
    cases = Cases()
    with tempfile.TemporaryDirectory() as folder:
        path = os.path.join(folder, "input")
        for what, text, refusal in TEXTS:
            write(path, text)
            for words in ["check", path], ["print", path], ["world", path, SCHEDULE]:
                status, written = ends(words)
                if refusal is None:
                    right = status == 0 or (words[0] != "print" and status in (1, 3))
                else:
                    right = (status, written) == (1, f"{refusal}\n".encode())
                cases.hold(right, f"{words[0]}, {what}: status {status}, written {written[:60]!r}")
        for what, schedule in SCHEDULES:
            write(path, schedule)
            status, written = ends(["world", TEXT, path])
            cases.hold((status, written) == (3, BAD_LINE), f"{what}: status {status}, written {written[:60]!r}")
    cases.finish()


main()
