"""Where the n-th request for memory is refused, and where all from it on are, every command ends well, for every n.

A run ends with status 7 and `no memory` behind whole lines of its usual output, which only `world` and `make` may have; or as it
would end with ample memory. Never with a signal. No proof says that the program's own words are read and answered
where memory is short. A small library, loaded before the C library, refuses.
"""
import os
import shutil
import subprocess
import tempfile

from lib.program import Cases, run, skip

TEXT, SCHEDULE = "examples/relay/relay.tap", "examples/relay/relay.sch"
COMMANDS = [
    ["check", TEXT],
    ["print", "examples/loose/loose.tap"],
    ["world", TEXT, SCHEDULE],
    ["world", "examples/counter/counter.tap", "examples/counter/bad_line.sch"],
    ["world", "examples/hello/hello.tap", "examples/hello/hello.sch", "a.number=42"],
    ["world", "examples/hello/hello.tap", "examples/hello/hello.sch", "a.number=256"],
    ["world", "examples/hello/hello.tap", "examples/hello/hello.sch", "a.number"],
    ["world", "examples/draws/draws.tap", "examples/draws/draws.sch", "seed=1"],
    ["replay", TEXT, "examples/relay/relay.out"],
    ["replay", TEXT, SCHEDULE],
    ["make", TEXT, "1", "200", "20"],
    ["soak", TEXT, "1", "20", "5"],
    ["check", "examples/refused/s1_missing_arrow.tap"],
    ["check", "examples/refused/m3_received_from_another_process.tap"],
    ["check", "examples/no-such-file"],
    ["no", "command"],
    [],
]
MOST = 5000


def refused_from(library, number, words, **more):
    """How many requests were refused, the status and the output of a run where those from this number on are."""
    told, tells = os.pipe()
    env = {"LD_PRELOAD": library, "REFUSE": str(number), "REFUSE_TELL": str(tells), **more}
    try:
        status, written = run(*words, env=env, pass_fds=[tells])
    finally:
        os.close(tells)
    count = len(os.read(told, 65536))
    os.close(told)
    return count, status, written


def ends_well(words, usual, status, written):
    if (status, written) == usual:
        return True
    front, line = written[:-len(b"no memory\n")], written[-len(b"no memory\n"):]
    may_have_lines = words[:1] in (["world"], ["make"])
    return (status, line) == (7, b"no memory\n") and (
        front == b"" or (may_have_lines and front.endswith(b"\n") and usual[1].startswith(front)))


def main():
    compiler = shutil.which("cc") or shutil.which("gcc") or skip("no C compiler, to build what refuses memory")
    cases = Cases()
    with tempfile.TemporaryDirectory() as folder:
        library = os.path.join(folder, "refuse.so")
        subprocess.run([compiler, "-shared", "-fPIC", "-O1", "-o", library, "tests/data/refuse.c"], check=True)
        for words in COMMANDS:
            usual = run(*words)
            for more in {}, {"REFUSE_ALL": "1"}:
                wanting, number, count = 0, 0, 1
                while count and number < MOST:
                    number += 1
                    count, status, written = refused_from(library, number, words, **more)
                    wanting += status == 7
                    right = ends_well(words, usual, status, written)
                    cases.hold(right, f"{words}, request {number} {more}: status {status}, written {written[-60:]!r}")
                cases.hold(not count, f"{words} {more}: memory is asked for more than {MOST} times")
                cases.hold(wanting, f"{words} {more}: no run ends for want of memory")
    cases.finish()


main()
