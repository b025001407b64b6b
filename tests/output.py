"""Output that is not taken ends each command with status 5, with no signal and nothing on standard error.

The proofs count a fault of standard output and cannot say when there is one. A full device refuses the first byte, a
pipe that nobody reads as well, and a pipe whose reader goes away takes a part.
"""
import os
import subprocess
import tempfile

from lib.program import TAPC, Cases, run, skip, write

TEXT, SCHEDULE = "examples/ping/ping.tap", "examples/ping/ping.sch"
COMMANDS = [
    ["check", TEXT],
    ["print", TEXT],
    ["world", TEXT, SCHEDULE],
    ["replay", TEXT, "examples/ping/ping.out"],
    ["make", TEXT, "1", "20", "5"],
    ["soak", TEXT, "1", "20", "5"],
    ["world", "examples/counter/counter.tap", "examples/counter/bad_line.sch"],
    ["world", "examples/hello/hello.tap", "examples/hello/unset.sch"],
    ["check", "examples/refused/s1_missing_arrow.tap"],
    ["check", "examples/no-such-file"],
    ["no", "command"],
    [],
]


def into_pipe_that_is_left(words):
    """The status of a run whose reader takes one byte and goes away."""
    with subprocess.Popen([TAPC, *words], stdout=subprocess.PIPE) as child:
        os.read(child.stdout.fileno(), 1)
        child.stdout.close()
        return child.wait(timeout=60)


def main():
    if not os.path.exists("/dev/full"):
        skip("no /dev/full")
    cases = Cases()
    for words in COMMANDS:
        with open("/dev/full", "wb") as full:
            status, _ = run(*words, stdout=full)
        cases.hold(status == 5, f"{words} into a full device: status {status}")
        reads, writes = os.pipe()
        os.close(reads)
        status, _ = run(*words, stdout=writes)
        os.close(writes)
        cases.hold(status == 5, f"{words} into a closed pipe: status {status}")
        with open(os.devnull, "rb") as for_reading:
            status, _ = run(*words, stdout=for_reading)
        cases.hold(status == 5, f"{words} into what is open for reading alone: status {status}")
    with tempfile.TemporaryDirectory() as folder:
        schedule, text = os.path.join(folder, "schedule"), os.path.join(folder, "text")
        write(schedule, "arrive a b\n" * 1_000_000)
        write(text, "process a begin end " * 50_000)
        for words in ["world", TEXT, schedule], ["print", text]:
            status = into_pipe_that_is_left(words)
            cases.hold(status == 5, f"{words} into a pipe whose reader goes away: status {status}")
    cases.finish()


main()
