"""Traces that are changed in one place: cut at a byte, with a line missing, doubled, exchanged with the next, or with one
number changed. Only a trace that lost its last line feed is still one; every other answer is one line, with the number of a
line that is not before the change.
"""
import os
import re
import tempfile

from lib.program import Cases, read, run, write

RUNS = ["abp/copied", "abp/lost", "ping/ping", "ring/ring"]


def verdict(system, settings, text, folder):
    path = f"{folder}/trace"
    write(path, text)
    return run("replay", system, path, *settings)


def number_of(status, said):
    """The number of the line that is answered; none where the answer is not one of the three."""
    if status == 0 and said == b"run\n":
        return 0
    found = re.fullmatch(rb"bad line (\d+)\n" if status == 3 else rb"not a run: line (\d+)\n", said)
    return int(found[1]) if found and status in (3, 8) else None


def main():
    cases = Cases()
    with tempfile.TemporaryDirectory() as folder:
        for name in RUNS:
            system, trace, words = f"examples/{name.split('/')[0]}/{name.split('/')[0]}.tap", f"examples/{name}.out", f"examples/{name}.settings"
            settings = read(words).decode().split() if os.path.exists(words) else []
            whole = read(trace)
            lines = whole.splitlines(keepends=True)

            def judged(text, first, what, can_be_run=False):
                found = number_of(*verdict(system, settings, text, folder))
                if can_be_run and found == 0:
                    cases.hold(True, what)
                else:
                    cases.hold(found is not None and found >= first, f"{trace}: {what}: {found}")

            cases.hold(number_of(*verdict(system, settings, whole, folder)) == 0, f"{trace} as it is")
            for at in range(len(whole)):
                found = number_of(*verdict(system, settings, whole[:at], folder))
                if at == len(whole) - 1:
                    cases.hold(found == 0, f"{trace}: without the last line feed: {found}")
                else:
                    # What is left of a cut line may be a line of its own, so that the next one is wanting.
                    line = whole[:at].count(b"\n") + 1
                    begun = at > 0 and whole[at - 1:at] != b"\n"
                    wanted = {line + 1} if begun and whole[at:at + 1] == b"\n" else {line, line + 1} if begun else {line}
                    cases.hold(found in wanted, f"{trace}: cut at {at}: {found}, wanted {wanted}")
            for at, line in enumerate(lines):
                before, behind = b"".join(lines[:at]), b"".join(lines[at + 1:])
                # What is left may be another run, where the line changed nothing that a later one shows.
                judged(before + behind, at + 1, f"without line {at + 1}", can_be_run=True)
                judged(before + line + line + behind, at + 1, f"line {at + 1} twice", can_be_run=True)
                if at + 1 < len(lines) and lines[at + 1] != line:
                    swapped = lines[at + 1] + line + b"".join(lines[at + 2:])
                    judged(before + swapped, at + 1, f"lines {at + 1} and {at + 2} exchanged", can_be_run=True)
                for word in re.finditer(rb"(?<= )\d+(?=[ \n])", line):
                    other = b"%d" % (int(word[0]) + 1)
                    changed = line[:word.start()] + other + line[word.end():]
                    judged(before + changed + behind, at + 1, f"line {at + 1} with {other!r}", can_be_run=line.startswith(b"tick"))
        for text in (b"\x00" * 5000, b"\xff\xfe\n", b"\n", b"end\n\x00"):
            status, said = verdict("examples/ping/ping.tap", [], text, folder)
            cases.hold(status in (3, 8) and said.count(b"\n") == 1, f"{text[:10]!r}: {status} {said!r}")
    cases.finish(least=500)


if __name__ == "__main__":
    main()
