"""What README.md and docs/*.md show of a run is what the program writes: no proof reads the pages.

A shown run is a fenced block, indented or not, that begins with a line `$ ./tapc WORD ..` or `$ cat FILE`. Each such
line is followed by what is written, up to the next one.
"""
import glob
import re
import shlex

from lib.program import Cases, read, run


def blocks(page):
    """The lines of each fenced block, without its indent."""
    for indent, inside in re.findall(r"^( *)```\n(.*?)^\1```$", page, re.S | re.M):
        yield [line[len(indent):] for line in inside.splitlines()]


def shown(block):
    """Each command of a block, as its words, with the lines that are shown behind it."""
    found = []
    for line in block:
        if line.startswith("$ "):
            found.append((shlex.split(line[2:], comments=True), []))
        else:
            found[-1][1].append(line + "\n")
    return found


def written_by(words):
    if words[0] == "cat" and len(words) == 2:
        return read(words[1]).decode()
    if words[0] == "./tapc":
        return run(*words[1:])[1].decode()
    return None


def main():
    cases = Cases()
    runs = {}
    for name in ["README.md", *sorted(glob.glob("docs/*.md"))]:
        runs[name] = 0
        for block in blocks(read(name).decode()):
            if not re.match(r"\$ (\./tapc|cat) ", block[0] if block else ""):
                continue
            for words, lines in shown(block):
                wanted, written = "".join(lines), written_by(words)
                cases.hold(wanted == written, f"{name}: $ {shlex.join(words)}\nshows {wanted!r}\nwritten {written!r}")
                runs[name] += words[0] == "./tapc"
    for name, least in ("README.md", 3), ("docs/runs.md", 8):
        cases.hold(runs[name] >= least, f"{name}: {runs[name]} runs are shown, and at least {least} are expected")
    cases.finish()


main()
