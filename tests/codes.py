"""What docs/codes.md draws is what the program writes: the page is not proved, and a drawing is easily a column off.

A drawing is a fenced block with one line of a single caret under the line of a text, and then one line
`refused CODE LINE:COLUMN`. The caret must stand at that place, and `check` must write that line of the text
without the two. A block with neither is a text that is accepted. A block that begins with `$ ` is a run, which the
check of the pages compares; the codes that it shows are drawn too.
"""
import os
import re
import tempfile

from lib.program import Cases, read, run, write

PAGE = "docs/codes.md"


def drawn(block):
    """The text of a block, the place of its caret, and the line that is to be written of it."""
    carets = [at for at, line in enumerate(block) if re.fullmatch(r" *\^", line)]
    if not carets:
        return "\n".join(block) + "\n", None, "accepted"
    at, = carets
    place = f"{at}:{len(block[at])}"
    return "\n".join(block[:at] + block[at + 1:-1]) + "\n", place, block[-1]


def main():
    cases = Cases()
    codes = set()
    page = read(PAGE).decode()
    with tempfile.TemporaryDirectory() as folder:
        name = os.path.join(folder, "text.tap")
        for block in re.findall(r"^```\n(.*?)\n```$", page, re.S | re.M):
            if block.startswith("$ "):
                codes.update(re.findall(r"^refused ([A-Z]\d+) ", block, re.M))
                continue
            text, place, line = drawn(block.split("\n"))
            write(name, text)
            _, written = run("check", name)
            if place is None:
                right = re.fullmatch(r"accepted\n(message [A-Za-z]\w* \d+\n)*(process [A-Za-z]\w* \d+ \d+\n)+", written.decode()) is not None
            else:
                right = written.decode() == line + "\n" and line.split()[2] == place
            cases.hold(right, f"{PAGE}: {line}, drawn at {place}: the program writes {written!r}")
            if place is not None:
                codes.add(line.split()[1])
    named = set(re.findall(r"^## ([A-Z]\d+):", page, re.M)) - {"L0"}
    cases.hold(named == codes, f"{PAGE}: the sections are of {sorted(named)}, and drawn are {sorted(codes)}")
    cases.finish(least=10)


main()
