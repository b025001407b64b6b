"""What `print` writes of a text is printed as it is.

The texts are those of the examples, and those in the tables of the tests of the reader of texts. That is proved of
texts in memory; here the text goes to the disk and back.
"""
import glob
import os
import re
import tempfile

from lib.program import Cases, read, run, write

TABLES = "crates/*_tests/src/*.rt"


def texts():
    for path in sorted(glob.glob("examples/*/*.tap")):
        yield read(path)
    for table in sorted(glob.glob(TABLES)):
        for quoted in re.findall(r'"((?:[^"\\\n]|\\.)*)"', read(table).decode()):
            if quoted.startswith(("process", "message")):
                yield quoted.replace("^", "").encode()


def main():
    cases = Cases()
    with tempfile.TemporaryDirectory() as folder:
        first, second = os.path.join(folder, "first"), os.path.join(folder, "second")
        for text in texts():
            write(first, text)
            status, once = run("print", first)
            if status == 1:
                continue
            write(second, once)
            cases.hold(status == 0 and run("print", second) == (0, once), f"printed otherwise: {text!r}")
    cases.finish(least=20)


main()
