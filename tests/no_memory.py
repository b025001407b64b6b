"""Finds places in crates/*/src that make want of memory from anything but a refused allocation.

No contract ties want of memory to a cause, so the sources are read. `NoMemory` may be named as a type, matched, and
handed on from one error type to another, also by a line of its own behind `Err(NoMemory) => {`; it may be made in an
`impl From` of an allocation error or of another want of memory, and in the `else` of a `let Ok(..)`, or for the `Err(_)`
of a `match`, over a call that gives no other error. Any other line that names it is printed. Crates of tests are left out.
"""
import pathlib
import re

from lib.program import Cases

ALLOWED = [
    r"^\s*//", r"^\s*(ensures|requires|ghost)\b",
    r"\bstruct NoMemory\b", r"From<NoMemory>", r"\bfor NoMemory\b", r"->\s*NoMemory\b", r"\b_\w*: NoMemory\b",
    r"Result<.*NoMemory>",              # a type
    r"^\s*NoMemory,\s*$",               # a variant's declaration
    r"\bNoMemory\)*\s*(\|.*)?=>",       # a pattern: it is handed on, or left as it is
    r"\bStatus::NoMemory\s*=>",
    r"\bFromHexError::OutOfMemory =>",   # it is handed on
]

# The calls of the kit that give no other error.
OF_KIT = {"encode"}


def without_imports(text):
    """The text with each `use` item emptied, its lines kept."""
    return re.sub(r"(?m)^\s*(ghost |pub )?use [^;]*;", lambda m: "\n" * m.group(0).count("\n"), text)


def giving_it_alone(paths):
    """The names of the functions whose one error is want of memory."""
    declared = r"\bfn (\w+)\b(?:<[^(]*>)?\([^)]*\)\s*->\s*Result<[^{;]*, (?:NoMemory|AllocError)>"
    return {name for path in paths for name in re.findall(declared, path.read_text())}


def offences(path, alone):
    inside_from = inside_else = inside_match = inside_arm = False
    for number, line in enumerate(without_imports(path.read_text()).splitlines(), 1):
        call = re.match(r"\s*let Ok\(.*\) = (?:\w+(?:::|\.))*(\w+)\(.*\) else \{$", line)
        if call:
            inside_else = call.group(1) in alone
        elif re.match(r"\s*};\s*$", line):
            inside_else = False
        matched = re.search(r"\bmatch (?:\w+(?:::|\.))*(\w+)\(.*\) \{$", line)
        if matched:
            inside_match = matched.group(1) in alone | OF_KIT
        elif re.match(r"\s*};?\s*$", line):
            inside_match = False
        if re.match(r"\s*Err\(NoMemory\) => \{$", line):
            inside_arm = True
        elif re.match(r"\s*}\s*$", line):
            inside_arm = False
        if re.search(r"\bfn from\(", line):
            inside_from = True
        elif re.match(r"\s*}\s*$", line):
            inside_from = False
        if "NoMemory" not in line or inside_from or inside_else:
            continue
        if inside_arm and re.match(r"\s*Err\(\w+::NoMemory\)$", line):
            continue
        if inside_match and re.match(r"\s*Err\(_\) => return Err\(\w+::NoMemory\),$", line):
            continue
        if any(re.search(pattern, line) for pattern in ALLOWED):
            continue
        yield number, line


def main():
    cases = Cases()
    paths = sorted(path for path in pathlib.Path("crates").glob("*/src/**/*.rt") if not path.parts[1].endswith("_tests"))
    alone = giving_it_alone(paths)
    for path in paths:
        found = [f"{path}:{number}: {line.strip()}" for number, line in offences(path, alone)]
        cases.hold(not found, "\n".join(found))
    cases.finish(least=50)


main()
