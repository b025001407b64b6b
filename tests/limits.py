"""Each limit of the language, at its border on both sides.

At the border a text is accepted, and with an empty schedule its variables and the end are written. One step further it
is refused by both commands, at the place that the mark ^ shows. The limits are proved as definitions; that the numbers
of the manual are those is not.
"""
import os
import re
import tempfile

from lib.program import Cases, run, write

ACCEPTED = "accepted"
TOO_LONG = "refused L0 1:1"
END = " begin end"


def many(front, part, joint, count, back):
    """A part said so many times, its last time with a mark before it; # in it is its number."""
    parts = [part.replace("#", str(i)) for i in range(count)]
    return front + joint.join(parts[:-1] + ["^" + parts[-1]]) + back


def processes(count):
    return many("process ", "p# begin end", " process ", count, "")


def messages(count):
    return many("message ", "m# begin f : 8 bits end", " message ", count, " process a" + END)


def fields(count):
    return many("message m begin ", "f# : 8 bits", "; ", count, " end process a" + END)


def inputs(count):
    return many("process a inp ", "i# : boolean", "; ", count, END)


def variables(count):
    return many("process a var ", "v# : boolean", "; ", count, END)


def timers(count):
    return many("process a timer ", "t#", ", ", count, END)


def actions(count):
    return many("process a begin ", "# = 0 -> skip", " [] ", count, " end")


def constants(count):
    return many("process a const ", "k# = #", "; ", count, END)


def array(cells):
    return f"process a var ^x : array {cells} of boolean" + END


def behind_an_array(cells):
    return f"process a var x : array {cells - 1} of boolean; ^y : boolean" + END


def turns(count):
    return f"process a begin true -> do ^{count} times true -> skip od end"


def chosen(values):
    return f"process a var x : 1..{values} begin true -> choose ^x end"


def chosen_of_cells(values):
    return f"process a var x : array 2 of -1..{values - 2} begin true -> choose ^x[1] end"


def width(bits):
    return f"message m begin ^f : {bits} bits end process a" + END


def fixed(value):
    return f"message m begin ^f : 8 bits = {value} end process a" + END


def size_of_message(count):
    """A message of so many bytes: 146 fields of 7 of them, and further ones of one."""
    listed = "; ".join(f"f{i} : {w} bits" for i, w in enumerate([56] * 146 + [8] * (count - 1022)))
    return f"message ^m begin {listed} end process a" + END


def cost(most):
    """An action of this cost: its guard costs 1, the loop 1 + 1000 * (1 + 1 + 997), and each other statement 1."""
    turn, others = "; ".join(["skip"] * 997), "; skip" * (most - 999_002)
    return f"process a begin ^true -> do 1000 times true -> {turn} od{others} end"


def sends(count):
    sent = "; ".join(["send m(1) to b"] * count)
    return f"message m begin f : 8 bits end process a begin ^true -> {sent} end process b begin rcv m from a -> skip end"


def size(length):
    text = "process a begin end #"
    return text + "x" * (length - len(text))


def named(front, back):
    return lambda length: front + "^" + "n" * length + back


# What is limited, the texts by their number, the limit, and what is told of the text behind it.
LIMITS = [
    ("processes", processes, 64, "X1"),
    ("messages", messages, 256, "X1"),
    ("fields of a message", fields, 256, "X1"),
    ("inputs of a process", inputs, 256, "X1"),
    ("variables of a process", variables, 4096, "X1"),
    ("cells of an array", array, 4096, "X1"),
    ("cells of a process", behind_an_array, 4096, "X1"),
    ("timers of a process", timers, 32, "X1"),
    ("actions of a process", actions, 256, "X1"),
    ("turns of a loop", turns, 65536, "X1"),
    ("values of a choice", chosen, 2**32, "X1"),
    ("values of a choice of a cell", chosen_of_cells, 2**32, "X1"),
    ("bytes of a message's name", named("message ", " begin f : 8 bits end process a" + END), 64, "X1"),
    ("bytes of a field's name", named("message m begin ", " : 8 bits end process a" + END), 64, "X1"),
    ("bytes of a process's name", named("process ", END), 64, "X1"),
    ("bytes of a constant's name", named("process a const ", " = 1" + END), 64, "X1"),
    ("bytes of an input's name", named("process a inp ", " : boolean" + END), 64, "X1"),
    ("bytes of a variable's name", named("process a var ", " : boolean" + END), 64, "X1"),
    ("bytes of a timer's name", named("process a timer ", END), 64, "X1"),
    ("bits of a field", width, 63, "X2"),
    ("a fixed value of 8 bits", fixed, 255, "X2"),
    ("bytes of a message", size_of_message, 1024, "M1"),
    ("cost of an action", cost, 1_000_000, "W6"),
    ("sends of an action", sends, 64, "W7"),
    ("bytes of a text", size, 1048576, "L0"),
]
# What has no limit but that of the text.
FREE = [("constants of a process", constants(5000))]


def unmarked(marked):
    """A text without its mark, and where the mark stood, which is the start where there is none."""
    at = max(marked.find("^"), 0)
    return marked.replace("^", ""), f"1:{at + 1}"


def settings(text):
    """A setting for each input of a text, all of which are truths of the process a."""
    return [f"a.{name}=0" for name in re.findall(r"(\w+) : boolean", text.partition(" inp ")[2])]


def main():
    cases = Cases()
    with tempfile.TemporaryDirectory() as folder:
        system, schedule = os.path.join(folder, "system.tap"), os.path.join(folder, "empty.sch")
        write(schedule, "")

        def told(text):
            write(system, text)
            status, written = run("check", system)
            again, lines = run("world", system, schedule, *settings(text))
            line = written.decode().split("\n")[0]
            if line == ACCEPTED:
                cases.hold((status, again) == (0, 0) and lines.endswith(b"end\n"), f"accepted, and not run: {again}")
            else:
                cases.hold((status, again, lines) == (1, 1, written), f"{line}: world writes {lines[:60]!r}, {again}")
            return line

        for what, text_of, most, code in LIMITS:
            line = told(unmarked(text_of(most))[0])
            cases.hold(line == ACCEPTED, f"{what}: {line}, and at the limit {ACCEPTED} is due")
            text, place = unmarked(text_of(most + 1))
            line, due = told(text), f"refused {code} {place}"
            cases.hold(line == due, f"{what}: {line}, and beyond the limit {due} is due")
        for what, text in FREE:
            cases.hold(told(unmarked(text)[0]) == ACCEPTED, f"{what}: refused")
    cases.finish(least=100)


main()
