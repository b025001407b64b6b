"""What the manual says of the grammar is what the program reads, over made texts: the manual is not proved.

Texts are made from the grammar as the manual draws it, and most of them have some tokens changed. A recognizer that
knows that drawing alone finds the first token such that the tokens up to and with it begin no text; there `print`
must refuse S1, just behind the last token where only the end is wrong, and print all others.
"""
import collections
import os
import random
import tempfile

from lib.grammar import SPELLINGS, Grammar, drawn_grammar, first_stranger
from lib.program import Cases, run, write

COUNT = 400
LONGEST = 120
DEEPEST = 32
BLANKS = [" ", " ", " ", "  ", "\n", "\t", "\r\n", "\n\n ", " # or [] ) 1\n"]


def made(grammar, chance, symbol, depth):
    """Tokens that a symbol spells."""
    if symbol not in grammar.rules:
        return [chance.choice(SPELLINGS.get(symbol, [symbol.strip('"')]))]
    rule = grammar.rules[symbol]
    if depth <= grammar.depths[symbol]:
        least = min(max([grammar.depths[s] for s in a], default=0) for a in rule)
        rule = [a for a in rule if max([grammar.depths[s] for s in a], default=0) == least]
    return [token for s in chance.choice(rule) for token in made(grammar, chance, s, depth - 1)]


def changed(grammar, chance, tokens):
    """The tokens, with one of them changed."""
    tokens = list(tokens)
    at = chance.randrange(len(tokens) + 1)
    terminal = chance.choice(grammar.terminals)
    new = chance.choice(SPELLINGS.get(terminal, [terminal.strip('"')]))
    how = chance.randrange(5)
    if how == 0:
        tokens.insert(at, new)
    elif how == 1:
        tokens[at : at + 1] = [new]
    elif how == 2:
        del tokens[at : at + 1]
    elif how == 3:
        tokens[at : at + 2] = reversed(tokens[at : at + 2])
    else:
        del tokens[at:]
    return tokens


def is_shallow(tokens):
    depth = deepest = 0
    for token in tokens:
        if token in ("(", "[", "if", "do"):
            depth += 1
            deepest = max(deepest, depth)
        elif token in (")", "]", "fi", "od"):
            depth -= 1
    return deepest <= DEEPEST


def laid_out(chance, tokens):
    """A text of the tokens, and the place of each, and of what is just behind the last."""
    text = ""
    places = []
    for token in tokens:
        text += chance.choice(BLANKS)
        places.append(place_behind(text))
        text += token
    end = place_behind(text) if tokens else "1:1"
    return text + chance.choice(BLANKS), places + [end]


def place_behind(text):
    return f"{text.count(chr(10)) + 1}:{len(text) - text.rfind(chr(10))}"


def texts(grammar, chance):
    """The tokens of texts, without end; some are of the grammar, and most have tokens changed."""
    while True:
        tokens = made(grammar, chance, "system", chance.randrange(8, 30))
        for _ in range(chance.choice([0, 1, 1, 1, 2])):
            tokens = changed(grammar, chance, tokens)
        if len(tokens) <= LONGEST and is_shallow(tokens):
            yield tokens


def main():
    chance = random.Random(20)
    grammar = Grammar(drawn_grammar())
    cases = Cases()
    kinds = collections.Counter()
    with tempfile.TemporaryDirectory() as folder:
        path = os.path.join(folder, "system.tap")
        for _, tokens in zip(range(COUNT), texts(grammar, chance)):
            stranger = first_stranger(grammar, tokens)
            text, places = laid_out(chance, tokens)
            write(path, text)
            status, written = run("print", path)
            if stranger is None:
                kind, right = "printed", status == 0
            else:
                kind = "cut short" if stranger == len(tokens) else "refused"
                right = (status, written) == (1, f"refused S1 {places[stranger]}\n".encode())
            kinds[kind] += 1
            cases.hold(right, f"answered otherwise ({kind}, token {stranger}): {text!r}: {written[:60]!r}")
    for kind in ("printed", "cut short", "refused"):
        cases.hold(kinds[kind] >= COUNT // 10, f"too few texts that are {kind}: {kinds[kind]}")
    cases.finish(least=COUNT)


main()
