"""The grammar as docs/language.md draws it, and a recognizer of Earley's kind that knows nothing but that."""
import collections
import re

from lib.program import read

PAGE = "docs/language.md"
SPELLINGS = {"name": ["a", "b", "x1", "sum", "Begin"], "number": ["0", "1", "07", "65536"]}


def drawn_grammar():
    """The grammar of the whole language, as the manual draws it."""
    return re.findall(r"```\n(system .*?)```", read(PAGE).decode(), re.S)[-1]


class Grammar:
    """Rules without brackets and braces: of each symbol its alternatives, each a tuple of symbols."""

    def __init__(self, drawn):
        self.rules = {}
        self.tokens = re.findall(r'"[^"]*"|[a-z]+|[=|(){}\[\]]', drawn)
        self.at = 0
        while self.at < len(self.tokens):
            head = self.tokens[self.at]
            self.at += 2
            self.rules[head] = self.alternatives()
        symbols = [s for rule in self.rules.values() for alternative in rule for s in alternative]
        self.terminals = sorted({s for s in symbols if s not in self.rules})
        self.words = {t[1:-1] for t in self.terminals if t[1:-1].isalpha()}
        self.empty = self.fixed_point(lambda known, rule: any(all(s in known for s in a) for a in rule))
        self.depths = self.least_depths()

    def fixed_point(self, holds):
        known = set()
        while True:
            more = {head for head, rule in self.rules.items() if holds(known, rule)}
            if more <= known:
                return known
            known |= more

    def least_depths(self):
        depths = {t: 0 for t in self.terminals}
        while len(depths) < len(self.terminals) + len(self.rules):
            for head, rule in self.rules.items():
                known = [max([depths[s] for s in a], default=0) for a in rule if all(s in depths for s in a)]
                if known and head not in depths:
                    depths[head] = 1 + min(known)
        return depths

    def alternatives(self):
        found = [self.sequence()]
        while self.peek() == "|":
            self.at += 1
            found.append(self.sequence())
        return found

    def peek(self):
        return self.tokens[self.at] if self.at < len(self.tokens) else None

    def sequence(self):
        symbols = []
        while self.peek() not in (None, "|", ")", "]", "}"):
            if self.at + 1 < len(self.tokens) and self.tokens[self.at + 1] == "=":
                break
            token = self.peek()
            self.at += 1
            if token in ("(", "[", "{"):
                inner = self.alternatives()
                self.at += 1
                token = self.group(token, inner)
            symbols.append(token)
        return tuple(symbols)

    def group(self, bracket, inner):
        head = f"<{len(self.rules)}>"
        self.rules[head] = inner
        if bracket == "[":
            self.rules[head] = inner + [()]
        elif bracket == "{":
            self.rules[head] = [alternative + (head,) for alternative in inner] + [()]
        return head

    def is_spelled(self, terminal, token):
        if terminal == "name":
            return token[0].isalpha() and token not in self.words
        if terminal == "number":
            return token[0].isdigit()
        return token == terminal[1:-1]


def first_stranger(grammar, tokens):
    """The number of the first token such that those up to and with it begin no text; how many there are where only
    the end is wrong; none where the tokens are a text."""
    start = ("system", ("system",), 0, 0)
    waiting = {"system": [("^", ("system",), 0, 0)]}
    columns = []
    items = {("^", ("system",), 0, 0)}
    for at in range(len(tokens) + 1):
        items, waiting = closed(grammar, items, at, columns)
        columns.append(waiting)
        if at == len(tokens):
            break
        following = {
            (head, body, dot + 1, since)
            for head, body, dot, since in items
            if dot < len(body) and body[dot] not in grammar.rules and grammar.is_spelled(body[dot], tokens[at])
        }
        if not following:
            return at
        items = following
    if ("^", ("system",), 1, 0) in items:
        return None
    return len(tokens)


def closed(grammar, items, at, columns):
    """All that may stand at a place, and by symbol what waits there for it."""
    waiting = collections.defaultdict(list)
    seen = set(items)
    todo = list(items)
    while todo:
        item = head, body, dot, since = todo.pop()
        if dot == len(body):
            before = waiting if since == at else columns[since]
            more = [(h, b, d + 1, s) for h, b, d, s in list(before[head])]
        elif body[dot] in grammar.rules:
            waiting[body[dot]].append(item)
            more = [(body[dot], alternative, 0, at) for alternative in grammar.rules[body[dot]]]
            if body[dot] in grammar.empty:
                more.append((head, body, dot + 1, since))
        else:
            more = []
        for one in more:
            if one not in seen:
                seen.add(one)
                todo.append(one)
    return seen, waiting
