"""Which parts of an assertion are false where it fails: each top-level conjunct alone is put in its place, and `pale replay` judges it."""
from dataclasses import dataclass

from .judging import request
from .reports import store_text
from .sources import Source

# More parts than that aren't asked one by one.
MOST_PARTS = 32


@dataclass
class Part:
    """Tokens of the text, and what the assertion is to its place."""

    tokens: list
    what: str

    def text(self, source):
        begin, end = span(source, self.tokens)
        return " ".join(source.data[begin:end].decode("utf-8", "replace").split())


def closing(tokens, at):
    """The place of the bracket that closes the one at this place."""
    depth = 0
    for place in range(at, len(tokens)):
        depth += {"[": 1, "]": -1}.get(tokens[place].text, 0)
        if depth == 0:
            return place
    return at


def bracketed(tokens, at, word, stops):
    """The tokens between the brackets behind the next such word, looked for up to one of the stops at no depth."""
    depth = 0
    for place in range(at, len(tokens)):
        text = tokens[place].text
        if text == word and depth == 0 and place + 1 < len(tokens) and tokens[place + 1].text == "[":
            return tokens[place + 2: closing(tokens, place + 1)]
        depth += {"(": 1, "[": 1, ")": -1, "]": -1}.get(text, 0)
        if text in stops and depth == 0:
            return []
    return []


def invariant_behind(tokens, at):
    """The tokens of a loop's invariant, behind the parentheses of its condition."""
    depth = 0
    for place in range(at + 1, len(tokens)):
        depth += {"(": 1, ")": -1}.get(tokens[place].text, 0)
        if depth == 0:
            return tokens[place + 2: closing(tokens, place + 1)] if place + 1 < len(tokens) and tokens[place + 1].text == "[" else []
    return []


def procedure_at(tokens, name):
    return next((at for at in range(len(tokens) - 1) if tokens[at].text == "proc" and tokens[at + 1].text == name), None)


def assertions_at(source, finding):
    """The assertions that are asked where the finding is: each as its tokens and what it is."""
    tokens, found = source.tokens(), []
    for at, token in enumerate(tokens):
        if token.line != finding.at:
            continue
        if token.text == "while":
            found.append((invariant_behind(tokens, at), "invariant"))
        elif token.text in ("split", "assert") and (token.text == "assert") == (finding.cause == "assert"):
            found.append((bracketed(tokens, at, token.text, (";",)), "assertion"))
        elif token.text == "call":
            callee = called_at(tokens, at)
            start = procedure_at(tokens, callee)
            found.append((bracketed(tokens, start, "pre", ("{",)) if start is not None else [], f"precondition of {callee}"))
            found.append((bracketed(tokens, at, "keep", (";",)), "keep"))
    if finding.cause == "post":
        start = procedure_at(tokens, finding.procedure)
        if start is not None and last_line(tokens, start) == finding.at:
            found.append((bracketed(tokens, start, "post", ("{",)), "postcondition"))
    return [(part, what) for part, what in found if part]


def called_at(tokens, at):
    """The name of the procedure that the `call` at this place calls."""
    for place in range(at + 1, len(tokens) - 1):
        if tokens[place + 1].text == "(":
            return tokens[place].text
    return ""


def last_line(tokens, start):
    """The line of the brace that closes the procedure which begins there."""
    depth = 0
    for token in tokens[start:]:
        depth += {"{": 1, "}": -1}.get(token.text, 0)
        if token.text == "}" and depth == 0:
            return token.line
    return 0


def conjuncts(tokens):
    """The parts between the top-level `&` of an assertion: all of it where another operator is on top. A quantifier reaches to the end."""
    while len(tokens) > 2 and tokens[0].text == "(" and group_ends(tokens) == len(tokens) - 1:
        tokens = tokens[1:-1]
    parts, depth, begun = [], 0, 0
    for place, token in enumerate(tokens):
        if depth == 0 and token.text in ("|", "=>", "<=>"):
            return [tokens]
        if depth == 0 and token.text in ("ex", "all"):
            break
        depth += {"(": 1, ")": -1}.get(token.text, 0)
        if depth == 0 and token.text == "&":
            parts.append(tokens[begun:place])
            begun = place + 1
    return [*parts, tokens[begun:]]


def group_ends(tokens):
    """Where the group ends that the first token opens."""
    depth = 0
    for place, token in enumerate(tokens):
        depth += {"(": 1, ")": -1}.get(token.text, 0)
        if depth == 0:
            return place
    return -1


def span(source, tokens):
    """Where these tokens begin and end, in bytes of the text."""
    starts = [0]
    for line in source.data.split(b"\n"):
        starts.append(starts[-1] + len(line) + 1)
    first, last = tokens[0], tokens[-1]
    return starts[first.line - 1] + first.column - 1, starts[last.line - 1] + last.column - 1 + len(last.text.encode())


def with_only(source, wholes, chosen, part):
    """The text with the part in the place of the chosen assertion and `true` in that of the others; lines stay what they were."""
    data = source.data
    for whole in sorted(wholes, key=lambda it: span(source, it), reverse=True):
        begin, end = span(source, whole)
        first, last = span(source, part)
        left = b"\n" * data[begin:first].count(b"\n") + data[first:last] + b"\n" * data[last:end].count(b"\n")
        data = data[:begin] + (left if whole is chosen else b"true" + b"\n" * data[begin:end].count(b"\n")) + data[end:]
    return data


def false_parts(caller, source, finding):
    """The conjuncts that are false where a triple fails at an assertion: with each alone in its place the triple fails there again."""
    if finding.cause not in ("post", "assert") or finding.store is None:
        return []
    asked, found = assertions_at(source, finding), []
    wholes = [whole for whole, _ in asked]
    for whole, what in asked:
        for part in conjuncts(whole)[:MOST_PARTS]:
            changed = Source(source.path, with_only(source, wholes, whole, part))
            answer = caller.call("replay", request(changed, f"triple {finding.number}") + store_text(finding.store).encode())
            if answer.output == f"fail {finding.cause} line {finding.at}\n":
                found.append(Part(part, what))
    return found
