"""The grammar of docs/language.md as data, and which tokens may stand at a place of a text."""
import re
from pathlib import Path

from .running import TOP

PAGE = TOP / "docs" / "language.md"
# Beyond so many tokens the words that may stand at a place aren't looked for.
MOST_TOKENS = 4_000


def read_grammar(page=PAGE):
    """The rules of the page's grammar: for each name its alternatives, each a list of parts. A part is a word in quotes, `Name`
    or a rule's name; `{ x }` and `[ x ]` become rules of their own."""
    text = re.search(r"## Grammar.*?```\n(.*?)```", Path(page).read_text(encoding="utf-8"), re.S).group(1)
    words = re.findall(r'"[^"]+"|[A-Za-z]\w*|[={}\[\]()|.]', text)
    rules, at = {}, 0

    def fresh(alternatives):
        name = f"_{len(rules)}"
        rules[name] = alternatives
        return name

    def choice(at, ends):
        alternatives, parts = [], []
        while words[at] not in ends:
            word = words[at]
            if word == "|":
                alternatives.append(parts)
                parts = []
            elif word in "{[(":
                inner, at = choice(at + 1, {"{": "}", "[": "]", "(": ")"}[word])
                if word == "{":
                    name = fresh([[]])
                    rules[name] = [[]] + [[*it, name] for it in inner]
                    parts.append(name)
                else:
                    parts.append(fresh(inner + ([[]] if word == "[" else [])))
            else:
                parts.append(word)
            at += 1
        return alternatives + [parts], at

    while at < len(words):
        name = words[at]
        rules[name] = []
        rules[name], at = choice(at + 2, ".")
        at += 1
    return rules


def is_word(part):
    return part == "Name" or part.startswith('"')


def allowed_before(tokens, reserved):
    """The words that may follow these tokens, in quotes or `Name`, by Earley's way (Earley 1970); nothing where they are no front of a
    program. The last set of items is all that is looked at behind the tokens."""
    rules = read_grammar()
    nullable, grown = set(), True
    while grown:
        found = {name for name, all_ in rules.items() if any(all(it in nullable for it in parts) for parts in all_)}
        grown, nullable = found != nullable, found

    def closed(items, sets, place):
        waiting = list(items)
        items = set(items)
        while waiting:
            name, choice, dot, start = waiting.pop()
            parts = rules[name][choice]
            if dot == len(parts):
                origin = items if start == place else sets[start]
                more = [(n, c, d + 1, s) for n, c, d, s in list(origin) if d < len(rules[n][c]) and rules[n][c][d] == name]
            elif is_word(parts[dot]):
                continue
            else:
                more = [(parts[dot], c, 0, place) for c in range(len(rules[parts[dot]]))]
                if parts[dot] in nullable:
                    more.append((name, choice, dot + 1, start))
            for item in more:
                if item not in items:
                    items.add(item)
                    waiting.append(item)
        return items

    sets = [closed([("Program", c, 0, 0) for c in range(len(rules["Program"]))], [], 0)]
    for place, token in enumerate(tokens):
        is_name = token.kind == "name" and token.text not in reserved
        shifted = [(n, c, d + 1, s) for n, c, d, s in sets[-1]
                   if d < len(rules[n][c]) and (rules[n][c][d] == f'"{token.text}"' or is_name and rules[n][c][d] == "Name")]
        if not shifted:
            return []
        sets.append(closed(shifted, sets, place + 1))
    words = {rules[n][c][d] for n, c, d, s in sets[-1] if d < len(rules[n][c]) and is_word(rules[n][c][d])}
    return sorted(words, key=lambda it: (it != "Name", it))


def reserved_words(page=PAGE):
    """The words that are no names, by the page."""
    found = re.search(r"These words are no names: `([^`]+)`", Path(page).read_text(encoding="utf-8"))
    return set(found.group(1).split())


def expected_at(source, line, column):
    """The words that may stand at a place in place of the token there."""
    tokens = [it for it in source.tokens() if (it.line, it.column) < (line, column)]
    if len(tokens) > MOST_TOKENS:
        return []
    return [it.strip('"') if it != "Name" else "a name" for it in allowed_before(tokens, reserved_words())]
