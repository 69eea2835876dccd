"""What a refusal or a failure means, in a sentence, and how it is usually mended. The pages are docs/answers.md and docs/language.md."""
import difflib

from .grammar import expected_at, reserved_words

REFUSALS = {
    "char": "no token begins with {}",
    "syntax": "{} can't stand here",
    "deep": "more than 200 levels are open here",
    "too-long": "the text has more than 1,048,576 bytes",
    "duplicate": "the name {} is there already",
    "unknown": "nothing of the name {} is known here",
    "kind": "{} is of another kind than its place wants",
    "type": "{} is of another type than its place wants",
    "arity": "these are more, or fewer, than the declaration has",
    "many-types": "a program has at most so many types",
    "many-fields": "a type has at most so many fields",
    "many-vars": "a procedure has at most so many variables",
    "many-variants": "a type has at most so many variants",
    "long-part": "a triple has at most 128 atoms: put a `split` between the statements",
    "many-new": "a triple makes at most 64 cells: put a `split` between the statements",
    "big-formula": "the assertion is too large with its predicates put in",
    "big-route": "a route has at most 1,024 nodes",
    "long-path": "a path has at most 1,024 fields",
}

# More of a name isn't told in a sentence.
LONGEST_NAME = 60

CAUSES = {
    "null": ("it goes through null", "test the variable before, or say in the precondition or invariant that it isn't null"),
    "dangling": ("it reads through a cell that was freed", "set pointers to a cell to another one, or to null, before it is freed"),
    "double-free": ("it frees a cell that was freed already", "free each cell once"),
    "variant": ("the cell is of a variant without this field", "test the variant before, by `x:V`"),
    "assert": ("the assertion is false", "say in the precondition or invariant what it needs, or mend the statements before it"),
    "dangling-ref": ("a field or variable still names a freed cell", "set it to null, or to another cell, before the cut"),
    "shared": ("two data fields or variables lead to one cell", "set one of them to null"),
    "leak": ("a cell is lost: no data variable leads to it", "keep a data variable on it, or free it"),
    "field": ("a pointer field isn't what its route says", "set the field again after the change"),
    "escape": ("a pointer leads out of the part that a call hands over, or into it", "set it to null before the call"),
    "post": ("what has to hold here doesn't", "mend the statements before it, say more where the triple starts, or ask less here"),
}

# What writers of other languages write, and what stands for it here.
HABITS = {
    "->": "a field is read by a dot: `x.next`",
    "NULL": "the empty pointer is `null`",
    "nullptr": "the empty pointer is `null`",
    "nil": "the empty pointer is `null`",
    "//": "a comment begins with `#`",
    "/*": "a comment begins with `#` and goes to the end of the line",
    "return": "a procedure gives back what its results hold: assign them",
    "ensures": "the word is `post`, with brackets: `post [ .. ]`",
    "requires": "the word is `pre`, with brackets: `pre [ .. ]`",
    "invariant": "a loop's invariant stands in brackets behind its condition: `while (c) [ .. ] { .. }`",
    "method": "the word is `proc`",
    "procedure": "the word is `proc`",
    "function": "the word is `proc`, or `pred` for a predicate",
    "var": "a local is declared by its kind: `data x: T;`, `pointer p: T;` or `bool b;`",
    "forall": "the word is `all`: `all x: T: ..`",
    "exists": "the word is `ex`: `ex x: T: ..`",
    "delete": "the word is `free`",
    "dispose": "the word is `free`",
    "struct": "the word is `type`: `type T = { .. }`",
    "boolean": "the word is `bool`",
    "void": "a procedure that gives nothing back has no `returns`: `proc p(..) { .. }`",
    "int": "there are no numbers: variables are cells, or truth values of the kind `bool`",
    "malloc": "a cell is made by `new`: `x = new T;`",
    "elif": "an `else` is followed by braces: `else { if (..) { .. } }`",
    "for": "the loop is `while (c) [invariant] { .. }`",
    "do": "the loop is `while (c) [invariant] { .. }`",
    "not": "the mark is `~` in an assertion, and `!` in a condition of code",
    "and": "the mark is `&` in an assertion, and `&&` in a condition of code",
    "or": "the mark is `|` in an assertion, and `||` in a condition of code",
    "this": "there are no methods: a procedure has its cells as parameters",
    "None": "the empty pointer is `null`",
    "Null": "the empty pointer is `null`",
    "True": "the word is `true`",
    "False": "the word is `false`",
    "predicate": "the word is `pred`",
    "modifies": "there are no frames to be said: what a call is handed is what its data arguments reach",
    "old": "there is no `old`: name what was there at the entry by a logic set, or a logic bool",
    ":=": "an assignment is `x = y;`",
    "<>": "the mark is `~=` in an assertion, and `!=` in a condition of code",
}


# What stands in assertions for a mark of code, and the other way round.
MARKS_OF_CODE = ("!", "==", "!=", "&&", "||")
MARKS = {
    "!": "in an assertion the mark is `~`; `!` belongs to conditions of code",
    "~": "in a condition of code the mark is `!`; `~` belongs to assertions",
    **dict.fromkeys(("==", "!="), "in an assertion the marks are `=` and `~=`; `==` and `!=` belong to conditions of code"),
    **dict.fromkeys(("=", "~="), "in a condition of code the marks are `==` and `!=`; `=` and `~=` belong to assertions"),
    **dict.fromkeys(("&&", "||"), "in an assertion the marks are `&` and `|`"),
    **dict.fromkeys(("&", "|"), "in a condition of code the marks are `&&` and `||`"),
}


def habit_at(source, finding):
    """What is known of the words at a place, from other languages."""
    line = source.line(finding.line)
    found = source.token_at(finding.line, finding.column)
    text = found.text if found else ""
    before = [it for it in source.tokens() if (it.line, it.column) < (finding.line, finding.column)]
    last = before[-1].text if before else ""
    rest = line.encode()[finding.column - 1:].decode("utf-8", "replace")
    for word, hint in HABITS.items():
        if text == word or not word.isalpha() and (rest.startswith(word) or last == word):
            return hint
        if last == word and found and found.kind == "name":
            return hint
    if found and found.kind == "number":
        return "there are no numbers: a cell is compared with `null` or another cell, and a truth value stands alone"
    if text in ("true", "false") and last in ("==", "!=", "=", "~="):
        return "a truth value isn't compared: it stands alone, as `b` or `!b`"
    if text in ("data", "pointer", "bool") and last in (";", "}") and scope_of(source, finding):
        return "locals are declared at the top of a body, before its statements"
    if last in HABITS and text == "(":
        return HABITS[last]
    if (last, text) == ("-", ">") or rest.startswith("->"):
        return HABITS["->"]
    if text == "if" and last == "else":
        return "an `else` is followed by braces: `else { if (..) { .. } }`"
    if text == "{" and any(it.text == "while" and it.line == finding.line for it in before):
        return "a loop has an invariant in brackets between its condition and its braces: `while (c) [ .. ] { .. }`"
    if text == "pre" and "post" in {it.text for it in before[-200:]}:
        return "`pre` stands before `post`"
    if text in MARKS and bool(inside_of(source, finding)) == (text in MARKS_OF_CODE):
        return MARKS[text]
    if text == ":" and len(before) > 1 and before[-1].kind == "name" and before[-2].text in ("{", ";", "}"):
        return HABITS["var"]
    if text == "(" and len(before) > 1 and before[-2].text == "new":
        return "a cell is made without parentheses: `x = new T;`"
    if text == "(" and before and before[-1].kind == "name":
        return "a procedure is called by `call`: `call y = p(x);`"
    if text in reserved_words() and last in (":", ".", "data", "pointer", "bool", "type", "proc", "pred", ","):
        return f"`{text}` is a word of the language, and can't be a name"
    if before and before[-1].line < finding.line and last not in (";", "{", "}", "]", ")"):
        return "perhaps a `;` is missing on the line before"
    return ""


def word_at(source, finding):
    """What stands here for a word of another language that is taken for a name."""
    found = source.token_at(finding.line, finding.column)
    return HABITS.get(found.text, "") if found else ""


def scope_of(source, finding):
    """The names of the procedure around a place, each with how it was declared: as the words `parameter`, `result`, `logic` or `local`."""
    names, part, depth = {}, "", 0
    for place, token in enumerate(source.tokens()):
        if (token.line, token.column) >= (finding.line, finding.column):
            break
        if token.text in ("proc", "pred", "type") and depth == 0:
            names, part = {}, "parameter" if token.text == "proc" else ""
        part = {"returns": "result", "logic": "logic", "pre": "", "post": ""}.get(token.text, part) if depth == 0 else part
        depth += {"{": 1, "}": -1}.get(token.text, 0)
        following = source.tokens()[place + 1]
        if part and token.text in ("data", "pointer", "bool", "set") and following.kind == "name":
            names[following.text] = "local" if depth else part
        if token.text == "{" and depth == 1 and part:
            part = "local"
    return names


def locals_behind(source, finding):
    """The names that are declared between a place and the next procedure."""
    found, tokens = set(), [it for it in source.tokens() if (it.line, it.column) > (finding.line, finding.column)]
    for token, following in zip(tokens, tokens[1:]):
        if token.text == "proc":
            break
        if token.text in ("data", "pointer", "bool") and following.kind == "name":
            found.add(following.text)
    return found


def inside_of(source, finding):
    """Which assertion's brackets are open at a place: `pre`, `post`, another word, or nothing."""
    opened = []
    tokens = [it for it in source.tokens() if (it.line, it.column) < (finding.line, finding.column)]
    for place, token in enumerate(tokens):
        if token.text == "[":
            opened.append(tokens[place - 1].text if place else "")
        elif token.text == "]" and opened:
            opened.pop()
    return opened[-1] if opened else ""


def help_on_name(source, finding):
    """What is known of a name that can't stand here."""
    found = source.token_at(finding.line, finding.column)
    name = found.text if found else ""
    how, where = scope_of(source, finding).get(name, ""), inside_of(source, finding)
    if how == "logic" and not where:
        return "a logic variable is for assertions alone: code can't read or set it"
    if how == "result" and where == "pre":
        return "`pre` speaks of the entry, where results are null: it names parameters and logic variables"
    if where == "post" and how == "parameter":
        return "`post` names results and logic variables: what a parameter had is kept by a logic set, `pre [x in S]`"
    if where in ("pre", "post") and name in locals_behind(source, finding):
        return f"`{name}` is a local, which `pre` and `post` don't see: they name parameters, results and logic variables"
    if finding.word == "unknown":
        names = {it.text for it in source.tokens() if it.kind == "name"} - reserved_words() - {name}
        close = difflib.get_close_matches(name, sorted(names), 1, 0.7)
        return f"perhaps `{close[0]}` is meant" if close else names_there(source, finding)
    return ""


def declared(source, words):
    """The names that types declare behind these words: fields, or the types themselves."""
    found, owner = [], ""
    for token, following in zip(source.tokens(), source.tokens()[1:]):
        owner = token.text if token.text in ("type", "pred", "proc") else owner
        if owner == "type" and token.text in words and following.kind == "name" and following.text not in found:
            found.append(following.text)
    return found


def names_there(source, finding):
    """The fields that are declared, where an unknown one is named, or the types."""
    before = [it.text for it in source.tokens() if (it.line, it.column) < (finding.line, finding.column)][-3:]
    is_field, is_type = before[-1:] == ["."], before[-1:] == ["new"] or before[-1:] == [":"] and before[0] in ("data", "pointer")
    found = declared(source, ("data", "pointer", "bool") if is_field else ("type",)) if is_field or is_type else []
    return f"declared {'fields' if is_field else 'types'}: " + ", ".join(f"`{it}`" for it in found) if 0 < len(found) < 13 else ""


def help_on_duplicate(source, finding):
    found = source.token_at(finding.line, finding.column)
    first = next((it for it in source.tokens() if found and it.text == found.text and (it.line, it.column) < (found.line, found.column)), None)
    return f"it stands first at line {first.line}" if first else ""


MORE = {
    "type": "`==`, `=` and assignments want two cells of one type, or null; a bool stands alone as a condition",
    "arity": "look at the declaration: parameters, then `;` and logic variables, and as many results",
}


def refusal_sentence(source, finding):
    """What is wrong, with the word that was found."""
    found = source.token_at(finding.line, finding.column) if finding.line else None
    if found and found.kind == "end" and finding.word == "syntax":
        return "the text can't end here"
    is_shown = found and found.text.isascii() and found.text.isprintable() and found.kind != "end"
    name = f"`{found.text[:LONGEST_NAME]}`" if is_shown else "this byte" if finding.word == "char" else "this"
    return REFUSALS.get(finding.word, f"refused as `{finding.word}`").format(name)


def refusal_help(source, finding):
    """Lines of help on a refusal: a habit, and the words that may stand there."""
    helps = []
    if source.data.startswith(b"\xef\xbb\xbf"):
        helps.append("the file begins with a byte order mark: save it without one")
    told = {"syntax": [habit_at], "char": [habit_at], "unknown": [word_at, help_on_name], "kind": [help_on_name], "duplicate": [help_on_duplicate]}
    hints = [it(source, finding) for it in told.get(finding.word, [])]
    helps += [it for it in [*hints, MORE.get(finding.word, "")] if it][:1]
    if finding.word == "syntax":
        words = expected_at(source, finding.line, finding.column)
        if words:
            helps.append("here may stand " + ", ".join(it if it == "a name" else f"`{it}`" for it in words[:12]) + (", .." if len(words) > 12 else ""))
    return helps
