#!/usr/bin/env python3
"""Looks whether the gate stays short: what makes a check long is refused before anything is proved.

    tools/gate_rules.py

It prints, with file and line, and ends with status 1 at any of these:
  a function with more than seven `?`         a check costs about the square of their number
  more than one must-fail edit in a crate, or more than four in all       others go to refusals/
  a test function in a crate that others stand on       such a crate is proved twice
  a source of more than 500 lines, or a line of more than 160 columns
  a call that only a proof needs, marked by a comment `Only for its clause ..`
  a row of the gate's table in docs/performance.md for a crate that isn't there, or a crate without a row
  an edit of refusals/ that can't be applied to the files as they are
What stood there before the rules is listed in STANDING_CALLS with its number: it may shrink, and the entry with it, and
nothing is added. Only the standard library is used, and it takes a second.
"""
import re
import sys
from pathlib import Path

import refusals

TOP = Path(__file__).resolve().parent.parent
MOST_QUESTIONS, MOST_EDITS, MOST_LINES, MOST_COLUMNS = 7, 4, 500, 160
# Calls for a proof alone, by crate: what they tell is true of every value of the type, and no clause that the function
# requires says it.
STANDING_CALLS = {
    "bdd_list": 1,
    "bdd_walk": 4,
    "gta_atom": 1,
    "gta_core": 3,
    "gta_gallery": 1,
    "gta_keep": 3,
    "gta_merge": 1,
    "gta_minimise": 1,
    "ws2s_context": 2,
    "ws2s_decide": 1,
}
FUNCTION = re.compile(r"^([ \t]*)(?:pub(?:\([a-z]+\))? )?(?:const )?fn (\w+).*?^\1\}[ \t]*$", re.M | re.S)
COMMENT_OR_TEXT = re.compile(r"//[^\n]*|b?\"(?:\\.|[^\"\\])*\"|b?'(?:\\.|[^'\\\n])'", re.S)


def spaced(found):
    """As many spaces and line ends as stand there."""
    return re.sub(r"[^\n]", " ", found.group(0))


def line_of(text, at):
    return text.count("\n", 0, at) + 1


def function_faults(path, text):
    """Functions that ask too often whether there was memory."""
    code = COMMENT_OR_TEXT.sub(spaced, text)
    for found in FUNCTION.finditer(code):
        asked, name = found.group(0).count("?"), found.group(2)
        if asked > MOST_QUESTIONS:
            yield path, line_of(code, found.start()), f"{name} has {asked} `?`, and {MOST_QUESTIONS} are the most"


def call_faults(name, sources):
    """Calls for a proof alone, beyond those of the crate that stand."""
    found = [(path, line_of(text, at.start())) for path, text in sources for at in re.finditer("Only for (its|their) clause", text)]
    for path, number in found[STANDING_CALLS.get(name, 0) :]:
        yield path, number, "a call that only a proof needs"


def size_faults(path, text):
    lines = text.splitlines()
    if len(lines) > MOST_LINES:
        yield path, MOST_LINES + 1, f"{len(lines)} lines, and {MOST_LINES} are the most"
    for number, line in enumerate(lines, 1):
        if len(line) > MOST_COLUMNS:
            yield path, number, f"{len(line)} columns, and {MOST_COLUMNS} are the most"


def source_faults(known):
    stood_on = {one for libraries in known.values() for one in libraries}
    for name in sorted(known):
        sources = [(path, path.read_text()) for path in sorted((TOP / "crates" / name / "src").rglob("*.rt"))]
        yield from call_faults(name, sources)
        for part, suffix in (("src", ".rt"), ("specs", ".antt"), ("proofs", ".antt")):
            for path in sorted((TOP / "crates" / name / part).rglob(f"*{suffix}")):
                text = path.read_text()
                yield from size_faults(path, text)
                if part == "src":
                    yield from function_faults(path, text)
                    at = text.find("#[test]")
                    if at >= 0 and name in stood_on:
                        yield path, line_of(text, at), "a test function in a crate that others stand on"


def edit_faults():
    edits = sorted((TOP / "crates").glob("*/must-fail/*.edit"))
    for before, edit in zip(edits, edits[1:]):
        if before.parent == edit.parent:
            yield edit, 1, "a second must-fail edit in its crate: it goes to refusals/"
    for edit in edits[MOST_EDITS:]:
        yield edit, 1, f"more than {MOST_EDITS} must-fail edits in all: it goes to refusals/"
    for edit, fault in refusals.faults():
        yield TOP / edit, 1, fault


def table_faults(known):
    page = TOP / "docs" / "performance.md"
    is_inside, seen = False, set()
    for number, line in enumerate(page.read_text().splitlines(), 1):
        cells = [cell.strip() for cell in line.split("|")[1:-1]]
        is_inside = cells[:2] == ["crate", "check"] or is_inside and bool(cells)
        name = cells[0] if is_inside else ""
        if not re.fullmatch(r"\w+", name) or name in ("crate", "all"):
            continue
        if name not in known:
            yield page, number, f"a row for {name}, which isn't there"
        if name in seen:
            yield page, number, f"a second row for {name}"
        seen.add(name)
    for name in sorted(known.keys() - seen):
        yield page, 1, f"no row for {name}"


def main():
    known = refusals.crates()
    found = [*source_faults(known), *edit_faults(), *table_faults(known)]
    for path, number, fault in found:
        print(f"{path.relative_to(TOP)}:{number}: {fault}")
    print(f"gate rules: {len(found)} faults")
    return 1 if found else 0


if __name__ == "__main__":
    sys.exit(main())
