#!/usr/bin/env python3
"""Looks up every claim of docs/proved.md: run it at the top of the repository.

A row of a table there is `| crate | call | clauses | what they say |`. The crate is a folder of crates/, the call a
public function of its sources (`Type::name` for a method), and the clauses are labels of `ensures` in that function's
contract; `-` stands for a clause without a label. An empty first cell means the crate of the row above. Each row that
names what isn't there is printed, and with the word `--all` so is each public function with a contract that no row
names, as a note. Ends with status 1 where a claim has no clause.
"""
import re
import sys
from pathlib import Path

ROOT = Path(__file__).resolve().parent.parent
FUNCTION = re.compile(r"^([ \t]*)pub (?:const )?fn (\w+)", re.M)
OWNER = re.compile(r"^(impl|trait|pub trait)\b([^{;]*)", re.M)


def block_of(text, at):
    """The first word and the rest of the head of the block in which a method at that offset stands."""
    last = None
    for found in OWNER.finditer(text, 0, at):
        last = found.groups()
    return last


def is_of_trait(text, at):
    """Whether a method at that offset is one of a trait or of a type as a trait has it: public without the word."""
    block = block_of(text, at)
    return block is not None and (block[0] != "impl" or " for " in block[1])


def owner_of(text, at):
    """The type or trait in whose block a method at that offset stands."""
    block = block_of(text, at)
    if block is None:
        return None
    last = block[1]
    words = re.sub(r"<[^<>]*>", "", re.sub(r"<[^<>]*>", "", last))
    words = words.split(" where ")[0].split(" for ")[-1]
    names = re.findall(r"\w+", words)
    return names[-1] if names else None


def contract_of(text, at):
    """The text between a function's name and its body."""
    rest = text[at:]
    end = re.search(r"^\s*\{\s*$|^\s*\{\}\s*$|^.*\S \{\s*$|^.*\)\s*;\s*$", rest, re.M)
    stop = re.search(r"^\s*\{(?:\s*|\})$", rest, re.M)
    if stop:
        return rest[: stop.start()]
    return rest[: end.start()] if end else rest


def functions_of(crate):
    """Each public function of the crate, by its name, with the labels of its clauses; `-` for one without a label."""
    functions = {}
    for path in sorted((ROOT / "crates" / crate / "src").rglob("*.rt")):
        text = path.read_text()
        methods = [(m.start(), m.group(1), m.group(2)) for m in FUNCTION.finditer(text)]
        found = re.finditer(r"^([ \t]+)fn (\w+)", text, re.M)
        traits = [(m.start(), m.group(1), m.group(2)) for m in found if is_of_trait(text, m.start())]
        for at, indent, name in methods + traits:
            owner = owner_of(text, at) if indent else None
            labels = set()
            for label in re.finditer(r"^\s*ensures(?: (\w+))? \{", contract_of(text, at), re.M):
                labels.add(label.group(1) or "-")
            key = f"{owner}::{name}" if owner else name
            functions.setdefault(key, set()).update(labels)
    return functions


def exported_by(crate):
    """The names that the crate's root hands on."""
    text = (ROOT / "crates" / crate / "src" / "lib.rt").read_text()
    names = set()
    for use in re.finditer(r"^pub use ([^;]+);", text, re.M):
        names.update(re.findall(r"\w+", use.group(1)))
    names.update(re.findall(r"^pub fn (\w+)", text, re.M))
    return names


def rows_of(page):
    crate = None
    for number, line in enumerate(page.read_text().splitlines(), 1):
        cells = [cell.strip() for cell in re.split(r"(?<!\\)\|", line)[1:-1]]
        if len(cells) != 4 or cells[0] == "crate" or set(cells[0]) == {"-"}:
            continue
        crate = cells[0].strip("`") or crate
        yield number, crate, re.findall(r"`([^`]+)`", cells[1]), re.findall(r"`([^`]+)`", cells[2])


def main():
    wrong = 0
    claimed = {}
    known = {}
    for number, crate, calls, labels in rows_of(ROOT / "docs" / "proved.md"):
        if crate not in known:
            if not (ROOT / "crates" / crate / "src").is_dir():
                print(f"docs/proved.md:{number}: no crate {crate}")
                wrong += 1
                continue
            known[crate] = functions_of(crate)
        for call in calls:
            claimed.setdefault(crate, set()).add(call)
            if call not in known[crate]:
                print(f"docs/proved.md:{number}: {crate} has no public function {call}")
                wrong += 1
        there = set().union(*(known[crate].get(call, set()) for call in calls)) if calls else set()
        for label in labels:
            if label not in there:
                print(f"docs/proved.md:{number}: {crate}: no clause {label} at {', '.join(calls)}")
                wrong += 1
    if "--all" in sys.argv:
        for crate in sorted(known):
            exported = exported_by(crate)
            for call, labels in sorted(known[crate].items()):
                if call.split("::")[0] in exported and labels and call not in claimed.get(crate, set()):
                    print(f"note: {crate}: {call} isn't listed ({', '.join(sorted(labels))})")
    print(f"{sum(len(calls) for calls in claimed.values())} calls of {len(claimed)} crates looked up, {wrong} without a clause")
    return 1 if wrong else 0


if __name__ == "__main__":
    sys.exit(main())
