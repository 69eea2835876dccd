#!/usr/bin/env python3
"""Makes the syntax files for editors from the words of docs/language.md: pale.vim for Vim, pale.tmLanguage.json for VS Code and others.

    tools/editors/make.py [--check]

With --check nothing is written, and the status is 1 where a file isn't what would be written. Only the standard library is used.
"""
import json
import re
import sys
from pathlib import Path

HERE = Path(__file__).resolve().parent
PAGE = HERE.parent.parent / "docs" / "language.md"
GROUPS = {
    "Statement": "skip if else while split assert free call keep new".split(),
    "Type": "type bool data pointer set".split(),
    "Structure": "pred proc returns logic pre post".split(),
    "Operator": "ex all in sub root".split(),
    "Constant": "null true false".split(),
}
SCOPES = {
    "Statement": "keyword.control", "Type": "storage.type", "Structure": "keyword.other", "Operator": "keyword.operator.word",
    "Constant": "constant.language",
}


def words():
    return re.search(r"These words are no names: `([^`]+)`", PAGE.read_text(encoding="utf-8")).group(1).split()


def as_vim():
    lines = ['" Made by tools/editors/make.py: not to be edited.', 'if exists("b:current_syntax") | finish | endif']
    lines += [f"syn keyword pale{group} {' '.join(names)}" for group, names in GROUPS.items()]
    lines += ['syn match paleComment "#.*$"', 'syn match paleMark "[=!~&|<>^$@?*+]"']
    lines += [f"hi def link pale{group} {group}" for group in GROUPS]
    lines += ["hi def link paleComment Comment", "hi def link paleMark Operator", 'let b:current_syntax = "pale"']
    return "\n".join(lines) + "\n"


def as_grammar():
    patterns = [{"name": "comment.line.number-sign.pale", "match": "#.*$"}]
    patterns += [{"name": f"{SCOPES[group]}.pale", "match": rf"\b({'|'.join(names)})\b"} for group, names in GROUPS.items()]
    patterns.append({"name": "keyword.operator.pale", "match": r"<=>|==|=>|!=|~=|&&|\|\||[=!~&|<>^$@?*+]"})
    whole = {"name": "pale", "scopeName": "source.pale", "fileTypes": ["pale"], "patterns": patterns}
    return json.dumps(whole, indent=2) + "\n"


def main():
    if sorted(words()) != sorted(name for names in GROUPS.values() for name in names):
        sys.exit("make.py: the words of docs/language.md aren't those of the groups")
    made, behind = {"pale.vim": as_vim(), "pale.tmLanguage.json": as_grammar()}, []
    for name, text in made.items():
        path = HERE / name
        if "--check" not in sys.argv:
            path.write_text(text, encoding="utf-8")
        elif not path.exists() or path.read_text(encoding="utf-8") != text:
            behind.append(name)
    if behind:
        sys.exit(f"make.py: not up to date: {', '.join(behind)}")


if __name__ == "__main__":
    main()
