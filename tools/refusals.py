#!/usr/bin/env python3
"""Tries the wrong bodies of refusals/NAME: the check of the crate has to refuse each.

    tools/refusals.py NAME [WORD]

Each file of refusals/NAME is an edit as crates/NAME/must-fail has them: a line `file:` and pairs of lines `old:` and
`new:`. The crate is copied with those below it and what earlier checks of them kept, the edits whose names have WORD
(all of them, where none is given) are put beside it, and `rt must-fail NAME` tries them there. Run it for a crate
whose code or contracts changed. The status is 1 where an edit can't be applied or isn't refused.

    tools/refusals.py --read

proves nothing: it says of each edit of every crate whether it can be applied to the files as they are.
"""
import shutil
import subprocess
import sys
import tempfile
from pathlib import Path

TOP = Path(__file__).resolve().parent.parent
REFUSALS = TOP / "refusals"


def crates():
    """Each crate of the repository with all that stands behind its colon in crates.txt."""
    found = {}
    for line in (TOP / "crates.txt").read_text().splitlines():
        name, colon, libraries = line.partition("#")[0].partition(":")
        if colon:
            found[name.split()[0]] = libraries.split()
    return found


def below(name, known):
    """The crate and each crate of the repository that it stands on."""
    found, waiting = {}, [name]
    while waiting:
        one = waiting.pop()
        if one in known and one not in found:
            found[one] = known[one]
            waiting += known[one]
    return found


def fault_of(edit, crate):
    """Why an edit can't be applied to the crate's files, or None."""
    path, old, texts, pairs = None, None, {}, 0
    for line in edit.read_text().split("\n"):
        word, _, rest = line.partition(":")
        if word == "file":
            path = crate / rest.strip()
            if not path.is_file():
                return f"there is no {rest.strip()}"
            texts.setdefault(path, path.read_text())
        elif word == "old":
            old = rest.removeprefix(" ")
        elif word == "new":
            if path is None or not old:
                return "a line `new:` stands before a line `file:` or `old:`"
            if texts[path].count(old) != 1:
                return f"an `old:` stands {texts[path].count(old)} times in {path.relative_to(crate)}"
            texts[path] = texts[path].replace(old, rest.removeprefix(" "))
            old, pairs = None, pairs + 1
    return None if pairs else "it has no pair of `old:` and `new:`"


def faults():
    """Each edit that can't be applied, with why."""
    for edit in sorted(REFUSALS.glob("*/*.edit")):
        crate = TOP / "crates" / edit.parent.name
        fault = fault_of(edit, crate) if crate.is_dir() else "there is no such crate"
        if fault:
            yield edit.relative_to(TOP), fault


def copied(room, name, known):
    """Puts the crate and those below it into a repository of their own, with what earlier checks kept."""
    lines = below(name, known)
    for one in lines:
        shutil.copytree(TOP / "crates" / one, room / "crates" / one)
    shutil.copy(TOP / "HANDLES", room)
    (room / "crates.txt").write_text("".join(f"{one}: {' '.join(libraries)}\n" for one, libraries in lines.items()))


def tried(name, word):
    """Tries the edits of a crate and returns the status."""
    edits = [edit for edit in sorted((REFUSALS / name).glob("*.edit")) if word in edit.name]
    if not edits:
        print(f"refusals/{name} has no such edit")
        return 1
    with tempfile.TemporaryDirectory(prefix="refusals-") as made:
        room = Path(made)
        copied(room, name, crates())
        folder = room / "crates" / name / "must-fail"
        shutil.rmtree(folder, ignore_errors=True)
        folder.mkdir()
        for edit in edits:
            shutil.copy(edit, folder)
        return subprocess.run(["rt", "must-fail", name], cwd=room).returncode


def main():
    if sys.argv[1:] == ["--read"]:
        found = list(faults())
        print("".join(f"{edit}: {fault}\n" for edit, fault in found), end="")
        return 1 if found else 0
    if len(sys.argv) not in (2, 3) or sys.argv[1].startswith("-"):
        print(__doc__, end="")
        return 2
    return tried(sys.argv[1], sys.argv[2] if len(sys.argv) == 3 else "")


if __name__ == "__main__":
    sys.exit(main())
