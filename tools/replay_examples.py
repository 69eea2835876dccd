#!/usr/bin/env python3
"""Replays the stores that `check` prints for the programs of examples/: run it at the top of the repository with the program's path.

Each program of examples/, at any depth, is given to `PROGRAM check`. Each store that is printed of an invalid triple is given
to `PROGRAM replay` behind the program, a line `---` and a line `triple K`; it has to answer `fail CAUSE line M` with the cause
and the line that `check` printed, and status 1. `PROGRAM trace` has to end so too: this is its last line before the line `at`.
Prints each that does not and the counts; ends with status 1 where there was one.
"""
import re
import subprocess
import sys
from pathlib import Path

ROOT = Path(__file__).resolve().parent.parent
INVALID = re.compile(rb"triple (\d+) \w+ line \d+ invalid (\S+) line (\d+)")


def called(program, mode, text):
    """What the program writes in a mode for a text, and its status."""
    ended = subprocess.run([program, mode], input=text, stdout=subprocess.PIPE)
    return ended.stdout, ended.returncode


def stores_of(report):
    """For each invalid triple of a report: its number, the line that `replay` has to write, and its store text."""
    lines = report.split(b"\n")
    for at, line in enumerate(lines):
        found = INVALID.fullmatch(line)
        if found:
            number, cause, place = found.groups()
            store = lines[at + 1 : lines.index(b"end", at) + 1]
            yield number, b"fail %s line %s\n" % (cause, place), b"\n".join(store) + b"\n"


def traced(program, text):
    """The last line of a trace before the store where it stands, and the status."""
    shown, status = called(program, "trace", text)
    before, _, _ = shown.partition(b"at\nstore\n")
    return before.splitlines(keepends=True)[-1], status


def replays_of(program, text):
    """For each invalid triple of a text: its number, what `replay` has to write, and what it writes and a trace ends with, with the statuses."""
    report, _ = called(program, "check", text)
    front = text if text.endswith(b"\n") else text + b"\n"
    for number, wanted, store in stores_of(report):
        replay = front + b"---\ntriple %s\n" % number + store
        for written in called(program, "replay", replay), traced(program, replay):
            yield number, (wanted, 1), written


def main():
    if len(sys.argv) != 2:
        print("usage: python3 tools/replay_examples.py PROGRAM")
        return 2
    program = sys.argv[1]
    programs = answers = wrong = 0
    for path in sorted((ROOT / "examples").rglob("*.pale")):
        programs += 1
        for number, wanted, written in replays_of(program, path.read_bytes()):
            answers += 1
            if written != wanted:
                wrong += 1
                name = path.relative_to(ROOT)
                print(f"{name}: triple {number.decode()}: {written}, and not {wanted}")
    print(f"{programs} programs, {answers} answers of `replay` and `trace`, {wrong} otherwise")
    return 1 if wrong else 0


if __name__ == "__main__":
    sys.exit(main())
