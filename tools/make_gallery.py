#!/usr/bin/env python3
"""Makes the bundle that the gate's run of pale_gallery reads, and what has to be written for it.

    tools/make_gallery.py [--check]

It writes crates/pale_gallery/stdin and crates/pale_gallery/stdout, whose form stands in
crates/pale_gallery/src/main.rt, from what is stored, and runs nothing:
  examples/      NAME.pale under `check`, and under `format` where NAME.format is there, and
                 NAME.replay under `replay`; each file there has to have its place in the bundle
  pages          README.md, docs/answers.md and docs/reference.md: each block `pale MODE ..`, and
                 each block `sh` that is one call `pale WORDS` or `pale WORDS < FILE` of a text of
                 that page or of examples/, where a block `status` with a status from 0 to 4 stands
                 behind it. The tutorial's texts would take a seventh of the time, and are left to
                 tools/check_examples.py
  texts/*.bundle in crates/pale_gallery, texts by hand; texts/answers.bundle says their form
A spelling that `format` writes is there once more, as a text that is spelled as itself.

With --check nothing is written, and the status is 1 where one of the two files isn't what would be
written. Only the standard library is used.
"""

import argparse
import os
import re
import sys
from collections import namedtuple

from stored import DOCS, MODES, TOP, blocks, example_files, from_top, read, status_of, write

PAGES = (os.path.join(TOP, "README.md"), os.path.join(DOCS, "answers.md"), os.path.join(DOCS, "reference.md"))
CRATE = os.path.join(TOP, "crates", "pale_gallery")
NOTE = "Made by tools/make_gallery.py: not to be edited. The form stands in src/main.rt.\n"
HEAD, ANSWER = "\n=== ", "\n==> "
PIECE = r"\{\{[a-z][a-z -]*\}\}"

# A text with the words of its call, and what is written for it with the status. The name says where it is from.
Entry = namedtuple("Entry", "name words text output status")


class Wrong(Exception):
    """What is stored isn't as it has to be."""


def example_entries():
    used = set()

    def kept(path):
        used.add(path)
        return read(path)

    for path in example_files():
        stem, suffix = os.path.splitext(path)
        if suffix == ".pale":
            program = kept(path)
            yield Entry(from_top(path), ["check"], program, kept(stem + ".stdout"), int(kept(stem + ".status")))
            if os.path.exists(stem + ".format"):
                spelling = kept(stem + ".format")
                yield Entry(from_top(path), ["format"], program, spelling, status_of("format", spelling))
        elif suffix == ".replay":
            line = kept(path + ".stdout")
            yield Entry(from_top(path), ["replay"], kept(path), line, status_of("replay", line))
    for path in example_files():
        if path not in used:
            raise Wrong(f"{from_top(path)}: belongs to no example")


def called(words, body, files):
    """The words of a block's call and the text that it reads, or None where it is something else."""
    if words[:1] == ["pale"] and words[1:2] and words[1] in MODES:
        return words[1:], body
    alone = re.fullmatch(r"pale((?: [\w-]+)*)(?: < (\S+))?\n", body) if words == ["sh"] else None
    if not alone:
        return None
    path = alone.group(2)
    if path and path.startswith("examples/") and os.path.exists(os.path.join(TOP, path)):
        return alone.group(1).split(), read(os.path.join(TOP, path))
    text = files.get(path) if path else ""
    return None if text is None else (alone.group(1).split(), text)


def place_of(text, at, seen):
    """The last heading before a place of a page, as a link names it, and a number where it was named before."""
    headings = re.findall(r"^#+ (.*)$", re.sub(r"^```.*?^```$", "", text[:at], flags=re.S | re.M), re.M)
    anchor = re.sub(r"[^\w -]", "", headings[-1].lower()).replace(" ", "-")
    seen[anchor] = seen.get(anchor, 0) + 1
    return anchor if seen[anchor] == 1 else f"{anchor}-{seen[anchor]}"


def page_entries(page):
    text, files, seen = read(page), {}, {}
    found = blocks(text)
    for (words, body, begin, _), (behind, answer, *_) in zip(found, found[1:] + [([], "", 0, 0)]):
        if words[:1] == ["pale"] and words[1:2] and words[1] not in MODES:
            files[words[1]] = body
        call = called(words, body, files) if behind[:1] == ["status"] and int(behind[1]) < 5 else None
        if call:
            yield Entry(f"{from_top(page)}#{place_of(text, begin, seen)}", *call, answer, int(behind[1]))


def expanded(text, pieces):
    """A text of a bundle with its pieces put in and what it repeats written out."""
    def times(found):
        count, piece = int(found.group(1)), found.group(2)
        return "".join(piece.replace("%-1", str(k - 1)).replace("%", str(k)) for k in range(1, count + 1))

    for name, piece in pieces.items():
        text = text.replace(name, piece)
    unknown = re.search(PIECE, text)
    if unknown:
        raise Wrong(f"{unknown.group()}: no piece of that name stands before its use")
    return re.sub(r"\{\{(\d+)\*(.*?)\}\}(?!\})", times, text, flags=re.S)


def own_entries():
    """The entries of the bundles in texts/."""
    folder = os.path.join(CRATE, "texts")
    for file in sorted(os.listdir(folder)):
        pieces = {}
        for part in read(os.path.join(folder, file)).split(HEAD)[1:]:
            head, _, rest = part.partition("\n")
            if re.fullmatch(PIECE, head):
                pieces[head] = rest
                continue
            text, found, answer = ("\n" + rest).partition(ANSWER)
            status, _, output = answer.partition("\n")
            if not found or not re.fullmatch("[0-4]", status):
                raise Wrong(f"texts/{file}: {head} has no answer")
            name, *words = head.split()
            yield Entry(name, words, expanded(text[1:], pieces), expanded(output, pieces), int(status))


def entries():
    every = [*example_entries(), *(entry for page in PAGES for entry in page_entries(page)), *own_entries()]
    for entry in every:
        yield entry
        if entry.words[:1] == ["format"] and entry.status == 0 and entry.output != entry.text:
            yield Entry(f"{entry.name}/again", ["format"], entry.output, entry.output, 0)


def made():
    """The files that are made, by their paths, with what has to stand in them."""
    bundle, answers, names = NOTE, "", set()
    for entry in entries():
        head = " ".join([entry.name, *entry.words])
        if head in names or HEAD in f"\n{entry.text}":
            raise Wrong(f"{head}: is there twice, or has a line that is taken for a head")
        names.add(head)
        bundle += f"{HEAD}{head}\n{entry.text}"
        answers += f"=== {head}\n{entry.output}status {entry.status}\n"
    return {os.path.join(CRATE, "stdin"): bundle, os.path.join(CRATE, "stdout"): answers}


def make():
    """Makes the files."""
    for path, text in made().items():
        write(path, text)


def stale():
    """Says of each file that isn't what would be made that it isn't, and of what is stored what is wrong with it."""
    try:
        return [f"{from_top(path)}: isn't what tools/make_gallery.py makes" for path, text in made().items()
                if not os.path.exists(path) or read(path) != text]
    except (OSError, Wrong) as error:
        return [str(error)]


def main():
    words = argparse.ArgumentParser(description="Makes what the gate's run of pale_gallery reads and has to write.")
    words.add_argument("--check", action="store_true", help="say whether the files are up to date, and write nothing")
    if words.parse_args().check:
        faults = stale()
        print("".join(f"{fault}\n" for fault in faults), end="")
        return 1 if faults else 0
    make()
    return 0


if __name__ == "__main__":
    sys.exit(main())
