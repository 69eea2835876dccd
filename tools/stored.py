"""Where the examples and the pages stand, and how what is stored of them is read. Only the standard library is used."""

import os
import re

TOP = os.path.dirname(os.path.dirname(os.path.abspath(__file__)))
EXAMPLES = os.path.join(TOP, "examples")
DOCS = os.path.join(TOP, "docs")
MODES = ("check", "replay", "format", "ws2s", "judge", "meet", "run", "trace", "gen")


def read(path):
    with open(path, "rb") as file:
        return file.read().decode("utf-8", "replace")


def write(path, text):
    with open(path, "wb") as file:
        file.write(text.encode())


def from_top(path):
    """A path as it is shown, from the top of the repository."""
    return os.path.relpath(path, TOP)


def example_files():
    """Each file below examples/ but the page, in the order of the folders and names."""
    return [os.path.join(folder, name) for folder, _, files in sorted(os.walk(EXAMPLES))
            for name in sorted(files) if name != "README.md"]


def pages():
    """Each page at the top and in docs/."""
    return [os.path.join(folder, name) for folder in (TOP, DOCS)
            for name in sorted(os.listdir(folder)) if name.endswith(".md")]


def blocks(text):
    """The fenced blocks of a page: the words behind the fence, the text, and where the block stands."""
    found = re.finditer(r"^```([^\n`]*)\n(.*?)^```$", text, re.S | re.M)
    return [(block.group(1).split(), block.group(2), block.start(), block.end()) for block in found]


def status_of(mode, text):
    """The status that belongs to what `format` or `replay` writes."""
    if text.startswith("fail "):
        return 1
    return 0 if text.startswith("end ") or mode == "format" and not text.startswith("refused ") else 3
