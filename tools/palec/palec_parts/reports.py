"""What `pale` writes, read: refusals, fields, triples, starts and stores."""
import re
from dataclasses import dataclass, field


@dataclass
class Cell:
    number: int
    type: str
    values: list


@dataclass
class Store:
    """Variables with their values, and cells, as the store text has them."""

    variables: list = field(default_factory=list)
    cells: list = field(default_factory=list)


@dataclass
class Finding:
    """One thing that was told. `kind` is `refused`, `request`, `field`, `stopped`, `triple`, `start` or `other`."""

    kind: str
    line: int = 0
    column: int = 0
    word: str = ""
    number: int = 0
    procedure: str = ""
    verdict: str = ""
    cause: str = ""
    at: int = 0
    store: Store = None
    seconds: float = 0


def read_store(lines):
    """The store of its lines, from `store` up to `end`, and how many lines these are."""
    store = Store()
    for count, line in enumerate(lines):
        words = line.split(" ")
        if words[0] == "var":
            store.variables.append((words[1], " ".join(words[2:])))
        elif words[0] == "cell":
            values = [tuple(it.split("=", 1)) for it in words[3:] if "=" in it]
            store.cells.append(Cell(int(words[1]), words[2], values))
        elif words[0] == "end":
            return store, count + 1
    return store, len(lines)


def store_text(store):
    """The text of a store, as `replay` and `trace` read it."""
    lines = ["store", *(f"var {name} {value}" for name, value in store.variables)]
    for cell in store.cells:
        lines.append(" ".join([f"cell {cell.number} {cell.type}", *(f"{name}={value}" for name, value in cell.values)]))
    return "\n".join([*lines, "end", ""])


LINES = [
    (r"refused (?P<line>\d+):(?P<column>\d+) (?P<word>[\w-]+)", "refused"),
    (r"refused (?P<word>too-long)", "refused"),
    (r"request refused (?P<line>\d+) (?P<word>[\w-]+)", "request"),
    (r"field (?P<procedure>\S+) (?P<verdict>ambiguous) at (?P<at>\d+)", "field"),
    (r"field (?P<procedure>\S+) (?P<verdict>limit)", "field"),
    (r"stopped at fields", "stopped"),
    (r"triple (?P<number>\d+) (?P<procedure>\w+) line (?P<line>\d+) (?P<verdict>invalid) (?P<cause>[\w-]+) line (?P<at>\d+)", "triple"),
    (r"triple (?P<number>\d+) (?P<procedure>\w+) line (?P<line>\d+) (?P<verdict>valid|limit)", "triple"),
    (r"triple (?P<number>\d+) (?P<procedure>\w+) line (?P<line>\d+) (?P<verdict>met|empty)", "start"),
]
NUMBERS = {"line", "column", "number", "at"}


def read_report(output):
    """The findings of an output, in order; a store belongs to what stands before it."""
    lines, findings, at = output.splitlines(), [], 0
    while at < len(lines):
        if lines[at] == "store" and findings:
            findings[-1].store, count = read_store(lines[at:])
            at += count
            continue
        for form, kind in LINES:
            found = re.fullmatch(form, lines[at])
            if found:
                given = {key: int(value) if key in NUMBERS else value for key, value in found.groupdict().items()}
                findings.append(Finding(kind, **given))
                break
        at += 1
    return findings
