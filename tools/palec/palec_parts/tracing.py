"""The steps of an execution, as `pale trace` writes them, and the heap after each."""
import copy
import re
from dataclasses import dataclass, field

from .reports import Cell, Store, read_store


@dataclass
class Step:
    """One step: `kind` is `assign`, `new`, `free`, `truth`, `cut`, `call` or `return`; `value` is what came of it."""

    line: int
    kind: str
    place: str = ""
    value: str = ""


@dataclass
class Trace:
    """The steps that were done, the last line, the cause and line where it is a failure, and the store where it ended."""

    steps: list = field(default_factory=list)
    ending: str = ""
    cause: str = ""
    at: int = 0
    store: Store = None


FORMS = [
    (r"line (\d+) new (\d+) (\S+)", lambda it: Step(int(it[1]), "new", it[2], it[3])),
    (r"line (\d+) free (\d+)", lambda it: Step(int(it[1]), "free", it[2])),
    (r"line (\d+) (true|false)", lambda it: Step(int(it[1]), "truth", "", it[2])),
    (r"line (\d+) cut", lambda it: Step(int(it[1]), "cut")),
    (r"line (\d+) (call|return) (\w+)", lambda it: Step(int(it[1]), it[2], it[3])),
    (r"line (\d+) ([\w.]+) = (\S+)", lambda it: Step(int(it[1]), "assign", it[2], it[3])),
]


def read_step(line):
    for form, made in FORMS:
        found = re.fullmatch(form, line)
        if found:
            return made(found)
    return None


def read_trace(output):
    """The trace of an output, or None where it has none: a refusal, a store that isn't met, or a `pale` without the mode."""
    lines, trace = output.splitlines(), Trace()
    for place, line in enumerate(lines):
        step = read_step(line)
        if step:
            trace.steps.append(step)
        elif line == "at":
            trace.store, _ = read_store(lines[place + 1:])
            return trace
        else:
            trace.ending = line
            found = re.fullmatch(r"fail ([\w-]+) line (\d+)", line)
            if found:
                trace.cause, trace.at = found[1], int(found[2])
    return None


@dataclass
class Heap:
    """A store after a step, and what the step changed: variables by name, cells by number, and fields by both."""

    store: Store
    changed: set = field(default_factory=set)


def value_at(store, place):
    """The value that a path has in a store, or None where it leads through no cell that is there."""
    first, *fields = place.split(".")
    value = dict(store.variables).get(first)
    cells = {it.number: it for it in store.cells}
    for name in fields:
        cell = cells.get(int(value)) if value and value.isdigit() else None
        value = dict(cell.values).get(name) if cell else None
    return value


def put(pairs, name, value):
    return [(one, value if one == name else old) for one, old in pairs] if name in dict(pairs) else [*pairs, (name, value)]


def assign(store, place, value):
    """Sets the place in the store, and tells what that changed."""
    before, _, last = place.rpartition(".")
    if not before:
        store.variables = put(store.variables, last, value)
        return {last}
    named = value_at(store, before)
    for cell in store.cells:
        if named and named.isdigit() and cell.number == int(named):
            cell.values = put(cell.values, last, value)
            return {(cell.number, last)}
    return set()


def after(store, step, fields):
    """The heap after a step from a store; `fields` gives a new cell's fields by its type."""
    made = copy.deepcopy(store)
    if step.kind == "new":
        made.cells.append(Cell(int(step.place), step.value, [(name, first) for name, first in fields(step.value)]))
        return Heap(made, {int(step.place)})
    if step.kind == "free":
        made.cells = [it for it in made.cells if it.number != int(step.place)]
        return Heap(made, {int(step.place)})
    if step.kind == "assign":
        changed = assign(made, step.place, step.value)
        return Heap(made, changed)
    return Heap(made)


def heaps(source, start, trace):
    """The heap at the start and after each step; the last is the store that ends the trace, as `pale` wrote it."""
    found = [Heap(start)]
    for step in trace.steps:
        found.append(after(found[-1].store, step, source.fields_of))
    found[-1].store = trace.store
    return found
