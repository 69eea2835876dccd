"""How an invalid triple fails: its steps with the heap after each, and the parts of an assertion that are false there."""
from dataclasses import dataclass, field

from .conjuncts import false_parts
from .hints import CAUSES
from .judging import request
from .reports import store_text
from .tables import store_lines
from .tracing import heaps, read_trace

# In a diagnosis stand so many steps at most: the first ones and the last ones.
MOST_STEPS = 12


@dataclass
class Explained:
    """The trace of a triple from its store, the heap at the start and after each step, and what is false where it fails."""

    trace: object = None
    heaps: list = field(default_factory=list)
    parts: list = field(default_factory=list)


def explain(caller, source, finding):
    """What is known of an invalid triple beyond its report; without a trace where pale writes none."""
    if finding.store is None or source.is_one_piece():
        return Explained()
    answer = caller.call("trace", request(source, f"triple {finding.number}") + store_text(finding.store).encode())
    trace = read_trace(answer.output) if answer.status == 1 and not answer.cut else None
    return Explained(trace, heaps(source, finding.store, trace) if trace else [], false_parts(caller, source, finding))


def words_of(source, line):
    return {it.text for it in source.tokens_on(line)}


def setter(source, step):
    """What set a variable where no statement of the line did: a call or the exit sets some to null or false as it is come to."""
    words = words_of(source, step.line)
    if step.value not in ("null", "false") or "." in step.place or "=" in words and "call" not in words:
        return ""
    return ", set by the call" if "call" in words else ", set by the exit"


def sentence(source, step):
    """What a step did, in words."""
    return {
        "assign": f"{step.place} = {step.value}{setter(source, step)}",
        "new": f"cell {step.place} is made, of type {step.value}",
        "free": f"cell {step.place} is freed",
        "truth": f"the condition is {step.value}" if words_of(source, step.line) & {"if", "while"} else "the assertion holds",
        "cut": "a cut is passed: what has to hold here holds",
        "call": f"{step.place} is called",
        "return": f"{step.place} returns",
    }[step.kind]


def step_lines(source, trace):
    """One line for each step, as many as a diagnosis shows."""
    lines = [f"line {step.line}: {sentence(source, step)}" for step in trace.steps]
    if len(lines) > MOST_STEPS:
        left = len(lines) - MOST_STEPS + 1
        lines = [*lines[: MOST_STEPS // 2], f".. {left} more steps ..", *lines[len(lines) - MOST_STEPS // 2 + 1:]]
    return lines


def part_lines(source, parts):
    return [f"of the {part.what} this is false: {part.text(source)}" for part in parts]


def heap_lines(heap):
    return [f"      {line}" for line in store_lines(heap.store, heap.changed)]


def walk_lines(source, told):
    """The trace step by step, each with its line of the text and, where it changed something, the heap after it; and where it fails."""
    yield from ["", "at the start", *heap_lines(told.heaps[0])]
    for number, (step, heap) in enumerate(zip(told.trace.steps, told.heaps[1:]), 1):
        yield from ["", f"step {number}, line {step.line}: {source.line(step.line).strip()}", f"   -> {sentence(source, step)}"]
        yield from heap_lines(heap) if heap.changed else []
    why = CAUSES.get(told.trace.cause, ("it fails", ""))[0]
    yield from ["", f"then, line {told.trace.at}: {source.line(told.trace.at).strip()}", f"   -> {why}", *(f"      {it}" for it in part_lines(source, told.parts)), ""]
