"""What is said of one file: its fields and triples, each by a call of its own, and the starts that no store meets."""
from concurrent.futures import ThreadPoolExecutor
from dataclasses import dataclass, field

from .reports import Finding, read_report
from .sources import Source

ENDED = {5: "want of memory", 6: "the text couldn't be read", 7: "the output couldn't be written", 2: "the words were refused"}


@dataclass
class Told:
    """What was told of a file, in order; by number the triples that no store meets, where that was looked for, and what more is known of invalid ones."""

    source: Source
    findings: list = field(default_factory=list)
    unmet: set = field(default_factory=set)
    is_met_known: bool = False
    explained: dict = field(default_factory=dict)
    warnings: list = field(default_factory=list)


def request(source, line):
    """The text with a request behind it."""
    newline = b"" if source.data.endswith(b"\n") or not source.data else b"\n"
    return source.data + newline + b"---\n" + line.encode() + b"\n"


def unanswered(caller, answer, number=0):
    """The finding for a call without an answer."""
    word = answer.cut or ENDED.get(answer.status) or ("what was written can't be read" if is_answer(answer) else f"ended with status {answer.status}")
    return Finding("triple" if number else "other", number=number, verdict="no answer", word=word, seconds=caller.seconds or 0)


def is_answer(answer):
    return not answer.cut and answer.status in (0, 1, 3, 4)


def fields_of(caller, source):
    """The findings of the fields or of a refusal; none where every pointer field is functional."""
    answer = caller.call("judge", request(source, "fields"), label=f"{source.name} the fields")
    found = read_report(answer.output) if is_answer(answer) else []
    return found if found or (answer.status, answer.output, answer.cut) == (0, "", "") else [unanswered(caller, answer)]


def is_there(caller, source, number):
    """Whether there is a triple of that number, or None where that isn't known.

    It is asked by a request of two lines: the second one is refused where the first isn't, and nothing is judged.
    """
    answer = caller.call("judge", request(source, f"triple {number}\ntriple {number}"))
    return {"request refused 2": True, "request refused 1": False}.get(answer.output[:17])


def triple_of(caller, source, number):
    """The finding of one triple, or None where there is no triple of that number. It is without a number where even that isn't known."""
    answer = caller.call("judge", request(source, f"triple {number}"), label=f"{source.name} triple {number}")
    found = read_report(answer.output) if is_answer(answer) else []
    if found:
        return None if found[0].kind == "request" else found[0]
    known = is_there(caller, source, number)
    return None if known is False else unanswered(caller, answer, number if known else 0)


def triples_of(caller, source, calls, jobs, on_one):
    """The findings of all triples, in order, some at a time: a number is asked for until one isn't there."""
    found, asked, waiting, more = [], 0, {}, True
    while more or waiting:
        while more and len(waiting) < jobs:
            asked += 1
            waiting[asked] = calls.submit(triple_of, caller, source, asked)
        told = waiting.pop(min(waiting)).result()
        if more and told is not None:
            found.append(told)
            on_one(told)
        more = more and told is not None and told.kind == "triple"
    return found


@dataclass
class Wishes:
    """How files are judged.

    So many calls run at a time; with `with_meet` stores are sought that meet each triple; each triple that is done is
    handed to `on_one`, and `explain` says more of an invalid one.
    """

    jobs: int = 1
    with_meet: bool = True
    on_one: object = lambda told: None
    explain: object = None


def judge_files(caller, sources, wishes):
    """All that is told of each file, in order. So many calls run at a time, whatever files they are for."""
    with ThreadPoolExecutor(wishes.jobs) as calls, ThreadPoolExecutor(wishes.jobs) as files:
        try:
            yield from files.map(lambda source: judge_file(caller, source, calls, wishes), sources)
        except BaseException:
            # what runs is ended first, since the pools wait for it
            caller.stop()
            raise


def judge_file(caller, source, calls, wishes):
    told = Told(source)
    if source.is_one_piece():
        answer = calls.submit(caller.call, "check", source.data, label=source.name).result()
        told.findings = read_report(answer.output) if is_answer(answer) else [unanswered(caller, answer)]
    else:
        judge_parts(caller, told, calls, wishes)
    if not told.findings:
        told.warnings.append("there is no procedure, so nothing was judged")
    return told


def judge_parts(caller, told, calls, wishes):
    """The fields first, and then the triples, beside them the starts."""
    source = told.source
    told.findings = calls.submit(fields_of, caller, source).result()
    if told.findings:
        return
    starts = calls.submit(caller.call, "meet", source.data, label=f"{source.name} the starts") if wishes.with_meet else None
    told.findings = triples_of(caller, source, calls, wishes.jobs, wishes.on_one)
    invalid = [it for it in told.findings if it.verdict == "invalid"] if wishes.explain else []
    told.explained = dict(zip((it.number for it in invalid), calls.map(lambda it: wishes.explain(caller, source, it), invalid)))
    if starts is not None:
        add_starts(told, starts.result())


def add_starts(told, answer):
    """Which triples no store meets; and the names and lines of those without an answer, which only the starts have."""
    if not is_answer(answer):
        told.warnings.append("it wasn't found out whether a store meets each triple: `pale meet` had no answer")
        return
    starts = {it.number: it for it in read_report(answer.output) if it.kind == "start"}
    told.is_met_known, told.unmet = True, {number for number, it in starts.items() if it.verdict == "empty"}
    for finding in told.findings:
        if finding.verdict == "no answer" and finding.number in starts:
            finding.procedure, finding.line = starts[finding.number].procedure, starts[finding.number].line


def status_of(all_told):
    """0 where all is valid, 1 where some triple is invalid, 3 where a text was refused or a field is ambiguous, 4 where something has no answer."""
    found = [it for told in all_told for it in told.findings]
    if any(it.kind == "refused" or it.verdict == "ambiguous" for it in found):
        return 3
    if any(it.verdict == "invalid" for it in found):
        return 1
    return 4 if any(it.verdict in ("limit", "no answer") for it in found) else 0
