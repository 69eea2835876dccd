"""Diagnoses on the text, as compilers draw them."""
from dataclasses import replace

from .explaining import Explained, part_lines, step_lines, walk_lines
from .hints import CAUSES, refusal_help, refusal_sentence
from .tables import store_lines

COLOURS = {"error": "\033[1;31m", "warning": "\033[1;33m", "note": "\033[1;36m", "help": "\033[1;32m", "": "\033[0m"}
LONGEST_LINE = 180
KEYWORDS = ("while", "split", "call", "proc", "assert", "free", "}")


class Writer:
    """Lines of diagnoses, with colours or without."""

    def __init__(self, write, is_coloured=False):
        self.write, self.is_coloured = write, is_coloured

    def coloured(self, kind, text):
        return f"{COLOURS[kind]}{text}{COLOURS['']}" if self.is_coloured else text

    def head(self, kind, text):
        self.write(f"{self.coloured(kind, kind)}: {text}\n")

    def place(self, source, token, remark=""):
        """The line of a token, with carets under it."""
        wide = len(str(token.line))
        line, before = shown_part(source.line(token.line).rstrip("\r"), token)
        gap = "".join("\t" if it == "\t" else " " for it in before)
        carets = "^" * max(min(len(token.text), len(line) - len(before)), 1)
        self.write(f"{' ' * wide}--> {printable(source.path)}:{token.line}:{token.column}\n{' ' * wide} |\n")
        self.write(f"{token.line} | {printable(line)}\n")
        self.write(f"{' ' * wide} | {gap}{self.coloured('error', carets)}{' ' + remark if remark else ''}\n")

    def lines(self, kind, lines):
        for line in lines:
            self.write(f"   = {self.coloured(kind, kind)}: {line}\n")


def shown_part(line, token):
    """What is shown of a line: all of it, or, where it is long, what is around the token; and what of that stands before the token."""
    before = line.encode()[: token.column - 1].decode("utf-8", "replace")
    first = max(len(before) - LONGEST_LINE // 2, 0) if len(line) > LONGEST_LINE else 0
    return line[first: first + LONGEST_LINE], before[first:]


def printable(text):
    """The text without control characters, which could change a terminal."""
    return "".join(it if it.isprintable() or it == "\t" else "?" for it in text)


def tell_refusal(writer, source, finding):
    writer.head("error", f"{refusal_sentence(source, finding)} [{finding.word}]")
    if finding.line:
        token = source.token_at(finding.line, finding.column) or source.first_on(finding.line)
        token = type(token)(token.kind, token.text if token.column == finding.column else " ", finding.line, finding.column)
        writer.place(source, token)
    writer.lines("help", refusal_help(source, finding))


def tell_field(writer, source, finding):
    if finding.verdict == "limit":
        writer.head("error", f"it wasn't decided whether the field {finding.procedure} has one destination: a greater --limit, or a shorter route")
        return
    writer.head("error", f"the route of the field {finding.procedure} leads to two cells from cell {finding.at} [ambiguous]")
    declared = source.field_token(finding.procedure)
    if declared:
        writer.place(source, declared)
    if finding.store:
        writer.lines("note", store_lines(finding.store))
    writer.lines("help", ["a pointer field's route has to lead to one cell at most, from every cell"])


def tell_invalid(writer, source, name, finding, explained):
    """The failure, its store, the steps from there in short, what is false, and how such is mended."""
    sentence, hint = CAUSES.get(finding.cause, ("it fails", ""))
    writer.head("error", f"{name} can fail: {sentence} [{finding.cause}]")
    writer.place(source, source.first_on(finding.at, KEYWORDS), "here")
    writer.lines("note", ["it starts with the store", *store_lines(finding.store)] if finding.store else [])
    if explained.trace and explained.trace.steps:
        writer.lines("note", ["and goes on so", *step_lines(source, explained.trace)])
    writer.lines("note", part_lines(source, explained.parts))
    writer.lines("help", [f"{hint}; docs/answers.md#{finding.cause} has an example"] if hint else [])


def no_answer(finding):
    return f"has no answer in {finding.seconds:g} s" if finding.word == "time" else f"has no answer: {finding.word}"


def tell_triple(writer, source, finding, is_unmet, explained):
    name = f"triple {finding.number}" + (f" of {finding.procedure}, which starts at line {finding.line}," if finding.procedure else "")
    if finding.verdict == "invalid":
        tell_invalid(writer, source, name, finding, explained)
    elif finding.verdict in ("limit", "no answer"):
        what = no_answer(finding) if finding.verdict == "no answer" else "wasn't decided within --limit"
        writer.head("error", f"{name} {what}")
        if finding.line:
            writer.place(source, source.first_on(finding.line, KEYWORDS))
        more = {"": "a greater --limit", "time": "more seconds by --time", "want of memory": "more memory by --memory"}.get(finding.word)
        writer.lines("help", [f"give it {more}, or cut it in two by a `split` in the middle of it"] if more else [])
    elif is_unmet:
        writer.head("warning", f"{name} is met by no store, so that it is valid says nothing")
        writer.place(source, source.first_on(finding.line, KEYWORDS))
        writer.lines("help", ["look for a contradiction in what holds where it starts: the precondition, the invariant, or the callee's postcondition"])


def counted(told):
    """How many triples there are, and how many of each verdict."""
    verdicts = [it.verdict for it in told.findings if it.kind == "triple"]
    counts = [f"{verdicts.count(word)} {word}" for word in ("valid", "invalid", "limit", "no answer") if word in verdicts]
    return ", ".join([f"{len(verdicts)} triple{'' if len(verdicts) == 1 else 's'}", *counts])


def tell_steps(writer, source, explained):
    """The steps one by one, each with the line of the text and the heap after it."""
    writer.write("".join(f"{printable(line)}\n" for line in walk_lines(source, explained)))


def tell_file(writer, told, is_stepped=False):
    """All diagnoses of a file, with each step of invalid triples where that is wanted, and a line that counts."""
    for finding in told.findings:
        if finding.kind == "refused":
            tell_refusal(writer, told.source, finding)
        elif finding.kind == "field":
            tell_field(writer, told.source, finding)
        elif finding.kind == "triple":
            explained = told.explained.get(finding.number) or Explained()
            if is_stepped and explained.trace:
                tell_triple(writer, told.source, replace(finding, store=None), False, Explained())
                tell_steps(writer, told.source, explained)
            else:
                tell_triple(writer, told.source, finding, finding.number in told.unmet, explained)
        elif finding.verdict == "no answer":
            writer.head("error", f"{printable(told.source.path)} {no_answer(finding)}")
    for warning in told.warnings:
        writer.head("warning", f"{printable(told.source.path)}: {warning}")
    if any(it.kind == "triple" for it in told.findings):
        writer.write(f"{printable(told.source.path)}: {counted(told)}\n")
