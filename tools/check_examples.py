#!/usr/bin/env python3
"""Runs a built `pale` on every example and every page, and compares.

    tools/check_examples.py PROGRAM [--only GLOB] [--seconds N] [--nice N] [--times] [--write]

Examples, in the folders of examples/:
  NAME.pale    with NAME.stdout         `PROGRAM check`, and NAME.status is the status
  NAME.pale    with NAME.format         `PROGRAM format`, where it is there
  NAME.replay  with NAME.replay.stdout  `PROGRAM replay`
Each NAME.pale begins with a comment, has an output and a status, and a row in examples/README.md.
Where a triple of it is invalid, NAME.replay is the program with the triple and its store.

Pages, *.md at the top and in docs/, by the words behind the three backquotes:
  pale MODE ..  a text that `PROGRAM MODE ..` reads
  pale FILE     a text that is written to FILE, for the commands of that page
  sh            commands, run by `sh` in a folder of their own for the page, in which
                `pale` is PROGRAM, `palec` calls it, and `examples` is the folder of that name
  status N      what the text or the commands before it write, and the status
A `pale MODE` or `sh` block without a `status` block right behind it isn't run. In docs/pale.1
the examples are run: a line `$ COMMAND`, and what stands below it. The bundle of crates/pale_gallery
has to be what tools/make_gallery.py makes of all this.

Each store that `check` prints of an invalid triple is handed to `replay`, which has to write the
same cause and line.

Each run ends after N seconds (60 where none are given); --nice puts runs behind other work, and
--times writes the seconds of processor time of each run. A difference is a line, and at the end
comes `N passed, M failed`; the status is 1 where something failed.

--write puts what was written into the files and pages in place of comparing, makes the files of an
example that are missing, and the bundle. A run that doesn't end in time leaves everything as it was.

Only the standard library is used.
"""

import argparse
import fnmatch
import os
import re
import resource
import subprocess
import sys
import tempfile

import make_gallery
from stored import DOCS, EXAMPLES, MODES, blocks, example_files, from_top, pages, read, status_of, write

PALEC = os.path.join(os.path.dirname(os.path.abspath(__file__)), "palec")
FAILING = re.compile(r"^triple (\d+) \S+ line \d+ invalid (\S+ line \d+)\n(store\n(?:(?:var|cell) .*\n)*end\n)", re.M)


def replays_of(program, answer):
    """For each invalid triple of an answer what `replay` reads, and the line that it has to write."""
    return [(f"{program}---\ntriple {number}\n{store}", f"fail {cause}\n")
            for number, cause, store in FAILING.findall(answer)]


class Runner:
    """Runs the program, or a shell that has it, within a time."""

    def __init__(self, told):
        self.program = os.path.abspath(told.program)
        self.before = ["nice", "-n", str(told.nice)] if told.nice else []
        self.seconds = told.seconds
        self.spent = None

    def run(self, words, text="", folder=None, path=None):
        """The status, which is None where the time was over, and what was written."""
        env = dict(os.environ)
        if path:
            env["PATH"] = os.pathsep.join([path, PALEC, env.get("PATH", "")])
            env["PALE"] = self.program
        before = resource.getrusage(resource.RUSAGE_CHILDREN)
        try:
            done = subprocess.run(self.before + words, input=text.encode(), stdout=subprocess.PIPE,
                                  stderr=subprocess.STDOUT, timeout=self.seconds, cwd=folder, env=env)
            answer = done.returncode, done.stdout.decode("utf-8", "replace")
        except subprocess.TimeoutExpired:
            answer = None, ""
        after = resource.getrusage(resource.RUSAGE_CHILDREN)
        self.spent = after.ru_utime + after.ru_stime - before.ru_utime - before.ru_stime
        return answer

    def mode(self, words, text):
        return self.run([self.program] + words, text)


class Tally:
    """What is wanted, and what came of it."""

    def __init__(self, told, runner):
        self.only, self.write, self.times, self.runner = told.only, told.write, told.times, runner
        self.passed = self.failed = 0

    def wants(self, name):
        return fnmatch.fnmatch(name, self.only)

    def say(self, name, fault):
        if self.times and self.runner.spent is not None:
            print(f"{self.runner.spent:8.2f} {name}", flush=True)
            self.runner.spent = None
        if fault:
            self.failed += 1
            print(f"{name}: {fault}", flush=True)
        else:
            self.passed += 1

    def say_replays(self, name, program, answer):
        """Replays each store that an answer of `check` has."""
        for text, line in replays_of(program, answer):
            fault = fault_of(self.runner.mode(["replay"], text), 1, line)
            if fault:
                self.say(f"{name}, replayed", fault)


def fault_of(answer, expected_status, expected):
    status, out = answer
    if status is None:
        return "no answer in time"
    if out != expected:
        left, right = out.splitlines() + ["(end)"], expected.splitlines() + ["(end)"]
        for number, (one, other) in enumerate(zip(left, right), 1):
            if one != other:
                return f"line {number} is {one!r}, and not {other!r}"
        return "line ends differ"
    if status != expected_status:
        return f"status {status}, and not {expected_status}"
    return None


def run_example(runner, tally, mode, source, kept, told=None):
    """One run of one file, compared with what is kept, or written over it. The file `told` has the status."""
    shown = from_top(kept)
    if not tally.wants(shown):
        return ""
    status, out = runner.mode([mode], read(source))
    if tally.write and status is not None:
        write(kept, out)
        if told:
            write(told, f"{status}\n")
    if not all(os.path.exists(path) for path in (kept, told or kept)):
        tally.say(shown, "isn't there")
        return ""
    expected = read(kept)
    tally.say(shown, fault_of((status, out), int(read(told)) if told else status_of(mode, expected), expected))
    return out


def check_example(runner, tally, stem):
    source, replay, shown = stem + ".pale", stem + ".replay", from_top(stem)
    program = read(source)
    if tally.wants(f"{shown}.pale"):
        has_row = f"`{os.path.relpath(source, EXAMPLES)}`" in read(os.path.join(EXAMPLES, "README.md"))
        tally.say(f"{shown}.pale", None if has_row and program.startswith("# ") else
                  "has no comment at its head, or no row in examples/README.md")
        kept = all(os.path.exists(stem + suffix) for suffix in (".stdout", ".status"))
        tally.say(f"{shown}.pale", None if kept else "has no output or no status")
    out = run_example(runner, tally, "check", source, stem + ".stdout", stem + ".status")
    tally.say_replays(f"{shown}.stdout", program, out)
    for text, _ in replays_of(program, out)[:1]:
        if tally.write:
            write(replay, text)
        if not os.path.exists(replay) or read(replay) != text:
            tally.say(f"{shown}.replay", "isn't the program with the first invalid triple's store")
    if os.path.exists(stem + ".format"):
        run_example(runner, tally, "format", source, stem + ".format")
    if os.path.exists(replay):
        run_example(runner, tally, "replay", replay, replay + ".stdout")


def check_examples(runner, tally):
    for path in example_files():
        stem, suffix = os.path.splitext(path)
        if suffix == ".pale":
            check_example(runner, tally, stem)
        elif not os.path.exists(re.sub(r"\.replay$", "", stem) + ".pale"):
            tally.say(from_top(path), "belongs to no program")


class Folder:
    """A folder for the commands of one page."""

    def __init__(self, runner):
        self.runner = runner
        self.scratch = tempfile.TemporaryDirectory()
        self.path = os.path.join(self.scratch.name, ".programs")

    def __enter__(self):
        os.mkdir(self.path)
        os.symlink(self.runner.program, os.path.join(self.path, "pale"))
        os.symlink(EXAMPLES, os.path.join(self.scratch.name, "examples"))
        return self

    def __exit__(self, *_):
        self.scratch.cleanup()

    def put(self, name, text):
        write(os.path.join(self.scratch.name, name), text)

    def run(self, commands):
        return self.runner.run(["sh", "-c", commands], folder=self.scratch.name, path=self.path)


def check_page(runner, tally, page):
    shown, text, changed = from_top(page), read(page), []
    found = blocks(text)
    with Folder(runner) as folder:
        for (words, body, begin, _), behind in zip(found, found[1:] + [([], "", 0, 0)]):
            is_text = words[:1] == ["pale"] and len(words) > 1
            if is_text and words[1] not in MODES:
                folder.put(words[1], body)
                continue
            place = f"{shown}:{text.count(chr(10), 0, begin) + 1}"
            if not (is_text or words[:1] == ["sh"]) or behind[0][:1] != ["status"] or not tally.wants(place):
                continue
            status, out = runner.mode(words[1:], body) if is_text else folder.run(body)
            if tally.write and status is not None:
                changed.append((behind[2], behind[3], f"```status {status}\n{out}```"))
                tally.say(place, None)
            else:
                tally.say(place, fault_of((status, out), int(behind[0][1]), behind[1]))
            if words[:2] == ["pale", "check"]:
                tally.say_replays(place, body, out)
    for begin, end, block in reversed(changed):
        text = text[:begin] + block + text[end:]
    if changed:
        write(page, text)


def check_gallery(tally):
    """The bundle that the gate's run reads, and what it has to write, are made of what is stored."""
    if tally.write:
        make_gallery.make()
    if tally.wants("crates/pale_gallery"):
        tally.say("crates/pale_gallery", "; ".join(make_gallery.stale()))


def check_man(runner, tally, page):
    """The examples of the man page. They are compared alone, whatever is told."""
    shown, text = from_top(page), read(page)
    with Folder(runner) as folder:
        for found in re.finditer(r"^\.nf\n\$ (.*)\n((?:.*\n)*?)\.fi$", text, re.M):
            place = f"{shown}:{text.count(chr(10), 0, found.start()) + 2}"
            command, expected = (part.replace("\\-", "-").replace("\\e", "\\") for part in found.groups())
            if tally.wants(place):
                status, out = folder.run(command)
                tally.say(place, fault_of((status, out), status, expected))


def main():
    words = argparse.ArgumentParser(description="Compares a built pale with the examples and the pages.")
    words.add_argument("program")
    words.add_argument("--only", default="*", metavar="GLOB", help="names of kept outputs, or PAGE.md:LINE")
    words.add_argument("--seconds", type=float, default=60, metavar="N", help="what a run may take")
    words.add_argument("--nice", type=int, default=0, metavar="N", help="how far runs are put back")
    words.add_argument("--times", action="store_true", help="write the processor time of each run")
    words.add_argument("--write", action="store_true", help="put what is written in place of what is kept")
    told = words.parse_args()
    runner = Runner(told)
    tally = Tally(told, runner)
    check_examples(runner, tally)
    for page in pages():
        check_page(runner, tally, page)
    check_gallery(tally)
    check_man(runner, tally, os.path.join(DOCS, "pale.1"))
    print(f"{tally.passed} passed, {tally.failed} failed")
    return 1 if tally.failed else 0


if __name__ == "__main__":
    sys.exit(main())
