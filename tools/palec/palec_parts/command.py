"""The words of palec."""
import argparse
import codecs
import hashlib
import io
import os
import shlex
import sys
from pathlib import Path

from . import drawing, explaining, formats, page, telling
from .judging import Told, Wishes, fields_of, is_there, judge_files, status_of, triple_of
from .progress import Progress
from .reports import read_report
from .running import Caller, NoProgram, find_pale
from .sources import Source

VERSION = "0.1"
USAGE, REFUSED = 2, 3


STATUSES = ("Status: 0 all is valid; 1 some triple is invalid; 2 the words, a file, or no program to call; 3 a text was refused, "
            "or a field is ambiguous; 4 a limit was met, or there is no answer.")
DRAWN = "Status: 0 it is drawn; 2 the words, a file, or no program to call; 3 there is no store to draw."
WRITTEN = "Status: 0 all commands are written; 2 the words, a file, or no program to call; 3 the triples of a text can't be asked for one by one."
VARIABLES = "PALE names the program `pale`, else it is the one that the gate left, or the one on the path. NO_COLOR turns colours off."


def between(low, high, kind=int):
    """Reads a number that isn't outside these."""
    def read(word):
        value = kind(word)
        if not low <= value <= high:
            raise argparse.ArgumentTypeError(f"{word} isn't from {low:,} to {high:,}")
        return value
    read.__name__ = "number"
    return read


def add_bounds(parser, with_jobs=True):
    if with_jobs:
        parser.add_argument("-j", type=between(1, 1000), default=os.cpu_count() or 1, metavar="N", help="how many triples are judged at a time (all processors)")
    parser.add_argument("--time", type=between(0.001, 10**9, float), metavar="S", help="the most seconds for a triple; one that takes longer is cut off, and the others go on")
    parser.add_argument("--memory", type=between(1, 10**9), metavar="MB", help="the most memory for a triple")
    parser.add_argument("--limit", type=between(1, 16_000_000), metavar="N", help="pale's --limit (2,000,000)")


def add_triple(parser, otherwise):
    parser.add_argument("--triple", type=between(1, 10**9), metavar="K", help=f"the triple of that number; else {otherwise}")


def arguments():
    told = "Checks programs with `pale`, tells what is wrong where, and draws stores. All judging is done by the proved program `pale`. docs/palec.md has more."
    parser = argparse.ArgumentParser(prog="palec", description=told, epilog=f"{STATUSES} {VARIABLES}")
    parser.add_argument("--version", action="store_true", help="print the versions of palec and of the program that it calls")
    kinds = parser.add_subparsers(dest="kind", metavar="COMMAND")

    def command(name, does, files="file", about="the text of a program", epilog=STATUSES):
        made = kinds.add_parser(name, help=does, description=f"{does[0].upper()}{does[1:]}.", epilog=epilog)
        made.add_argument(files, metavar="FILE", help=about, **({"nargs": "+"} if files == "files" else {}))
        return made

    check = command("check", "judge the fields and triples of programs", "files", "texts of programs")
    add_bounds(check)
    check.add_argument("--no-meet", action="store_true", help="don't look for triples that no store meets")
    check.add_argument("--format", choices=["text", "json", "sarif", "github"], default="text", 
                       help="for people, or for machines: an object a line, a log of SARIF 2.1.0, the commands of a GitHub workflow (text)")
    check.add_argument("--color", choices=["auto", "always", "never"], default="auto", help="colours in text; auto: on a terminal (auto)")

    explain = command("explain", "tell an invalid triple step by step, with the heap after each step")
    add_triple(explain, "every invalid one")
    add_bounds(explain)

    report = command("report", "write a page for a browser: the program with its verdicts, and pictures of each invalid triple's steps")
    report.add_argument("-o", required=True, dest="output", metavar="OUT", help="OUT.html")
    add_bounds(report)
    report.add_argument("--no-meet", action="store_true", help="don't look for triples that no store meets")

    draw = command("draw", "draw the store that is told of a triple, or of an ambiguous field", epilog=DRAWN)
    add_triple(draw, "the first thing with a store")
    draw.add_argument("-o", required=True, dest="output", metavar="OUT", help="OUT.svg, OUT.png or OUT.dot")
    add_bounds(draw, with_jobs=False)

    jobs = command("jobs", "print one shell command for each triple, for a job runner; each writes a file for `gather`", "files", "texts of programs", WRITTEN)
    jobs.add_argument("--into", default="palec-jobs", metavar="DIR", help="the folder for the outputs (palec-jobs)")

    gather = kinds.add_parser("gather", help="join the outputs of such jobs into one report", description="Join the outputs of such jobs into one report.", epilog=STATUSES)
    gather.add_argument("folder", metavar="DIR", help="the folder that `jobs --into` named")
    return parser


def sources_of(paths):
    """The files; a file that can't be read is told, and None stands for all."""
    try:
        return [Source(path) for path in paths]
    except OSError as error:
        print(f"palec: {error.filename}: {error.strerror}", file=sys.stderr)
        return None


def is_coloured(choice):
    return choice == "always" or choice == "auto" and sys.stdout.isatty() and "NO_COLOR" not in os.environ


def check(words, caller):
    sources, all_told = sources_of(words.files), []
    if sources is None:
        return USAGE
    writer = telling.Writer(sys.stdout.write, is_coloured(words.color))
    with Progress(caller, len(sources), sys.stderr.isatty() and words.format == "text") as progress:
        for told in judge_files(caller, sources, Wishes(words.j, not words.no_meet, progress.one, explaining.explain)):
            all_told.append(told)
            if words.format == "text":
                with progress.aside():
                    telling.tell_file(writer, told)
    if words.format != "text":
        sys.stdout.write({"json": formats.as_json, "github": formats.as_github, "sarif": lambda told: formats.as_sarif(told, VERSION)}[words.format](all_told))
    return status_of(all_told)


def judged(words, caller, source):
    """What is told of one file, by the words of a call; of one triple alone where its number is given."""
    jobs, number = words.j, getattr(words, "triple", None)
    if number is None:
        return next(judge_files(caller, [source], Wishes(jobs, not getattr(words, "no_meet", True), explain=explaining.explain)))
    told = Told(source, fields_of(caller, source) or [it for it in [triple_of(caller, source, number)] if it])
    told.explained = {it.number: explaining.explain(caller, source, it) for it in told.findings if it.verdict == "invalid"}
    return told


def explain(words, caller):
    """Each invalid triple: what is wrong, its start, its steps, and which parts of an assertion are false."""
    sources = sources_of([words.file])
    if sources is None:
        return USAGE
    told = judged(words, caller, sources[0])
    if not told.findings and words.triple is not None:
        print(f"palec: there is no triple {words.triple}", file=sys.stderr)
        return USAGE
    writer = telling.Writer(sys.stdout.write, is_coloured("auto"))
    telling.tell_file(writer, told, is_stepped=True)
    return status_of([told])


def report(words, caller):
    sources = sources_of([words.file])
    if sources is None:
        return USAGE
    told = judged(words, caller, sources[0])
    with open(words.output, "w", encoding="utf-8", errors="replace") as file:
        file.write(page.as_page(told))
    return status_of([told])


def draw(words, caller):
    sources = sources_of([words.file])
    if sources is None:
        return USAGE
    source = sources[0]
    if words.triple is not None:
        found = [it for it in [triple_of(caller, source, words.triple)] if it]
    else:
        found = read_report(caller.call("check", source.data).output)
    with_store = next((it for it in found if it.store), None)
    if with_store is None:
        print("palec: there is no store to draw: nothing that was told has one", file=sys.stderr)
        return REFUSED
    name = f"triple {with_store.number} of {with_store.procedure}" if with_store.kind == "triple" else with_store.procedure
    why = drawing.draw(drawing.as_dot(with_store.store, drawing.pointer_fields(source), f"{name}: {with_store.cause or with_store.verdict}"), words.output)
    if why:
        print(f"palec: {why}", file=sys.stderr)
    return USAGE if why else 0


def triple_count(caller, source):
    """How many triples a program has, by asking for numbers."""
    low, high = 0, 1
    while is_there(caller, source, high):
        low, high = high, high * 2
    while high - low > 1:
        middle = (low + high) // 2
        low, high = (middle, high) if is_there(caller, source, middle) else (low, middle)
    return low


def jobs(words, caller):
    sources = sources_of(words.files)
    if sources is None:
        return USAGE
    program = shlex.quote(caller.program)
    for place, source in enumerate(sources):
        if source.is_one_piece():
            print(f"palec: {source.path} has a line `---`, or is as long as a text may be, so its triples can't be asked for one by one", file=sys.stderr)
            return REFUSED
        for number in range(1, triple_count(caller, source) + 1):
            to = shlex.quote(os.path.join(words.into, f"{place}.{number}"))
            path = shlex.quote(source.path)
            print(f"mkdir -p {shlex.quote(words.into)} && {{ cat {path}; printf '\\n---\\ntriple {number}\\n'; }} | {program} judge > {to}.part; echo $? > {to}.status; "
                  f"printf '%s\\n' {path} > {to}.file; mv {to}.part {to}.out")
    return 0


def gather(words, _caller):
    """One line for each job's triple, its store, and a count."""
    try:
        names = sorted((it for it in os.listdir(words.folder) if it.endswith(".out")), key=lambda it: [int(n) for n in it.split(".")[:2]])
    except (OSError, ValueError) as error:
        print(f"palec: {words.folder}: {error}", file=sys.stderr)
        return USAGE
    counts, statuses = {}, set()
    for name in names:
        stem = os.path.join(words.folder, name[: -len(".out")])
        output, path, status = (Path(stem + end).read_text(encoding="utf-8", errors="replace") for end in (".out", ".file", ".status"))
        path = path.strip()
        statuses.add(status.strip())
        sys.stdout.write(f"# {path}\n{output}")
        for finding in read_report(output):
            counts[finding.verdict or finding.kind] = counts.get(finding.verdict or finding.kind, 0) + 1
    print(f"{len(names)} jobs" + "".join(f", {count} {word}" for word, count in sorted(counts.items())))
    return 3 if "3" in statuses else 1 if "1" in statuses else 0 if statuses <= {"0"} else 4


def version():
    """palec's number, and which program it calls: that has no number of its own, so its place and checksum stand for one."""
    print(f"palec {VERSION}")
    try:
        program = find_pale()
    except NoProgram as error:
        print(f"palec: {error}", file=sys.stderr)
        return USAGE
    with open(program, "rb") as file:
        print(f"pale {program}, sha256 {hashlib.file_digest(file, 'sha256').hexdigest()}")
    return 0


def written_somehow(error):
    """What is written for characters that an output has no bytes for: the bytes of a file's name as they were, else their numbers."""
    try:
        return codecs.lookup_error("surrogateescape")(error)
    except UnicodeError:
        return codecs.lookup_error("backslashreplace")(error)


def called(words):
    """What a command does, whatever comes between: nothing that was called is left behind."""
    caller = Caller(find_pale(), getattr(words, "limit", None), getattr(words, "time", None), getattr(words, "memory", None))
    try:
        return {"check": check, "explain": explain, "report": report, "draw": draw, "jobs": jobs, "gather": gather}[words.kind](words, caller)
    except KeyboardInterrupt:
        print("palec: stopped", file=sys.stderr)
        return 130
    except BrokenPipeError:
        sys.stdout = open(os.devnull, "w")
        return 0
    except OSError as error:
        print(f"palec: {error.filename or 'files'}: {error.strerror}", file=sys.stderr)
        return USAGE
    finally:
        caller.stop()


def main(given):
    codecs.register_error("palec", written_somehow)
    for stream in (sys.stdout, sys.stderr):
        if isinstance(stream, io.TextIOWrapper):
            stream.reconfigure(errors="palec")
    parser = arguments()
    words = parser.parse_args(given)
    if words.version:
        return version()
    if not words.kind:
        parser.print_help(sys.stderr)
        return USAGE
    try:
        return called(words)
    except NoProgram as error:
        print(f"palec: {error}", file=sys.stderr)
        return USAGE
