#!/usr/bin/env python3
"""Measures the gate: runs `rt ci` at the top of the repository and prints a table of processor seconds and memory.

    tools/gate_times.py                 runs `rt ci` and watches it
    tools/gate_times.py --anew          the same from nothing: nothing is taken from what earlier runs proved on this machine
    tools/gate_times.py --watch FOLDER  watches a run that is under way in that copy of the repository until it ends
    tools/gate_times.py --simulate N    how long the gate takes on N processors, and its longest chain, by the table
                                        in docs/performance.md and the order in which `rt ci` begins its tasks

A row for each crate: its check, its tests and its must-fail edits in seconds of the checker's processes, and the most
memory that one of them held, in GB; all are sampled twice a second, so a process that lives shorter is missed. Below
it stand the minutes by the clock, the processor minutes of the rows, and those of the whole run as the system counts
them, with the sums of texts that `rt` makes by itself and the runs of programs.
"""
import os
import resource
import subprocess
import sys
import time
from collections import defaultdict
from functools import lru_cache
from pathlib import Path

import refusals

TOP = Path(__file__).resolve().parent.parent
PAGE = TOP / "docs" / "performance.md"
TICKS = os.sysconf("SC_CLK_TCK")
KINDS = ["check", "tests", "edits"]
# What one sum of one crate's texts takes in `rt` of a kit that sums a library once for each path that leads to it, twice a build.
SECONDS_A_SUM = {"rattle-kit-13b": 0.004}


def held_by(entry):
    """The most memory that a process has held so far, in GB."""
    for line in (entry / "status").read_text().splitlines():
        if line.startswith("VmHWM:"):
            return int(line.split()[1]) / 2**20
    return 0.0


def processes():
    """Each running process of the checker: its number, crate, kind, folder, seconds and memory so far."""
    for entry in Path("/proc").iterdir():
        if not entry.name.isdigit():
            continue
        try:
            words = (entry / "cmdline").read_bytes().split(b"\0")
            if b"--crate-name" not in words:
                continue
            crate = words[words.index(b"--crate-name") + 1].decode()
            folder = os.readlink(entry / "cwd")
            fields = (entry / "stat").read_text().rsplit(")", 1)[1].split()
            seconds, memory = (int(fields[11]) + int(fields[12])) / TICKS, held_by(entry)
            started = fields[19]
        except (OSError, ValueError, IndexError):
            continue
        kind = "edits" if "rt-edit" in folder else "tests" if b"--test" in words else "check"
        yield (entry.name, started), crate, kind, folder, seconds, memory


def is_ours(folder, top):
    return folder.startswith(str(top)) or "rt-edit" in folder or "rt-copy" in folder


def watch(is_running, top):
    seen = {}
    while is_running():
        for key, crate, kind, folder, seconds, memory in processes():
            if is_ours(folder, top):
                seen[key] = (crate, kind, seconds, memory)
        time.sleep(0.5)
    return seen


def print_table(seen, elapsed, counted):
    table, held = defaultdict(lambda: defaultdict(float)), defaultdict(float)
    for crate, kind, seconds, memory in seen.values():
        table[crate][kind] += seconds
        held[crate] = max(held[crate], memory)
    print("| crate | check | tests | edits | together | GB |")
    print("|---|---|---|---|---|---|")
    for crate in sorted(table, key=lambda name: -sum(table[name].values())):
        cells = [f"{table[crate][kind]:.0f}" if kind in table[crate] else "-" for kind in KINDS]
        print(f"| {crate} | {' | '.join(cells)} | {sum(table[crate].values()):.0f} | {held[crate]:.1f} |")
    sums = [sum(row[kind] for row in table.values()) for kind in KINDS]
    print(f"| all | {' | '.join(f'{one:.0f}' for one in sums)} | {sum(sums):.0f} | {max(held.values(), default=0):.1f} |")
    print(f"{elapsed / 60:.1f} minutes by the clock, {sum(sums) / 60:.1f} processor minutes of the checker")
    if counted is not None:
        print(f"{counted / 60:.1f} processor minutes of the whole run")


def measured():
    """The seconds of each crate's check, tests and edits, by the table of the page."""
    table, is_inside = {}, False
    for line in PAGE.read_text().splitlines():
        cells = [cell.strip() for cell in line.split("|")[1:-1]]
        is_inside = cells[:2] == ["crate", "check"] or is_inside and bool(cells)
        if is_inside and cells[0] not in ("crate", "all") and not cells[0].startswith("-"):
            table[cells[0]] = [0.0 if cell == "-" else float(cell) for cell in cells[1:4]]
    return table


def seconds_a_sum():
    """What a sum takes with the kit on the path: nothing to speak of where each text is summed once."""
    kit = subprocess.run(["rt", "version"], stdout=subprocess.PIPE, text=True, check=True).stdout.split()[0]
    return SECONDS_A_SUM.get(kit, 0.0)


def tasks_of(known, table):
    """Each task of `rt ci`: what it waits for, its seconds, those in which `rt` sums texts, and its lines."""
    a_sum = seconds_a_sum()
    own = {name: [one for one in libraries if one in known] for name, libraries in known.items()}

    @lru_cache(None)
    def paths(name):
        return 1 + sum(paths(one) for one in own[name])

    for name in sorted(known, key=lambda it: len(refusals.below(it, known))):
        source = TOP / "crates" / name / "src"
        lines = sum(path.read_text().count("\n") for path in source.rglob("*.rt"))
        check, tests, edits = table.get(name, [0.0, 0.0, 0.0])
        below = [one for one in refusals.below(name, known) if one != name]
        sums = 0.0 if (source / "main.rt").exists() else 2 * a_sum * paths(name)
        yield (name, "check"), [(one, "check") for one in below], check, sums, lines
        yield (name, "tests"), [(one, "check") for one in below], tests, 0.0, lines if tests else 0
        yield (name, "edits"), [(name, "check"), (name, "tests")], edits, 0.0, lines if edits else 0


def simulate(processors):
    """The seconds of the gate where each task takes one processor, and those of the longest chain of tasks."""
    tasks = {key: (waits, seconds, sums, lines) for key, waits, seconds, sums, lines in tasks_of(refusals.crates(), measured())}
    behind, chain, ended = {key: 0 for key in tasks}, {}, {}
    for key in reversed(list(tasks)):
        behind[key] += tasks[key][3]
        for one in tasks[key][0]:
            behind[one] = max(behind[one], behind[key])
    for key, (waits, seconds, sums, _) in tasks.items():
        chain[key] = max((chain[one] for one in waits), default=0.0) + seconds + sums
    left, running, now, summed = sorted(tasks, key=lambda it: -behind[it]), {}, 0.0, 0.0
    while left or running:
        for key in [it for it in left if all(one in ended for one in tasks[it][0])]:
            if len(running) < processors:
                left.remove(key)
                # only one thread of `rt` sums at a time
                summed = max(summed, now) + tasks[key][2] if tasks[key][2] else summed
                running[key] = max(now, summed if tasks[key][2] else now) + tasks[key][1]
        key = min(running, key=running.get)
        now = max(now, running.pop(key))
        ended[key] = now
    return now, max(chain.values())


def main():
    began = time.time()
    if sys.argv[1:2] == ["--simulate"]:
        whole, chain = simulate(int(sys.argv[2]))
        print(f"{whole / 60:.0f} minutes on {sys.argv[2]} processors, the longest chain {chain / 60:.0f} minutes")
        return
    if sys.argv[1:2] == ["--watch"]:
        running = lambda: subprocess.run(["pgrep", "-f", "rt ci"], stdout=subprocess.DEVNULL).returncode == 0
        seen, counted = watch(running, Path(sys.argv[2]).resolve()), None
    else:
        # (a kit that proves all anew in each run takes no such word)
        words = ["rt", "ci", *[word for word in sys.argv[1:] if word == "--anew" and not seconds_a_sum()]]
        gate = subprocess.Popen(words, cwd=TOP, stdout=sys.stderr)
        seen = watch(lambda: gate.poll() is None, TOP)
        used = resource.getrusage(resource.RUSAGE_CHILDREN)
        counted = used.ru_utime + used.ru_stime
    print_table(seen, time.time() - began, counted)


if __name__ == "__main__":
    main()
