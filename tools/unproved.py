#!/usr/bin/env python3
"""Builds a program of the repository without proving it, at -O2, and compares what it writes with what is stored.

    tools/unproved.py NAME

NAME is a crate with a `main`, as `pale_gallery` or `pale`. `rt try` lowers the program and all crates below it, and
compiles that with checks that find faults, which makes it slow; here the kit's own clang compiles the same code
without them, so that it is about as fast as a proved build. The program is left at crates/NAME/out/unproved. Where
the crate has a file `stdin`, the program is run on it with the words of `args`, and what it writes and its status are
compared with the files `stdout` and `status`, as `rt ci` does with a proved build; the script's status is 1 where they differ. Nothing that such a build answers counts as proved.
"""
import os
import resource
import shutil
import signal
import subprocess
import sys
import tempfile
import time
from pathlib import Path

TOP = Path(__file__).resolve().parent.parent
KIT = Path(shutil.which("rt") or sys.exit("unproved: rt isn't on the path")).resolve().parent.parent
CLANG = KIT / "toolchain" / "bin" / "clang"
# The check that `rt try` puts where a proof says that control doesn't come.
TRAP = "call void @llvm.trap()"


def as_text(code, room):
    """The code as text."""
    text = room / "module.ll"
    subprocess.run([CLANG, "-O0", "-S", "-emit-llvm", "-x", "ir", code, "-o", text], check=True, stderr=subprocess.DEVNULL)
    return text


def has_main(text):
    with open(text) as lines:
        return any(line.startswith("define") and "@main(" in line for line in lines)


def lowered(crate, room):
    """The code of the program, as text, as `rt try` hands it to clang, which is stopped then."""
    scratch = room / "scratch"
    scratch.mkdir()
    with open(room / "log", "w") as log:
        child = subprocess.Popen(["rt", "try"], cwd=crate, env={**os.environ, "TMPDIR": str(scratch)}, stdin=subprocess.DEVNULL, stdout=log, stderr=log)
    kept, size = room / "module.bc", 0
    while child.poll() is None:
        time.sleep(0.5)
        try:
            now = max((it.stat().st_size for it in scratch.rglob("module.bc")), default=0)
            if now and now == size:
                shutil.copyfile(next(it for it in scratch.rglob("module.bc") if it.stat().st_size == now), kept)
                text = as_text(kept, room)
                if has_main(text):
                    child.send_signal(signal.SIGTERM)
                    child.wait()
                    return text
            size = now
        except (FileNotFoundError, StopIteration, subprocess.CalledProcessError):
            size = 0
    sys.exit("unproved: rt try made no code:\n" + (room / "log").read_text()[-2000:])


def compiled(text, room, to):
    """Compiles the code without the checks, and links it."""
    plain, object_file = room / "plain.ll", room / "module.o"
    with open(text) as lines, open(plain, "w") as others:
        others.writelines(line for line in lines if TRAP not in line)
    subprocess.run([CLANG, "-O2", "-c", "-x", "ir", plain, "-o", object_file], check=True)
    link = [KIT / "bin" / "rattle-link", "--target", "x86_64-unknown-linux-gnu", "--toolchain", KIT / "toolchain", "-o", to, object_file]
    subprocess.run([*link, KIT / "c" / "libos_c.a", KIT / "c" / "liblibc_c.a"], check=True, stdout=subprocess.DEVNULL)


def stored(crate, name):
    """What stands in the crate's file of that name, and nothing where there is none."""
    path = crate / name
    return path.read_bytes() if path.exists() else b""


def compare(crate, program):
    """Whether the program writes what is stored, where the crate has an input."""
    if not (crate / "stdin").exists():
        return True
    ran = subprocess.run([program, *stored(crate, "args").split()], input=stored(crate, "stdin"), stdout=subprocess.PIPE)
    is_same = ran.stdout == stored(crate, "stdout") and ran.returncode == int(stored(crate, "status") or 0)
    print(f"unproved: {crate.name} wrote {'what is stored' if is_same else 'something else than is stored'}, {len(ran.stdout)} bytes")
    return is_same


def main():
    if len(sys.argv) != 2 or not (TOP / "crates" / sys.argv[1] / "src" / "main.rt").exists():
        sys.exit(__doc__)
    crate = TOP / "crates" / sys.argv[1]
    program = crate / "out" / "unproved"
    program.parent.mkdir(exist_ok=True)
    began = time.time()
    with tempfile.TemporaryDirectory(prefix="unproved-") as room:
        compiled(lowered(crate, Path(room)), Path(room), program)
    used = resource.getrusage(resource.RUSAGE_CHILDREN)
    seconds, memory = used.ru_utime + used.ru_stime, used.ru_maxrss / 2**20
    print(f"unproved: built {program.relative_to(TOP)} in {time.time() - began:.0f} s, {seconds:.0f} of a processor, at most {memory:.1f} GB a process", flush=True)
    return 0 if compare(crate, program) else 1


if __name__ == "__main__":
    sys.exit(main())
