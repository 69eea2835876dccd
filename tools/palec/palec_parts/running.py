"""Calls of the program `pale`, each with its own bounds of time and memory."""
import os
import resource
import shutil
import signal
import subprocess
import threading
import time
from dataclasses import dataclass
from pathlib import Path

TOP = Path(__file__).resolve().parents[3]


class NoProgram(Exception):
    """There is no program to call."""


@dataclass
class Answer:
    """What a call wrote, its status, and whether it was cut off: `time` where it was stopped at its bound."""

    output: str
    status: int
    cut: str = ""


def find_pale():
    """The program: the one that PALE names, else the one that the gate built, else the first on the path."""
    named = os.environ.get("PALE")
    for place in [named] if named else [TOP / "crates" / "pale" / "out" / "pale", shutil.which("pale")]:
        if place and os.access(place, os.X_OK) and Path(place).is_file():
            return str(Path(place).resolve())
    if named:
        raise NoProgram(f"PALE names {named}, which is no program that can be run")
    raise NoProgram("there is no program `pale`: build it with `rt ci pale` (it is left at crates/pale/out/pale), or name one in PALE")


class Caller:
    """Calls one program, and ends all that run when it is told to."""

    def __init__(self, program, limit=None, seconds=None, megabytes=None):
        self.program, self.limit, self.seconds, self.megabytes = program, limit, seconds, megabytes
        self.running, self.lock, self.stopped = {}, threading.Lock(), False

    def bounded(self):
        """In the child: its own group, and its bound of memory."""
        os.setsid()
        if self.megabytes:
            size = self.megabytes << 20
            resource.setrlimit(resource.RLIMIT_AS, (size, size))

    def call(self, mode, text, *words, label=""):
        """The answer of `pale MODE` for a text; the label is what a line of progress calls it."""
        given = [self.program, mode, *words]
        if self.limit is not None:
            given += ["--limit", str(self.limit)]
        with self.lock:
            if self.stopped:
                return Answer("", -1, "stopped")
            child = subprocess.Popen(given, stdin=subprocess.PIPE, stdout=subprocess.PIPE, stderr=subprocess.DEVNULL, preexec_fn=self.bounded)
            self.running[child] = (label, time.monotonic())
        cut = ""
        try:
            output, _ = child.communicate(text, timeout=self.seconds)
        except subprocess.TimeoutExpired:
            cut = "time"
            self.end(child)
            output, _ = child.communicate()
        except BaseException:
            self.end(child)
            child.wait()
            raise
        finally:
            with self.lock:
                self.running.pop(child, None)
        return Answer(output.decode("utf-8", "replace"), child.returncode, cut or ("stopped" if self.stopped else ""))

    def under_way(self):
        """The labels of the calls that run, each with the seconds since it began."""
        with self.lock:
            now = time.monotonic()
            return [(label, now - began) for label, began in self.running.values() if label]

    @staticmethod
    def end(child):
        try:
            os.killpg(child.pid, signal.SIGKILL)
        except ProcessLookupError:
            pass

    def stop(self):
        """Ends every call that runs; later ones answer at once that they were stopped."""
        with self.lock:
            self.stopped = True
            for child in self.running:
                self.end(child)
