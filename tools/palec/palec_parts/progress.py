"""A line of progress on a terminal: how many files and triples are done, and which calls run for how long."""
import shutil
import sys
import threading
from contextlib import contextmanager

SECONDS = 0.2


class Progress:
    """Shows the line while calls run, where it is wanted; as a context it ends with its block."""

    def __init__(self, caller, files, is_shown):
        self.caller, self.files, self.is_shown = caller, files, is_shown
        self.told = self.done = 0
        self.ended, self.lock = threading.Event(), threading.Lock()
        self.thread = threading.Thread(target=self.show, daemon=True)

    def __enter__(self):
        if self.is_shown:
            self.thread.start()
        return self

    def __exit__(self, *_why):
        self.ended.set()
        if self.is_shown:
            self.thread.join()
            self.clear()

    def one(self, _told):
        """A triple is done."""
        self.done += 1

    @contextmanager
    def aside(self):
        """While a file is told there is no line."""
        with self.lock:
            self.told += 1
            self.clear()
            yield
            sys.stdout.flush()

    def clear(self):
        if self.is_shown:
            sys.stderr.write("\r\033[K")
            sys.stderr.flush()

    def line(self):
        calls = ", ".join(f"{label} for {seconds:.0f} s" for label, seconds in self.caller.under_way()[:4])
        text = f"{self.told} of {self.files} files, {self.done} triples done" + (f"; running: {calls}" if calls else "")
        return "".join(it for it in text if it.isprintable())[:shutil.get_terminal_size().columns - 1]

    def show(self):
        while not self.ended.wait(SECONDS):
            with self.lock:
                sys.stderr.write(f"\r{self.line()}\033[K")
                sys.stderr.flush()
