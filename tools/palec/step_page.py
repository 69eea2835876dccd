#!/usr/bin/env python3
"""Steps through a page that `palec report` wrote, in a headless Chromium, and compares what each step shows with what the page holds.

    tools/palec/step_page.py OUT.html [PICTURE.png]

Each triple is chosen by its button, stepped through to its end by the button that goes on, and back by the left arrow
key. With a PICTURE the window is written there at the end, at the last step of the first triple.
"""
import base64
import fcntl
import json
import os
import re
import shutil
import subprocess
import sys
import tempfile
from pathlib import Path

SEEN = """JSON.stringify({ text: document.getElementById('what').textContent, count: document.getElementById('count').textContent,
  now: [...document.querySelectorAll('.line.now')].map(it => it.id), isDrawn: !!document.querySelector('#heap svg'), table: (document.querySelector('#heap pre') || {}).textContent })"""
KEY = "document.dispatchEvent(new KeyboardEvent('keydown', { key: '%s' }))"


class Browser:
    """A headless Chromium that is told what to do over two pipes, its file descriptors 3 and 4."""

    def __init__(self, program, profile):
        (told, self.tell), (self.hear, said) = os.pipe(), os.pipe()

        def placed():
            high = [fcntl.fcntl(it, fcntl.F_DUPFD, 20) for it in (told, said)]
            os.dup2(high[0], 3)
            os.dup2(high[1], 4)

        words = [program, "--headless", "--no-sandbox", "--disable-gpu", "--remote-debugging-pipe", "--window-size=1400,800", f"--user-data-dir={profile}"]
        self.child = subprocess.Popen(words, preexec_fn=placed, pass_fds=(3, 4), stdin=subprocess.DEVNULL, stdout=subprocess.DEVNULL, stderr=subprocess.DEVNULL)
        os.close(told)
        os.close(said)
        self.number, self.left, self.session = 0, b"", None

    def message(self):
        while b"\0" not in self.left:
            piece = os.read(self.hear, 1 << 20)
            if not piece:
                sys.exit("step_page: the browser ended")
            self.left += piece
        one, _, self.left = self.left.partition(b"\0")
        return json.loads(one)

    def ask(self, method, **given):
        """What the browser answers to a method of its protocol."""
        self.number += 1
        session = {"sessionId": self.session} if self.session else {}
        os.write(self.tell, json.dumps({"id": self.number, "method": method, "params": given, **session}).encode() + b"\0")
        while True:
            heard = self.message()
            if heard.get("id") == self.number:
                return heard.get("result") or sys.exit(f"step_page: {method}: {heard.get('error')}") if "error" in heard else heard["result"]

    def open(self, address):
        target = self.ask("Target.createTarget", url="about:blank")["targetId"]
        self.session = self.ask("Target.attachToTarget", targetId=target, flatten=True)["sessionId"]
        self.ask("Page.enable")
        self.ask("Page.navigate", url=address)
        while self.message().get("method") != "Page.loadEventFired":
            pass

    def run(self, script):
        return self.ask("Runtime.evaluate", expression=script)["result"].get("value")

    def picture(self, path):
        Path(path).write_bytes(base64.b64decode(self.ask("Page.captureScreenshot")["data"]))


def shown_in(page):
    """The triples and steps that the page holds."""
    found = re.search(r'<script type="application/json" id="shown">(.*?)</script>', page, re.S)
    return json.loads(found[1])


def faults(browser, where, step, count, frame):
    """What isn't as it should be at a step."""
    seen = json.loads(browser.run(SEEN))
    wanted = {"text": frame["text"], "count": f"step {step} of {count - 1}", "now": [f"line{frame['line']}"], "isDrawn": bool(frame["svg"])}
    if not frame["svg"]:
        wanted["table"] = "\n".join(frame["lines"])
    return [f"{where}, step {step}: {key} is {seen.get(key)!r}, not {value!r}" for key, value in wanted.items() if seen.get(key) != value]


def walk(browser, number, frames):
    """Goes through the steps of one triple and back."""
    browser.run(f"document.querySelectorAll('.triple')[{number}].querySelector('button').click()")
    found, last = [], len(frames) - 1
    for step, frame in enumerate(frames):
        found += faults(browser, f"triple {number}", step, len(frames), frame)
        browser.run("document.getElementById('on').click()")
    for step in range(last - 1, -1, -1):
        browser.run(KEY % "ArrowLeft")
        found += faults(browser, f"triple {number}, back", step, len(frames), frames[step])
    return found


def main():
    path = Path(sys.argv[1]).resolve()
    program = shutil.which("chromium") or shutil.which("chromium-browser") or shutil.which("google-chrome") or sys.exit("step_page: there is no Chromium")
    shown = shown_in(path.read_text(encoding="utf-8"))
    with tempfile.TemporaryDirectory(ignore_cleanup_errors=True) as profile:
        browser = Browser(program, profile)
        try:
            browser.open(path.as_uri())
            found = [it for number, one in enumerate(shown) for it in walk(browser, number, one["frames"])]
            if len(sys.argv) > 2:
                browser.run(f"document.querySelector('.triple button').click(); {KEY % 'End'}")
                browser.picture(sys.argv[2])
        finally:
            browser.child.terminate()
            browser.child.wait()
    print("\n".join([*found, f"{sum(len(it['frames']) for it in shown)} steps, {len(found)} faults"]))
    sys.exit(1 if found else 0)


if __name__ == "__main__":
    main()
