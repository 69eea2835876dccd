"""Tests of palec: `python3 -m unittest tests` in tools/palec. They call the program that PALE names, else crates/pale/out/pale."""
import io
import json
import os
import shutil
import signal
import subprocess
import sys
import tempfile
import time
import unittest
from contextlib import redirect_stderr, redirect_stdout
from pathlib import Path

HERE = Path(__file__).resolve().parent
sys.path.insert(0, str(HERE))

from palec_parts import grammar, running  # noqa: E402
from palec_parts.command import main  # noqa: E402
from palec_parts.drawing import as_dot  # noqa: E402
from palec_parts.judging import request  # noqa: E402
from palec_parts.reports import read_report, store_text  # noqa: E402
from palec_parts.sources import Source  # noqa: E402
from palec_parts.tracing import after, read_trace  # noqa: E402

EXAMPLES = running.TOP / "examples"


def hear_interrupts():
    """What a shell runs behind itself ignores interrupts, and hands that on."""
    signal.signal(signal.SIGINT, signal.SIG_DFL)


def told(*words):
    """The status and what is written for these words."""
    out, errors = io.StringIO(), io.StringIO()
    with redirect_stdout(out), redirect_stderr(errors):
        status = main([str(word) for word in words])
    return status, out.getvalue() + errors.getvalue()


KINDS = {"object": dict, "array": list, "string": str, "boolean": bool, "integer": int, "null": type(None)}


def faults(schema, value, where="it"):
    """What a value has against a schema, by the words of JSON Schema that docs/palec.schema.json uses."""
    kinds = schema.get("type", [])
    if kinds and not any(type(value) is KINDS[it] for it in ([kinds] if isinstance(kinds, str) else kinds)):
        return [f"{where} is a {type(value).__name__}"]
    found = [f"{where} is {value!r}"] if value not in schema.get("enum", [value]) or isinstance(value, int) and value < schema.get("minimum", value) else []
    if isinstance(value, list):
        found += [fault for at, it in enumerate(value) for fault in faults(schema.get("items", {}), it, f"{where}[{at}]")]
    if isinstance(value, dict):
        parts, others = schema.get("properties", {}), schema.get("additionalProperties", {})
        found += [f"{where} has no {it}" for it in schema.get("required", []) if it not in value]
        found += [f"{where} has {it}" for it in value if it not in parts and others is False]
        found += [fault for name, it in value.items() for fault in faults(parts.get(name, others or {}), it, f"{where}.{name}")]
    return found


class Texts(unittest.TestCase):
    """What needs no program."""

    def test_the_grammar_of_the_page_takes_every_example(self):
        reserved = grammar.reserved_words()
        for path in EXAMPLES.glob("*/*.pale"):
            self.assertIn('"proc"', grammar.allowed_before(Source(path).tokens()[:-1], reserved), path)

    def test_a_store_is_read_and_drawn(self):
        report = "triple 1 p line 2 invalid field line 5\nstore\nvar x 1\nvar y null\ncell 1 Dbl next=null prev=1\nend\n"
        found = read_report(report)[0]
        self.assertEqual((found.cause, found.at, found.store.variables), ("field", 5, [("x", "1"), ("y", "null")]))
        dot = as_dot(found.store, {"prev"}, '"quoted"')
        self.assertIn('c1 -> c1 [label="prev", style=dashed];', dot)
        self.assertIn('label="\\"quoted\\""', dot)


class Calls(unittest.TestCase):
    """What the program answers, told."""

    @classmethod
    def setUpClass(cls):
        try:
            running.find_pale()
        except running.NoProgram as error:
            raise unittest.SkipTest(str(error))

    def test_each_mistake_is_told_with_its_hint(self):
        for path in sorted((HERE / "mistakes").glob("*.pale")):
            status, output = told("check", path, "--color", "never")
            self.assertIn(path.with_suffix(".told").read_text().strip(), output, f"{path.name}:\n{output}")
            self.assertNotIn("Traceback", output)

    def test_the_findings_of_an_example_are_those_of_check(self):
        path = EXAMPLES / "mistakes" / "broken_field.pale"
        whole = subprocess.run([running.find_pale(), "check"], input=path.read_bytes(), stdout=subprocess.PIPE).stdout.decode()
        expected = [it for it in read_report(whole) if it.kind == "triple"]
        status, output = told("check", path, "--format", "json")
        found = [json.loads(line) for line in output.splitlines()]
        self.assertEqual([(it.number, it.verdict) for it in expected], [(it["triple"], it["verdict"]) for it in found])
        self.assertEqual(status, 1)

    def test_formats_for_machines_are_well_formed(self):
        path = HERE / "mistakes" / "lost_cell.pale"
        schema = json.loads((running.TOP / "docs" / "palec.schema.json").read_text())
        for name in ("lost_cell", "ambiguous_field", "arrow", "met_by_none", "half_of_post", "no_procedure"):
            _, lines = told("check", path.with_name(f"{name}.pale"), "--format", "json")
            self.assertEqual([it for line in lines.splitlines() for it in faults(schema, json.loads(line))], [], name)
        log = json.loads(told("check", path, "--format", "sarif")[1])
        driver, result = log["runs"][0]["tool"]["driver"], log["runs"][0]["results"][0]
        place = result["locations"][0]["physicalLocation"]
        # what the schema of SARIF 2.1.0 requires, and what viewers need to show a place
        self.assertEqual((log["version"], driver["name"], result["ruleId"]), ("2.1.0", "palec", "triple/leak"))
        self.assertIn(result["ruleId"], [it["id"] for it in driver["rules"]])
        self.assertTrue(result["message"]["text"] and place["artifactLocation"]["uri"] and place["region"]["startLine"] >= 1)
        self.assertTrue(told("check", path, "--format", "github")[1].startswith("::error file="))

    def test_jobs_are_run_by_a_shell_and_gathered(self):
        path = EXAMPLES / "mistakes" / "leak.pale"
        with tempfile.TemporaryDirectory() as room:
            _, lines = told("jobs", path, "--into", Path(room) / "out")
            for line in lines.splitlines():
                subprocess.run(line, shell=True, check=True)
            status, output = told("gather", Path(room) / "out")
        self.assertEqual(status, 1)
        self.assertIn("invalid leak", output)

    def test_hostile_input_leaves_no_traceback(self):
        with tempfile.TemporaryDirectory() as room:
            for name, data in {"empty": b"", "bytes": bytes(range(256)), "cut": b"---\nproc p() { }\n", "long": b"# " + b"x" * 1_100_000}.items():
                (Path(room) / name).write_bytes(data)
                self.assertNotIn("Traceback", told("check", Path(room) / name)[1])
            self.assertEqual(told("check", Path(room) / "none")[0], 2)

    def test_a_page_holds_no_word_of_the_text_as_markup(self):
        with tempfile.TemporaryDirectory() as room:
            path = Path(room) / "<script>x.pale"
            path.write_text("# </script><script>alert(1)</script>\n" + (HERE / "mistakes" / "lost_cell.pale").read_text())
            self.assertEqual(told("report", path, "-o", Path(room) / "out.html")[0], 1)
            page = (Path(room) / "out.html").read_text()
        self.assertEqual((page.count("<script"), page.count("</script>")), (2, 2))
        self.assertIn("&lt;script&gt;alert(1)", page)

    def test_the_steps_of_a_mistake_are_explained(self):
        status, output = told("explain", HERE / "mistakes" / "back_pointer.pale")
        self.assertEqual(status, 1)
        for piece in ("step 1, line 3: y = new Dbl;", "cell 2 is made, of type Dbl", "step 3, line 4: y.next = x;", "2     Dbl   1*    null", "then, line 5: }"):
            self.assertIn(piece, output)

    def test_the_heaps_that_are_shown_come_to_the_store_that_pale_writes(self):
        caller = running.Caller(running.find_pale())
        for path in sorted([*(HERE / "mistakes").glob("*.pale"), *EXAMPLES.glob("mistakes/*.pale")]):
            source = Source(path)
            for finding in read_report(caller.call("check", source.data).output):
                if finding.verdict == "invalid":
                    trace = read_trace(caller.call("trace", request(source, f"triple {finding.number}") + store_text(finding.store).encode()).output)
                    self.assertEqual((trace.cause, trace.at), (finding.cause, finding.at), path)
                    shown = finding.store
                    for step in trace.steps:
                        shown = after(shown, step, source.fields_of).store
                    self.assertEqual(store_text(shown), store_text(trace.store), path)

    def test_a_job_runner_of_the_distribution_runs_the_jobs(self):
        runner = shutil.which("parallel")
        if not runner:
            self.skipTest("GNU parallel isn't installed")
        with tempfile.TemporaryDirectory() as room:
            _, lines = told("jobs", EXAMPLES / "mistakes" / "leak.pale", HERE / "mistakes" / "null_read.pale", "--into", Path(room) / "out")
            subprocess.run([runner, "--will-cite", "-j", "4"], input=lines.encode(), check=True, stdout=subprocess.DEVNULL, stderr=subprocess.DEVNULL)
            status, output = told("gather", Path(room) / "out")
        self.assertEqual(status, 1)
        self.assertIn(f"\n{len(lines.splitlines())} jobs, ", output)


class Stopping(unittest.TestCase):
    """What becomes of calls that don't end, with a program that sleeps in place of pale."""

    def call(self, room, *words):
        """palec as a process, and the mark by which the sleeping program's processes are found."""
        mark = f"{time.time_ns() % 10**9 + 10**9}"
        program = Path(room) / "pale"
        program.write_text(f"#!/bin/sh\nexec sleep {mark}\n")
        program.chmod(0o755)
        (Path(room) / "a.pale").write_text("proc p() { }\n")
        child = subprocess.Popen([sys.executable, HERE / "palec", "check", Path(room) / "a.pale", *words], stdout=subprocess.PIPE, stderr=subprocess.STDOUT,
                                 env={**os.environ, "PALE": str(program)}, preexec_fn=hear_interrupts)
        return child, mark

    def is_left(self, mark):
        return any(mark.encode() in (entry / "cmdline").read_bytes() for entry in Path("/proc").iterdir() if entry.name.isdigit() and (entry / "cmdline").exists())

    def test_a_call_past_its_time_is_ended_and_told(self):
        with tempfile.TemporaryDirectory() as room:
            child, mark = self.call(room, "--time", "0.5", "--no-meet")
            output = child.communicate(timeout=30)[0].decode()
            self.assertIn("no answer", output)
            self.assertEqual((child.returncode, self.is_left(mark)), (4, False))

    def test_an_interrupt_leaves_no_process_and_no_traceback(self):
        with tempfile.TemporaryDirectory() as room:
            child, mark = self.call(room)
            while not self.is_left(mark):
                time.sleep(0.05)
            child.send_signal(signal.SIGINT)
            output = child.communicate(timeout=30)[0].decode()
            self.assertEqual((child.returncode, self.is_left(mark), output), (130, False, "palec: stopped\n"))


if __name__ == "__main__":
    unittest.main()
