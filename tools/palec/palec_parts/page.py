"""A page for a browser, whole in one file: the program with its verdicts, and each invalid triple step by step with pictures."""
import html
import json
from functools import lru_cache

from .drawing import as_dot, as_svg, pointer_fields
from .explaining import part_lines, sentence
from .formats import place_of, sentence_of
from .hints import CAUSES, refusal_help
from .tables import store_lines
from .telling import counted
from .tracing import Heap

# So many steps of a triple have a picture.
MOST_PICTURES = 200

STYLE = """
body { font: 15px/1.4 system-ui, sans-serif; margin: 0; display: flex; height: 100vh; color: #222; background: #fff; }
#program { flex: 1; overflow: auto; border-right: 1px solid #ccc; padding: 8px 0; }
#side { flex: 1; overflow: auto; padding: 8px 16px; }
.line { display: flex; font: 13px/1.5 ui-monospace, monospace; padding-right: 8px; }
.line b { flex: none; width: 3em; text-align: right; padding-right: 1em; color: #888; font-weight: normal; }
.line span { flex: 1; white-space: pre-wrap; overflow-wrap: anywhere; }
.line.bad { background: #fde8e8; } .line.now { background: #fff3b0; }
.line i { font: 12px/1.5 system-ui, sans-serif; padding-left: 2em; color: #a00; } .line i.good { color: #070; }
button { font: inherit; margin-right: 4px; } .triple.chosen { font-weight: bold; background: #eef; }
#heap svg { max-width: 100%; height: auto; } #heap pre { font: 13px/1.5 ui-monospace, monospace; }
#what { min-height: 3em; } .key { color: #666; font-size: 13px; } .triple button { text-align: left; }
@media (max-width: 900px) { body { flex-direction: column; } #program { border-right: none; border-bottom: 1px solid #ccc; } }
"""

STEPS = """<p><button id="back">&#8592;</button><button id="on">&#8594;</button> <span id="count"></span></p>
<p id="what"></p><div id="heap"></div>
<p class="key">The arrow keys go on and back, Home and End to the start and to the failure.
Data fields are solid, pointer fields dashed; what the step changed is red.</p>"""

SCRIPT = """
const shown = JSON.parse(document.getElementById('shown').textContent);
let triple = 0, step = 0;
const at = id => document.getElementById(id);
const wanted = new URLSearchParams(location.hash.slice(1));
function show() {
  if (!shown.length) return;
  const one = shown[triple], frame = one.frames[step];
  at('count').textContent = 'step ' + step + ' of ' + (one.frames.length - 1);
  at('what').textContent = frame.text;
  at('heap').innerHTML = frame.svg;
  if (!frame.svg) { const table = document.createElement('pre'); table.textContent = frame.lines.join('\\n'); at('heap').append(table); }
  document.querySelectorAll('.now').forEach(it => it.classList.remove('now'));
  const line = at('line' + frame.line);
  if (line) { line.classList.add('now'); line.scrollIntoView({ block: 'nearest' }); }
  document.querySelectorAll('.triple').forEach((it, n) => it.classList.toggle('chosen', n === triple));
  history.replaceState(null, '', '#triple=' + triple + '&step=' + step);
  at('back').disabled = step === 0; at('on').disabled = step === one.frames.length - 1;
}
function go(by) { if (shown.length) { step = Math.max(0, Math.min(shown[triple].frames.length - 1, step + by)); show(); } }
function choose(n) { triple = n; step = 0; show(); }
const keys = { ArrowRight: 1, ArrowLeft: -1, Home: -1e9, End: 1e9 };
document.addEventListener('keydown', e => { if (e.key in keys && !e.ctrlKey && !e.altKey && !e.metaKey) { e.preventDefault(); go(keys[e.key]); } });
if (shown.length) {
  at('back').onclick = () => go(-1);
  at('on').onclick = () => go(1);
  document.querySelectorAll('.triple').forEach((it, n) => it.onclick = () => choose(n));
  triple = Math.min(shown.length - 1, Number(wanted.get('triple')) || 0);
  go(Number(wanted.get('step')) || 0);
}
"""


@lru_cache(maxsize=None)
def drawn(dot):
    """The picture of a store, which many steps may have alike."""
    return as_svg(dot)


def frame(text, line, heap, dashed):
    """What is shown of a step: what it did, its line, and the heap as a picture and as a table."""
    svg = drawn(as_dot(heap.store, dashed, changed=heap.changed))
    return {"text": text, "line": line, "svg": svg, "lines": store_lines(heap.store, heap.changed)}


def frames_of(source, finding, told, dashed):
    """The pictures of an invalid triple: its start, each step, and where it fails."""
    why, hint = CAUSES.get(finding.cause, ("it fails", ""))
    end = "; ".join([f"line {finding.at}: it fails here: {why}", *part_lines(source, told.parts)]) + (f". What helps: {hint}." if hint else ".")
    found = [frame(f"it starts at line {finding.line} with this store", finding.line, told.heaps[0], dashed)]
    for step, heap in list(zip(told.trace.steps, told.heaps[1:]))[:MOST_PICTURES]:
        found.append(frame(f"line {step.line}: {sentence(source, step)}", step.line, heap, dashed))
    left = len(told.trace.steps) - MOST_PICTURES
    text = f"{left} more steps, and then {end}" if left > 0 else end
    return [*found, frame(text, finding.at, Heap(told.heaps[-1].store), dashed)]


def shown_of(told):
    """What the script shows: the invalid triples with their pictures, and whatever else has a store."""
    dashed, found = pointer_fields(told.source), []
    for finding in told.findings:
        more = told.explained.get(finding.number) if finding.kind == "triple" else None
        if more and more.trace:
            found.append({"name": f"triple {finding.number} of {finding.procedure}: {finding.cause}", "frames": frames_of(told.source, finding, more, dashed)})
        elif finding.store is not None:
            text = sentence_of(told, finding)
            found.append({"name": text, "frames": [frame(text, place_of(told, finding)[0], Heap(finding.store), dashed)]})
    return found


def remarks_of(told):
    """What stands beside the lines: for each a list of remarks, each with whether it is a good one."""
    remarks = {}
    for finding in told.findings:
        if finding.kind == "stopped":
            continue
        is_unmet = finding.kind == "triple" and finding.number in told.unmet
        text = f"triple {finding.number}: no store meets it" if is_unmet else sentence_of(told, finding)
        if finding.verdict == "invalid" and finding.line != finding.at:
            remarks.setdefault(finding.line, []).append((f"triple {finding.number}: invalid, it can fail at line {finding.at}", False))
        line = finding.at if finding.verdict == "invalid" else place_of(told, finding)[0]
        remarks.setdefault(line, []).append((text, finding.verdict == "valid" and not is_unmet))
    return remarks


def program_lines(told):
    remarks = remarks_of(told)
    for number, line in enumerate(told.source.data.decode("utf-8", "replace").removesuffix("\n").split("\n"), 1):
        here = remarks.get(number, [])
        bad = " bad" if any(not good for _, good in here) else ""
        notes = "".join(f'<i class="{"good" if good else "fault"}">{html.escape(text)}</i>' for text, good in here)
        yield f'<div class="line{bad}" id="line{number}"><b>{number}</b><span>{html.escape(line)}{notes}</span></div>'


def as_page(told):
    """The page of one file."""
    shown = shown_of(told)
    data = json.dumps(shown).replace("<", "\\u003c")
    name = html.escape(told.source.path)
    chosen = "".join(f'<div class="triple"><button>{html.escape(it["name"])}</button></div>' for it in shown)
    steps = STEPS if shown else "<p>There is no store to show.</p>"
    helps = [line for it in told.findings if it.kind == "refused" for line in (sentence_of(told, it), *refusal_help(told.source, it))]
    others = "".join(f"<p>{html.escape(it)}</p>" for it in [*told.warnings, *helps])
    return ('<!doctype html>\n<html lang="en"><head><meta charset="utf-8"><title>' + name + "</title>"
            "<meta http-equiv=\"Content-Security-Policy\" content=\"default-src 'none'; style-src 'unsafe-inline'; script-src 'unsafe-inline'; img-src data:\">"
            f"<style>{STYLE}</style></head><body>\n<div id=\"program\">{''.join(program_lines(told))}</div>\n"
            f"<div id=\"side\"><h2>{name}</h2><p>{counted(told)}</p>{others}{chosen}{steps}</div>\n"
            f'<script type="application/json" id="shown">{data}</script>\n<script>{SCRIPT}</script>\n</body></html>\n')
