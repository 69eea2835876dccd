"""The findings for machines: JSON, SARIF 2.1.0, and the commands of a GitHub workflow."""
import json
import os
from urllib.parse import quote

from .hints import CAUSES, refusal_sentence
from .reports import Finding
from .telling import KEYWORDS, no_answer


def place_of(told, finding):
    """The line and column that a finding points to."""
    if finding.kind == "refused":
        return finding.line or 1, finding.column or 1
    declared = told.source.field_token(finding.procedure) if finding.kind == "field" else None
    if declared:
        return declared.line, declared.column
    if finding.kind == "triple" and finding.line:
        token = told.source.first_on(finding.at if finding.verdict == "invalid" else finding.line, KEYWORDS)
        return token.line, token.column
    return 1, 1


def is_fault(finding):
    return finding.kind == "refused" or finding.verdict in ("invalid", "ambiguous", "limit", "no answer")


def sentence_of(told, finding):
    if finding.kind == "refused":
        return refusal_sentence(told.source, finding)
    if finding.kind == "field":
        at = f"the route of the field {finding.procedure}"
        return f"{at} leads to two cells from cell {finding.at}" if finding.verdict == "ambiguous" else f"{at} met the limit"
    if finding.verdict == "invalid":
        return f"triple {finding.number} of {finding.procedure} can fail: {CAUSES.get(finding.cause, ('it fails', ''))[0]}"
    name = f"triple {finding.number}" if finding.kind == "triple" else "the file"
    return f"{name} {no_answer(finding)}" if finding.verdict == "no answer" else f"{name}: {finding.verdict}"


def store_of(store):
    if store is None:
        return None
    cells = [{"number": it.number, "type": it.type, "fields": dict(it.values)} for it in store.cells]
    return {"variables": dict(store.variables), "cells": cells}


def steps_of(explained):
    """The steps of an execution, or null where there is none."""
    if explained is None or explained.trace is None:
        return None
    return [{"line": it.line, "kind": it.kind, "place": it.place or None, "value": it.value or None} for it in explained.trace.steps]


def entry_of(told, finding):
    """What is told of a finding, by the keys of docs/palec.schema.json."""
    line, column = place_of(told, finding)
    is_triple = finding.kind == "triple"
    explained = told.explained.get(finding.number) if is_triple else None
    parts = [it.text(told.source) for it in explained.parts] if explained else []
    return {
        "file": told.source.path, "kind": finding.kind, "line": line, "column": column, "verdict": finding.verdict or finding.kind,
        "cause": finding.cause or finding.word or None, "triple": finding.number or None, "name": finding.procedure or None,
        "starts": finding.line or None if is_triple else None, "met": finding.number not in told.unmet if told.is_met_known and is_triple else None,
        "message": "; ".join([sentence_of(told, finding), *(f"this is false: {it}" for it in parts)]), "store": store_of(finding.store),
        "steps": steps_of(explained), "false": parts,
    }


def entries(all_told):
    """One object for each finding, and one for each warning on a file."""
    for told in all_told:
        yield from (entry_of(told, it) for it in told.findings if it.kind not in ("stopped", "other") or is_fault(it))
        yield from ({**entry_of(told, Finding("other", verdict="warning")), "message": it} for it in told.warnings)


def is_told(entry):
    """Whether logs of faults have it: what is valid, and met by a store, isn't in them."""
    return entry["verdict"] != "valid" or is_unmet(entry)


def is_unmet(entry):
    return entry["met"] is False and entry["verdict"] == "valid"


def level_of(entry):
    return "warning" if is_unmet(entry) or entry["verdict"] in ("limit", "no answer", "warning") else "error"


def text_of(entry):
    return "no store meets the triple" if is_unmet(entry) else entry["message"]


def as_json(all_told):
    """Bytes of a path that are no UTF-8 stand as U+FFFD, since JSON can't have them."""
    paths = {it.source.path: it.source.path.encode("utf-8", "surrogateescape").decode("utf-8", "replace") for it in all_told}
    return "".join(json.dumps({**it, "file": paths[it["file"]]}) + "\n" for it in entries(all_told))


def rule_of(entry):
    return "triple/unmet" if is_unmet(entry) else f"{entry['kind']}/{entry['cause'] or entry['verdict']}".replace(" ", "-")


def as_sarif(all_told, version):
    results, rules = [], {}
    for entry in filter(is_told, entries(all_told)):
        rules.setdefault(rule_of(entry), {"id": rule_of(entry), "shortDescription": {"text": text_of(entry)}})
        region = {"startLine": entry["line"], "startColumn": entry["column"]}
        results.append({
            "ruleId": rule_of(entry), "level": level_of(entry), "message": {"text": text_of(entry)},
            "locations": [{"physicalLocation": {"artifactLocation": {"uri": quote(os.fsencode(entry["file"]))}, "region": region}}],
        })
    tool = {"driver": {"name": "palec", "version": version, "rules": list(rules.values())}}
    schema = "https://json.schemastore.org/sarif-2.1.0.json"
    return json.dumps({"$schema": schema, "version": "2.1.0", "runs": [{"tool": tool, "results": results}]}, indent=1) + "\n"


def escaped(text):
    return text.replace("%", "%25").replace("\r", "%0D").replace("\n", "%0A").replace(":", "%3A").replace(",", "%2C")


def as_github(all_told):
    return "".join(f"::{level_of(it)} file={escaped(it['file'])},line={it['line']},col={it['column']}::{text_of(it).replace('%', '%25')}\n"
                   for it in filter(is_told, entries(all_told)))
