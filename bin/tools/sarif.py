"""Records as a log of SARIF 2.1.0, the form in which tools that look at sources hand on what they found."""

import json
import os
from urllib.parse import quote

SCHEMA = "https://json.schemastore.org/sarif-2.1.0.json"
LEVELS = {"possible error": "warning"}
# The rule of a run that has nothing to tell.
SILENT = "silent"


def log(records, sites, texts, status):
    """The text of a log of one run."""
    told = [record for record in records if record.name]
    rules = list({record.name: rule(record) for record in told}.values())
    numbers = {one["id"]: number for number, one in enumerate(rules)}
    results = [result(record, numbers[record.name], texts) for record in told]
    if not told and sites:
        rules = [{"id": SILENT, "shortDescription": {"text": "No error of the language can happen."}}]
        results = [{"ruleId": SILENT, "ruleIndex": 0, "level": "note", "message": {"text": sites.last_line()}}]
    run = {
        "tool": {"driver": {"name": "pcom", "rules": rules}},
        "columnKind": "unicodeCodePoints",
        "invocations": [{"executionSuccessful": status in (0, 1, 4, 5), "exitCode": status}],
        "results": results,
    }
    return json.dumps({"$schema": SCHEMA, "version": "2.1.0", "runs": [run]}, indent=2) + "\n"


def rule(record):
    text = {"shortDescription": {"text": record.means}} if record.means else {}
    help_text = {"help": {"text": record.mend}} if record.mend else {}
    return {"id": record.name, **text, **help_text}


def result(record, number, texts):
    text = " ".join([f"{record.kind}: {record.name}.", *record.seen]) if record.kind else record.told
    place = {"locations": [location(record, texts)]} if record.line else {}
    level = LEVELS.get(record.kind, "error")
    return {"ruleId": record.name, "ruleIndex": number, "level": level, "message": {"text": text}, **place}


def location(record, texts):
    region = {"startLine": record.line}
    if record.column:
        line = texts.line_of(record.file, record.line) or b""
        region["startColumn"] = characters(line, record.column)
        region["endColumn"] = max(region["startColumn"], characters(line, record.end_column))
    uri = quote(os.fsencode(record.file.replace(os.sep, "/")))
    return {"physicalLocation": {"artifactLocation": {"uri": uri}, "region": region}}


def characters(line, column):
    """The column of a byte, counted in characters."""
    return len(line[: column - 1].decode("utf-8", "replace")) + 1
