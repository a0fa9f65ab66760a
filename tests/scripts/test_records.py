"""Tests of the forms in which bin/explain says what it knows: the last line and the table, objects of JSON, a log of
SARIF, a page, and colours. All are made from the same records."""

import glob
import html.parser
import json
import os
import pty
import re
import shutil
import subprocess
import sys
import tempfile
import unittest

from stand_in import make_stand_in, put, python_with, taken

TOP = os.path.dirname(os.path.dirname(os.path.dirname(os.path.abspath(__file__))))
PROGRAM = os.environ["PCOM"]
SECONDS = 60
# The kinds of errors by their numbers in a code, from docs/CODE.md and the table of errors in docs/LANGUAGE.md.
ERROR_OF_THE_PAGE = re.compile(r"^- `([a-z ]+)`, at ", re.M)
TEXT_OF_JSON = """
import json, sys, textwrap
for line in sys.stdin:
    one = json.loads(line)
    lines = [one["told"], *one.get("shown", [])] if one["told"] is not None else []
    said = [*one.get("known", []), *one.get("expected", []), *one.get("hints", [])]
    said += [one["means"], one["mend"]] if one.get("is_first") else []
    for sentence in filter(None, said):
        lines += textwrap.wrap(sentence, 100, initial_indent=" " * 4, subsequent_indent=" " * 4, **WHOLE)
    sys.stdout.buffer.write("".join(line + "\\n" for line in lines).encode("utf-8", "surrogateescape"))
""".replace("**WHOLE", "break_long_words=False, break_on_hyphens=False")
# Says what in the logs isn't as the schema has it.
CHECK_LOGS = """
import json, jsonschema, sys
schema, *logs = [json.load(open(path)) for path in sys.argv[1:]]
checker = jsonschema.Draft7Validator(schema, format_checker=jsonschema.FormatChecker())
checker.check_schema(schema)
for log in logs:
    faults = [f"{'/'.join(map(str, it.absolute_path))}: {it.message}" for it in checker.iter_errors(log)]
    print(json.dumps(faults))
"""
# Says what in the schema isn't as in the classes of sarif_om, which were made of the standard's own schema.
CHECK_SCHEMA = """
import attr, json, sarif_om, sys
for name, known in json.load(open(sys.argv[1]))["definitions"].items():
    fields = attr.fields(getattr(sarif_om, name[0].upper() + name[1:]))
    theirs = {it.metadata["schema_property_name"]: it.default is attr.NOTHING for it in fields}
    for key in known["properties"]:
        if key not in theirs:
            print(f"{name} has no {key}")
    for key, is_required in theirs.items():
        if is_required and key not in known.get("required", []):
            print(f"{name} needs {key}")
"""
SCHEMA = os.path.join(os.path.dirname(os.path.abspath(__file__)), "sarif_2_1_0.json")
# Where a log is made wrong: a path in it, and what is put there; None takes it out.
WRONG = (
    (["version"], "2.0.0"),
    (["version"], None),
    (["runs", 0, "tool"], None),
    (["runs", 0, "tool", "driver", "name"], None),
    (["runs", 0, "tool", "driver", "rules", 0, "id"], 7),
    (["runs", 0, "tool", "driver", "rules", 0, "id"], None),
    (["runs", 0, "columnKind"], "bytes"),
    (["runs", 0, "invocations", 0, "executionSuccessful"], "yes"),
    (["runs", 0, "results", 0, "level"], "possible error"),
    (["runs", 0, "results", 0, "message"], "overflow"),
    (["runs", 0, "results", 0, "message", "text"], None),
    (["runs", 0, "results", 0, "place"], 4),
    (["runs", 0, "results", 0, "locations"], {}),
    (["runs", 0, "results", 0, "locations", 0, "physicalLocation", "artifactLocation"], None),
    (["runs", 0, "results", 0, "locations", 0, "physicalLocation", "artifactLocation", "uri"], "a b.pas"),
    (["runs", 0, "results", 0, "locations", 0, "physicalLocation", "region", "startLine"], 0),
    (["runs", 0, "results", 0, "locations", 0, "physicalLocation", "region", "startLine"], None),
    (["runs", 0, "results", 0, "locations", 0, "physicalLocation", "region", "startColumn"], 0),
)
# A program in C with an error that clang's analyser sees, and what the log of that has of the schema's properties.
ERRING_C = b"int half(int number) {\n    int zero = 0;\n    return number / zero;\n}\n"
OF_ANOTHER_WRITER = {
    "sarifLog.$schema", "sarifLog.version", "sarifLog.runs", "run.tool", "run.results", "run.columnKind",
    "tool.driver", "toolComponent.name", "toolComponent.rules", "reportingDescriptor.id",
    "result.ruleId", "result.ruleIndex", "result.message", "result.locations", "message.text",
    "location.physicalLocation", "physicalLocation.artifactLocation", "physicalLocation.region",
    "artifactLocation.uri", "region.startLine", "region.startColumn", "region.endColumn",
}
SOURCES = {
    "open": b"program p(output);\nvar x: integer;\nbegin\n\twrite(1: 1); { \xc3\xa9 } write(x: 1)\nend.\n",
    "overflow": b"program p(input, output);\nvar x: integer;\nbegin\n  read(x); x := x * x;\n"
    b"  x := x + 1; x := x div x\nend.\n",
    "silent": b"program p(output);\nbegin\n  writeln(1: 1)\nend.\n",
    "nothing": b"program p;\nbegin\nend.\n",
    "token": b"program p(output);\nbegin\n  writeln(1)\n  writeln(2)\nend.\n",
    "type": b"program p;\nvar c: char;\nbegin\n  c := 65\nend.\n",
    "latin": b"program p;\nbegin { \xe4 } x\nend.\n",
    "input": b"program p(input, output);\nvar x: integer;\nbegin\n  read(x)\nend.\n",
    "empty": b"",
}


class RecordsCase(unittest.TestCase):
    def setUp(self):
        holder = tempfile.TemporaryDirectory()
        self.addCleanup(holder.cleanup)
        self.folder = holder.name
        for name, text in SOURCES.items():
            put(self.folder, f"{name}.pas", text)

    def explain(self, *words, program=PROGRAM, **given):
        """What is written to standard error."""
        command = [sys.executable, os.path.join(TOP, "bin", "explain"), *words]
        environment = {**os.environ, "PCOM": program, "PWHY": "", "PYTHONIOENCODING": "utf-8"}
        streams = {"stdin": subprocess.DEVNULL, "stdout": subprocess.PIPE, "stderr": subprocess.PIPE}
        ran = subprocess.run(command, cwd=self.folder, env=environment, timeout=SECONDS, **{**streams, **given})
        self.assertNotIn(b"Traceback", ran.stderr)
        return ran.stderr


def sites_and_lines(path, folder):
    """The kinds of the sites that a code lists, by number, and the names of those that are told."""
    code = os.path.join(folder, "code")
    streams = {"stdin": subprocess.DEVNULL, "stdout": subprocess.DEVNULL, "stderr": subprocess.PIPE}
    ran = subprocess.run([PROGRAM, "--keep-checks", path, code], timeout=SECONDS, **streams)
    sites = re.findall(r"^site (\d+) (\d+) (\d+)$", taken(folder, "code").decode(), re.M)
    return sites, re.findall(r"^(\d+):(\d+): possible error: (.*)$", ran.stderr.decode(), re.M)


def known_part(value, known, definitions, names):
    """A value of a log without the properties that the schema doesn't have; those that are left are put into names."""
    name = known.get("$ref", "").rpartition("/")[2]
    known = definitions.get(name, known)
    if isinstance(value, list):
        return [known_part(one, known["items"], definitions, names) for one in value]
    if not isinstance(value, dict):
        return value
    left = {key: one for key, one in value.items() if key in known["properties"]}
    names.update(f"{name}.{key}" for key in left)
    return {key: known_part(one, known["properties"][key], definitions, names) for key, one in left.items()}


class LastLine(RecordsCase):
    def kinds(self):
        with open(os.path.join(TOP, "docs", "LANGUAGE.md"), encoding="utf-8") as file:
            section = file.read().partition("\n## Errors\n")[2].partition("\n## ")[0]
        return ERROR_OF_THE_PAGE.findall(section)

    def test_examples(self):
        """The numbers of all examples are those of the code's lines and of the report's."""
        for path in sorted(glob.glob(os.path.join(TOP, "examples", "**", "*.pas"), recursive=True)):
            sites, told = sites_and_lines(path, self.folder)
            kinds = sorted({name for _, _, name in told}, key=[name for _, _, name in told].count)
            said = self.explain("--table", path).decode()
            *_, last = said.splitlines()
            numbers = f"{len(sites)} site{'s' * (len(sites) != 1)}, {len(sites) - len(told)} closed, {len(told)} told"
            self.assertTrue(last.startswith(f"{path}: {numbers}"), last)
            for kind in kinds:
                count = sum(name == kind for _, _, name in told)
                self.assertRegex(last, rf"[(,] ?{kind} {count}[,)]")
            self.assertEqual("(" in last[len(path) :], bool(told))
            rows = re.findall(r"^([a-z ]+?) +(\d+) +(\d+) +(\d+)$", said, re.M)
            self.assertEqual(rows[-1], ("all", *re.findall(r"\d+", numbers)))
            by_number = [sum(int(kind) == number for _, _, kind in sites) for number in range(1, 14)]
            self.assertEqual([int(count) for _, count, _, _ in rows[:-1]], [count for count in by_number if count])
            for kind, count, closed, of_told in rows[:-1]:
                self.assertEqual(int(of_told), sum(name == kind for _, _, name in told))
                self.assertEqual(int(count), int(closed) + int(of_told))

    def test_kinds(self):
        """The kinds have the numbers of the page's order; each told site is one of its kind in the code."""
        kinds = self.kinds()
        self.assertEqual(len(kinds), 13)
        sites, told = sites_and_lines(os.path.join(self.folder, "overflow.pas"), self.folder)
        self.assertEqual(len(told), 3)
        for line, column, name in told:
            self.assertIn((line, column, str(kinds.index(name) + 1)), sites)

    def test_words(self):
        for name, last in (
            ("silent", "silent.pas: 1 site, 1 closed, 0 told"),
            ("nothing", "nothing.pas: 0 sites, 0 closed, 0 told"),
        ):
            self.assertEqual(self.explain(f"{name}.pas").decode(), last + "\n")
        self.assertTrue(self.explain("open.pas").endswith(b", 1 told (undefined variable 1)\n"))
        for name in ("token", "type", "empty"):
            self.assertNotIn(b" sites", self.explain(f"{name}.pas"))

    def test_certificate(self):
        loop = b"i := 1;\nwhile i < 9 do i := i + 1;\ni := i * i"
        put(self.folder, "a.pas", b"program p;\nvar i: integer;\nbegin\n" + loop + b"\nend.\n")
        put(self.folder, "a.cert", b"pcert 1\nproc 0\nloop 0\nchange v0\n")
        self.assertIn(b" 0 told\n", self.explain("a.pas"))
        self.assertIn(b"(overflow 1)\n", self.explain("--cert", "a.cert", "a.pas"))


class Json(RecordsCase):
    def text(self, lines):
        words = [sys.executable, "-c", TEXT_OF_JSON]
        return subprocess.run(words, input=lines, stdout=subprocess.PIPE, timeout=SECONDS, check=True).stdout

    def test_the_text_comes_from_it(self):
        put(self.folder, "bad.cert", b"pcert 1\n  foo\n")
        for words in (
            *([f"{name}.pas"] for name in SOURCES),
            ["--why", "overflow.pas"],
            ["--go", "open.pas"],
            ["--go", "input.pas"],
            ["--cert", "bad.cert", "open.pas"],
            ["nothing.pas.pas"],
            [b"no\xff\xfe.pas"],
            ["--stop"],
        ):
            text, lines = self.explain(*words), self.explain("--json", *words)
            self.assertTrue(lines)
            self.assertEqual(self.text(lines), text, words)

    def test_lines_that_are_no_messages(self):
        told = b"pcom: not proved here (bin/prove proves it)\n1:1: possible error: index\n"
        program = make_stand_in(self.folder, told)
        lines = self.explain("--json", "silent.pas", program=program)
        self.assertEqual(self.text(lines), self.explain("silent.pas", program=program))

    def test_fields(self):
        records = [json.loads(line) for line in self.explain("--json", "--why", "overflow.pas").splitlines()]
        first = records[0]
        wanted = {"kind": "possible error", "name": "overflow", "file": "overflow.pas", "line": 4, "column": 19}
        self.assertEqual({key: first[key] for key in wanted}, wanted)
        self.assertEqual(first["end_column"], 20)
        self.assertEqual(first["known"], ["x lies in -2147483647..2147483647"])
        self.assertTrue(first["means"] and first["mend"] and first["is_first"])
        closed = [(one["line"], one["column"], one["name"]) for one in records if one["kind"] == "closed"]
        sites, told = sites_and_lines(os.path.join(self.folder, "overflow.pas"), self.folder)
        self.assertEqual(len(closed), len(sites) - len(told))
        self.assertEqual(records[-1]["kinds"]["all"]["sites"], len(sites))


class Sarif(RecordsCase):
    def log(self, *words):
        self.explain("--sarif", "a.sarif", *words)
        return json.loads(taken(self.folder, "a.sarif"))

    def results(self, *words):
        (run,) = self.log(*words)["runs"]
        rules = [rule["id"] for rule in run["tool"]["driver"]["rules"]]
        for result in run["results"]:
            self.assertEqual(rules[result["ruleIndex"]], result["ruleId"])
            for place in result.get("locations", []):
                region = place["physicalLocation"]["region"]
                self.assertGreaterEqual(region.get("endColumn", 1), region.get("startColumn", 1))
        return run["results"]

    def faults(self, logs):
        """What isn't as the schema has it in each of these logs."""
        python = python_with("jsonschema")
        if not python:
            self.skipTest("Debian's python3-jsonschema isn't installed")
        names = [f"{number}.sarif" for number, _ in enumerate(logs)]
        for name, log in zip(names, logs):
            put(self.folder, name, json.dumps(log).encode())
        words = [python, "-c", CHECK_LOGS, SCHEMA, *names]
        said = subprocess.run(words, cwd=self.folder, stdout=subprocess.PIPE, timeout=SECONDS, check=True).stdout
        return [json.loads(line) for line in said.splitlines()]

    def test_schema(self):
        """Logs of all kinds of runs are as the schema has them, and a log that is wrong anywhere isn't."""
        put(self.folder, "bad.cert", b"pcert 1\n  foo\n")
        runs = [[f"{name}.pas"] for name in SOURCES]
        runs += [["--why", "overflow.pas"], ["--go", "open.pas"], ["--go", "input.pas"], ["none.pas"], ["--stop"]]
        logs = [self.log(*words) for words in [*runs, ["--cert", "bad.cert", "open.pas"]]]
        self.assertEqual(self.faults(logs), [[] for _ in logs])
        whole = self.log("overflow.pas")
        for (path, value), faults in zip(WRONG, self.faults([self.wrong(whole, *one) for one in WRONG])):
            self.assertTrue(faults, (path, value))

    def wrong(self, log, path, value):
        """The log with another value in one place, or without that."""
        log = json.loads(json.dumps(log))
        *before, last = path
        at = log
        for step in before:
            at = at[step]
        at[last] = value
        if value is None:
            del at[last]
        return log

    def test_the_schema_is_that_of_the_standard(self):
        """Each property in it is one of the standard's, and what the standard asks for it asks for too."""
        python = python_with("attr", "sarif_om")
        if not python:
            self.skipTest("Debian's python3-sarif-python-om isn't installed")
        words = [python, "-c", CHECK_SCHEMA, SCHEMA]
        ran = subprocess.run(words, stdout=subprocess.PIPE, timeout=SECONDS, check=True)
        self.assertEqual(ran.stdout, b"")

    def test_the_log_of_another_writer(self):
        """A log that clang's analyser writes is as the schema has it, where it has the same properties."""
        if not shutil.which("clang"):
            self.skipTest("there is no clang")
        put(self.folder, "half.c", ERRING_C)
        words = ["clang", "--analyze", "-Xclang", "-analyzer-output=sarif", "-o", "half.sarif", "half.c"]
        ran = subprocess.run(words, cwd=self.folder, stderr=subprocess.PIPE, timeout=SECONDS)
        if ran.returncode or not os.path.exists(os.path.join(self.folder, "half.sarif")):
            self.skipTest("this clang writes no log of SARIF")
        with open(SCHEMA, encoding="utf-8") as file:
            schema = json.load(file)
        names = set()
        log = known_part(json.loads(taken(self.folder, "half.sarif")), schema, schema["definitions"], names)
        self.assertGreaterEqual(names, OF_ANOTHER_WRITER)
        self.assertEqual([one["ruleId"] for one in log["runs"][0]["results"]], ["core.DivideZero"])
        self.assertEqual(self.faults([log]), [[]])

    def test_levels(self):
        for words, levels in (
            (["overflow.pas"], {("overflow", "warning"), ("division by zero", "warning")}),
            (["silent.pas"], {("silent", "note")}),
            (["token.pas"], {("P1", "error")}),
            (["--go", "open.pas"], {("undefined variable", "warning"), ("undefined variable", "error")}),
            (["none.pas"], {("cannot read", "error")}),
        ):
            self.assertEqual({(one["ruleId"], one["level"]) for one in self.results(*words)}, levels)

    def test_places(self):
        (result,) = self.results("open.pas")
        place = result["locations"][0]["physicalLocation"]
        # The letter of two bytes before it is one character.
        self.assertEqual(place["region"], {"startLine": 4, "startColumn": 27, "endColumn": 28})
        self.assertEqual(place["artifactLocation"], {"uri": "open.pas"})
        put(self.folder, "a b\u00e9.pas", SOURCES["open"])
        (result,) = self.results("a b\u00e9.pas")
        uri = result["locations"][0]["physicalLocation"]["artifactLocation"]["uri"]
        self.assertEqual(uri, "a%20b%C3%A9.pas")

    def test_no_file(self):
        said = self.explain("--sarif", "none/a.sarif", "silent.pas")
        self.assertIn(b"explain: cannot write none/a.sarif: No such file or directory\n", said)


class Marks(html.parser.HTMLParser):
    """The text of the source that a page shows, and what is marked in it."""

    def __init__(self):
        super().__init__()
        self.open, self.text, self.marks, self.is_source = [], "", [], False

    def handle_starttag(self, tag, attributes):
        self.is_source |= tag == "pre"
        if tag == "span":
            self.open.append(dict(attributes))
            if self.open[-1]["class"] in ("told", "closed"):
                self.marks.append([self.open[-1]["class"], "", self.open[-1]["title"]])

    def handle_endtag(self, tag):
        self.is_source &= tag != "pre"
        if tag == "span":
            self.open.pop()

    def handle_data(self, data):
        classes = {one["class"] for one in self.open}
        if not self.is_source or "number" in classes:
            return
        self.text += data
        if classes & {"told", "closed"}:
            self.marks[-1][1] += data


class Overwritten(RecordsCase):
    """No file that holds something else is written over."""

    def test_other_files(self):
        for option in ("--html", "--sarif"):
            self.assertIn(b"silent.pas is no ", self.explain(option, "silent.pas", "open.pas"))
            self.assertIn(b"open.pas is no ", self.explain(option, "open.pas"))
            for name in ("silent", "open"):
                self.assertEqual(taken(self.folder, f"{name}.pas"), SOURCES[name])

    def test_the_same_file_again(self):
        for option in ("--html", "--sarif"):
            for name in ("silent", "open"):
                self.assertNotIn(b"isn't overwritten", self.explain(option, f"a{option}", f"{name}.pas"))
            self.assertIn(b"open.pas", taken(self.folder, f"a{option}"))
            put(self.folder, "empty", b"")
            self.explain(option, "empty", "open.pas")
            self.assertIn(b"open.pas", taken(self.folder, "empty"))


class Html(RecordsCase):
    def page(self, *words):
        self.explain("--html", "a.html", *words)
        text = taken(self.folder, "a.html").decode()
        marks = Marks()
        marks.feed(text)
        return text, marks

    def test_source(self):
        for name, source in SOURCES.items():
            _, marks = self.page(f"{name}.pas")
            self.assertEqual(marks.text.strip(), source.decode("utf-8", "replace").strip(), name)

    def test_marks(self):
        _, marks = self.page("--why", "overflow.pas")
        told = [(text, title) for kind, text, title in marks.marks if kind == "told"]
        self.assertEqual([text for text, _ in told], ["*", "+", "div"])
        self.assertIn("possible error: overflow", told[0][1])
        self.assertIn("x lies in -2147483647..2147483647", told[0][1])
        sites, lines = sites_and_lines(os.path.join(self.folder, "overflow.pas"), self.folder)
        places = {site[:2] for site in sites} - {line[:2] for line in lines}
        self.assertEqual(sum(kind == "closed" for kind, _, _ in marks.marks), len(places))
        self.assertTrue(all(title.startswith("closed: ") for kind, _, title in marks.marks if kind == "closed"))

    def test_refusal(self):
        text, marks = self.page("token.pas")
        self.assertEqual([(kind, one) for kind, one, _ in marks.marks], [("told", "writeln")])
        self.assertIn("expected ; or end, found writeln", text)

    def test_nothing_is_fetched(self):
        text, _ = self.page("overflow.pas")
        self.assertNotRegex(text, r"https?:|src=|<link|<script|@import")


class Colours(RecordsCase):
    def on_a_terminal(self, *words, **variables):
        """What a terminal gets of standard error."""
        ours, theirs = pty.openpty()
        command = [sys.executable, os.path.join(TOP, "bin", "explain"), *words]
        environment = {**os.environ, "PCOM": PROGRAM, "PWHY": "", "TERM": "xterm", **variables}
        if "NO_COLOR" not in variables:
            environment.pop("NO_COLOR", None)
        streams = {"stdin": subprocess.DEVNULL, "stdout": subprocess.DEVNULL, "stderr": theirs}
        try:
            subprocess.run(command, cwd=self.folder, env=environment, timeout=SECONDS, **streams)
            return os.read(ours, 65536).decode().replace("\r\n", "\n")
        finally:
            os.close(ours)
            os.close(theirs)

    def test_colours(self):
        plain = self.explain("open.pas").decode()
        said = self.on_a_terminal("open.pas")
        self.assertTrue(said.startswith("\033[1;33m4:28: possible error: undefined variable\033[0m\n"), said)
        self.assertEqual(re.sub(r"\033\[[0-9;]*m", "", said), plain)
        self.assertTrue(self.on_a_terminal("token.pas").startswith("\033[1;31m4:3: refused P1\033[0m\n"))

    def test_no_colours(self):
        plain = self.explain("open.pas").decode()
        self.assertNotIn("\033", plain)
        self.assertEqual(self.on_a_terminal("open.pas", NO_COLOR="1"), plain)
        self.assertEqual(self.on_a_terminal("open.pas", TERM="dumb"), plain)


if __name__ == "__main__":
    unittest.main()
