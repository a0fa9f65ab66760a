r"""Reads the cases of tests/cases, for `tests/run` and `tests/refuse_memory`. A file SUBJECT.cases has cases like this:

    # What the case shows, and where its values come from.
    case division_by_zero
    words --go
    source
    |program p(output); var x: integer;
    |begin x := 0; write(1:1); write(10 div x) end.
    writes
    |1\
    tells
    |2:36: possible error: division by zero
    |2:36: error: division by zero
    status 4

`case` names a case; no two have one name. The rest may be left out and stands in any order:

    words W1 W2    the words of the command line, none where none are given: so a source is compiled and not run
    source         the text of source.pas, whose path is the last word
    certificate    the text of source.cert, whose path stands behind the word --cert in front of the others
    code           the text of source.code, which pint runs: its path is the last word
    instructions   the same without its first and its last line, and `; ` stands for the end of a line in it
    runs pint      the program is pint too, without a code's text; a case of neither has a source or a line of words
    code with checks, code without checks    the code is written to saved.code, whose path stands behind the source's,
                   and some of its lines begin with a check, or none does
    code unwritten, code nowhere    nothing is written to that file, or the code's file takes no byte
    input          what standard input holds
    input folder   standard input is a folder, so that each call that reads it fails
    writes         what is written to standard output
    tells          what is written to standard error
    saves          what the file saved.cert then holds; without this no file of that name is there
    writes nowhere, tells nowhere    the stream takes no byte: each call that writes to it fails
    status N       the status, 0 where none is given

Behind `source`, `certificate`, `code`, `instructions`, `input`, `writes`, `tells` and `saves` stand the lines of the
text. `|TEXT` is a line with its end, and without its end where the last character is `\`. `N|TEXT` is TEXT N times,
without a line end, and `\#` in it is the number of the copy: `3|x\#+` is `x1+x2+x3+`. `\xHH` is a byte, `\\` is a
backslash, and a blank at the end of a line is `\x20`. An empty line or a comment ends a text. Comments begin with `#`
and may stand between all lines. In a word too `\xHH` is a byte and `\\` is a backslash."""

import os
import re
from dataclasses import dataclass

FOLDER = os.path.join(os.path.dirname(os.path.abspath(__file__)), "cases")
SOURCE = "source.pas"
CERTIFICATE = "source.cert"
CODE = "source.code"
SAVED = "saved.cert"
SAVED_CODE = "saved.code"
ENDING = ".cases"
TEXTS = ("source", "certificate", "code", "instructions", "input", "writes", "tells", "saves")
CHECKS = ("chk", "ckz", "ckd", "cka", "cks", "ckm", "ckq", "ckr", "ckb", "err")
STREAMS = ("writes", "tells")
# A device that takes no byte.
FULL = "/dev/full"
# The path for the code, and whether what is written there has checks.
CODES = {
    "with checks": (SAVED_CODE, True),
    "without checks": (SAVED_CODE, False),
    "unwritten": (SAVED_CODE, None),
    "nowhere": (FULL, None),
}
# What a stream holds that takes no byte, and one that gives none.
NOWHERE = None
A_FOLDER = None
NAME = re.compile(r"[A-Za-z0-9_]+")
TEXT_LINE = re.compile(r"(|[1-9][0-9]*)\|(.*)")
ESCAPE = re.compile(r"\\(x[0-9A-Fa-f]{2}|.|$)")
# Stands for the number of a copy while a text is read; it is no character of a file, since those are bytes.
NUMBER = "\uffff"


class Fault(Exception):
    """What is wrong in a file of cases, with the file and the line."""

    def __init__(self, place, what):
        super().__init__(f"{place}: {what}")


@dataclass
class Case:
    """A case, and the file and the line where it begins."""

    name: str
    place: str
    words: tuple = ()
    source: bytes = None
    certificate: bytes = None
    code: bytes = None
    runs: str = "pcom"
    # The path for the code, and whether the code that is written there has checks; None where there is none.
    code_path: str = None
    checks: bool = None
    input: bytes = b""
    writes: bytes = b""
    tells: bytes = b""
    saves: bytes = None
    status: int = 0

    @property
    def program(self):
        """The program that it runs."""
        return self.runs if self.code is None else "pint"

    @property
    def goes(self):
        """Whether it compiles a source and runs its code."""
        return self.program == "pcom" and b"--go" in self.words


def read_cases(folder=FOLDER):
    """The cases of all files of a folder, and a line for each fault in them."""
    cases, faults = [], []
    for entry in sorted(os.listdir(folder)):
        if entry.endswith(ENDING):
            read_file(folder, entry, cases, faults)
        else:
            faults.append(f"{entry}: no file of cases, whose names end in {ENDING}")
    return without_namesakes(cases, faults), faults


def read_file(folder, entry, cases, faults):
    """Adds the cases and the faults of a file. A case with a fault isn't read on, but the one behind it is."""
    with open(os.path.join(folder, entry), encoding="latin-1", newline="\n") as it:
        lines = it.read().split("\n")
    for group in groups([(f"{entry}:{number}", line) for number, line in enumerate(lines, 1)]):
        try:
            cases.append(read_case(group))
        except Fault as fault:
            faults.append(str(fault))


def is_silent(line):
    return line == "" or line.startswith("#")


def groups(lines):
    """The lines of each case. What stands before the first is a group too, and no case, unless it is silent."""
    found = []
    for place, line in lines:
        if line.split()[:1] == ["case"] or (not found and not is_silent(line)):
            found.append([])
        if found:
            found[-1].append((place, line))
    return found


def without_namesakes(cases, faults):
    """The cases but those whose name another had before, each of which is a fault."""
    first = {}
    for case in cases:
        if case.name in first:
            faults.append(f"{case.place}: the name {case.name} stands at {first[case.name].place} already")
        else:
            first[case.name] = case
    return list(first.values())


def read_case(lines):
    begin, head = lines[0]
    parts = {}
    text = None
    for place, line in lines[1:]:
        check_bytes(place, line)
        found = TEXT_LINE.fullmatch(line)
        if not found:
            text = None if is_silent(line) else read_part(place, line, parts)
        elif text is None:
            raise Fault(place, "a line of text that belongs to nothing")
        else:
            parts[text] += text_of(place, *found.groups())
    if "instructions" in parts:
        parts["code"] = code_of(begin, parts)
    return checked(begin, Case(name_of(begin, head), begin, **parts), parts)


def code_of(place, parts):
    """The text of a code whose instructions are given."""
    if "code" in parts:
        raise Fault(place, "a code is given by its text or by its instructions")
    return b"pcode 1\n" + parts.pop("instructions").replace(b"; ", b"\n") + b"end\n"


def check_bytes(place, line):
    if not (line.isascii() and line.isprintable()) and not line.startswith("#"):
        raise Fault(place, "a byte that is no printable character; \\xHH stands for it")


def name_of(place, head):
    words = head.split()
    if len(words) != 2 or words[0] != "case" or not NAME.fullmatch(words[1]):
        raise Fault(place, f"`case` and a name of letters, digits and _ should stand here, not `{head}`")
    return words[1]


def read_part(place, line, parts):
    """Reads a line that begins a part of a case; gives the part's name if lines of text follow."""
    part, *rest = line.split()
    if part in parts or (part == "code" and "code_path" in parts):
        raise Fault(place, f"`{part}` stands twice in a case")
    if part in TEXTS and not rest:
        parts[part] = b""
        return part
    if part == "words":
        parts[part] = tuple(encoded(unescaped(place, word)) for word in rest)
    elif part == "code" and " ".join(rest) in CODES:
        parts["code_path"], parts["checks"] = CODES[" ".join(rest)]
    elif part == "runs" and rest == ["pint"]:
        parts[part] = "pint"
    elif part in STREAMS and rest == ["nowhere"]:
        parts[part] = NOWHERE
    elif part == "input" and rest == ["folder"]:
        parts[part] = A_FOLDER
    elif part == "status" and len(rest) == 1 and re.fullmatch("[0-9]{1,3}", rest[0]):
        parts[part] = int(rest[0])
    else:
        raise Fault(place, f"no line of a case: `{line}`")
    return None


def text_of(place, count, text):
    """The bytes of a line of text."""
    if text.endswith(" "):
        raise Fault(place, "a blank at the end of a line; \\x20 stands for it")
    open_ended = (len(text) - len(text.rstrip("\\"))) % 2 == 1
    if count and open_ended:
        raise Fault(place, "a text that is repeated has no line end that \\ could leave out")
    line = unescaped(place, text[:-1] if open_ended else text)
    if count:
        return copies(line, int(count))
    if NUMBER in line:
        raise Fault(place, "`\\#` in a text that isn't repeated")
    return encoded(line) if open_ended else encoded(line) + b"\n"


def copies(line, count):
    """So many copies of a text, each with its number."""
    if NUMBER not in line:
        return encoded(line) * count
    pieces = [encoded(piece) for piece in line.split(NUMBER)]
    return b"".join((b"%d" % number).join(pieces) for number in range(1, count + 1))


def encoded(line):
    return line.encode("latin-1")


def unescaped(place, text):
    """The characters of a text, with `NUMBER` for the number of a copy."""

    def character(found):
        if found[1] == "\\":
            return "\\"
        if found[1] == "#":
            return NUMBER
        if len(found[1]) == 3:
            return chr(int(found[1][1:], 16))
        raise Fault(place, f"`{found[0]}` is no byte; \\xHH is one, and \\\\ is a backslash")

    return ESCAPE.sub(character, text)


def checked(place, case, parts):
    if not {"source", "words", "code", "runs"} & parts.keys():
        raise Fault(place, f"{case.name} has neither words nor a source")
    if case.program == "pint" and {"source", "certificate", "code_path", "saves"} & parts.keys():
        raise Fault(place, f"{case.name} runs pint, which takes a code alone")
    for part in ("input", "writes", "tells", "saves"):
        if parts.get(part) == b"":
            raise Fault(place, f"{case.name} has `{part}` without a text")
    return case


def placed(case, folder):
    """Puts a case's texts into a folder, where the program is to run, and gives the words of the command line."""
    words = list(case.words)
    if case.code is not None:
        words.append(put(case.code, folder, CODE))
    if case.certificate is not None:
        words = ["--cert", put(case.certificate, folder, CERTIFICATE), *words]
    if case.source is not None:
        words.append(put(case.source, folder, SOURCE))
    if case.code_path is not None:
        words.append(case.code_path)
    return words


def put(text, folder, name):
    """Puts a text into a file of a folder, and gives the file's name."""
    with open(os.path.join(folder, name), "wb") as it:
        it.write(text)
    return name


def saved_in(folder, name=SAVED):
    """What a run in a folder wrote to a file, that of a certificate; None where it wrote none."""
    path = os.path.join(folder, name)
    if not os.path.exists(path):
        return None
    with open(path, "rb") as it:
        return it.read()


def has_checks(code):
    """Whether a line of a code's text begins with a check; None where there is no text."""
    if code is None:
        return None
    return any(line.startswith(tuple(check.encode() + b" " for check in CHECKS)) for line in code.split(b"\n"))


def lines_of(text):
    """The lines that give a text back in a file of cases."""
    *whole, rest = text.split(b"\n")
    return [f"|{escaped(line)}" for line in whole] + ([f"|{escaped(rest)}\\"] if rest else [])


def escaped(line):
    characters = [character_of(byte) for byte in line]
    if characters and characters[-1] == " ":
        characters[-1] = "\\x20"
    return "".join(characters)


def character_of(byte):
    if byte == ord("\\"):
        return "\\\\"
    return chr(byte) if 32 <= byte < 127 else f"\\x{byte:02x}"
