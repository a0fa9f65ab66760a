"""Cases of forged texts: a certificate and a code that are cut behind each of their bytes, in which each of their bytes
is another one, whose lines are exchanged, left out or written twice, and in which a line says something else. What each
is stands here, by the rules of docs/CERTIFICATES.md and docs/CODE.md: the first faulty line, and of its faults the
first; else what the program is refused for or told, and what the machine does."""

from dataclasses import dataclass, field

from case_files import Case

PLACE = "tests/forged_cases.py"
CODE = (b"pcode 1", b"ent 0 2", b"ldc 7", b"ldc 3", b"wri", b"wln", b"stp", b"end")
CELLS = (b"--cells", b"6")
# A byte that no line has.
FORGED = b"?"

# Changes of the program's block itself can't be listed.
OF_THE_PROGRAM = "certificate refused C1"


def refused(text, line, code):
    return f"{text}:{line}: refused {code}"


def certificate_line(line, code):
    return refused("certificate", line, code)


def code_line(line, code):
    return refused("code", line, code)


def faults(**lines):
    """F3 at each line, by the lines that were exchanged, as in `_2_3`, or that one alone."""
    numbers = {key: tuple(map(int, key.split("_")[1:])) for key in lines}
    return {its if len(its) > 1 else its[0]: certificate_line(lines[key], "F3") for key, its in numbers.items()}


@dataclass
class Genuine:
    """A source and a certificate of it that leaves nothing open, and what is told of texts that are made of it: of the
    one that ends behind a line, and where two lines are exchanged, a line is left out or is there twice, or another one
    stands in its place. Where the heading is one of two lines that are exchanged, the first line is another than the
    heading."""

    title: str
    source: bytes
    lines: tuple
    cut_behind: dict
    exchanged: dict
    without: dict
    twice: dict
    instead: dict = field(default_factory=dict)


def told_at(source, part, told, is_last=False):
    """What is told at a part of a source in one line."""
    return f"1:{(source.rindex(part) if is_last else source.index(part)) + 1}: {told}"


def list_of_numbers():
    """A list that is read and written."""
    source = (
        b"program p(input, output); var n: 1..100; i: integer; a: array [1..100] of integer; "
        b"begin read(n); for i := 1 to n do read(a[i]); for i := 1 to n do write(a[i]) end."
    )
    # The loop doesn't list the array that is read to in it.
    unlisted = told_at(source, b"a[i]", "certificate refused C7")
    # Without the fact nothing is known of the elements that are written.
    is_open = told_at(source, b"a[i]", "possible error: undefined variable", is_last=True)
    return Genuine(
        "",
        source,
        (b"pcert 1", b"proc 0", b"loop 0", b"change v2", b"fact defined v2 1 v1-1"),
        cut_behind={0: certificate_line(1, "F1"), 1: unlisted, **faults(_2=2, _3=3), 4: is_open},
        exchanged={**faults(_2_3=2, _2_4=2, _2_5=2, _3_5=3, _4_5=5), (3, 4): OF_THE_PROGRAM},
        without={1: certificate_line(1, "F1"), **faults(_2=2, _3=4), 4: unlisted, 5: is_open},
        # A section and a loop need lines below them; changes and facts ascend.
        twice=faults(_1=2, _2=2, _3=3, _4=5, _5=6),
    )


def matrix_by_rows():
    """A matrix that is filled row by row, with a block of its row."""
    source = (
        b"program p(output); var m: array [1..3, 1..4] of integer; i, j: integer; begin for i := 1 to 3 do "
        b"for j := 1 to 4 do m[i, j] := i * j; write(m[3, 4]:1, m[1, 2]:1) end."
    )
    # A loop doesn't list the matrix that is changed in it.
    unlisted = told_at(source, b":= i * j", "certificate refused C7")
    # Without the block the row that a turn fills isn't known behind it, and the fact of the rows isn't given again.
    not_again = told_at(source, b"for i", "certificate refused C3")
    # Without that only the last row is known behind the loop, by what its last turn filled.
    is_open = told_at(source, b"m[1, 2]", "possible error: undefined variable")
    # A block of the outer loop has a bound by the control variable of the inner one, which has no value yet.
    not_given = told_at(source, b"for i", "certificate refused C2")
    return Genuine(
        "of_a_matrix_",
        source,
        (
            b"pcert 2",
            b"proc 0",
            b"loop 0",
            b"change v0",
            b"fact defined v0 1 v1-1",
            b"loop 1",
            b"change v0",
            b"fact defined v0 v1+0 v1+0 1 v2-1",
        ),
        cut_behind={
            0: certificate_line(1, "F1"),
            1: unlisted,
            **faults(_2=2, _3=3, _6=6),
            4: unlisted,
            5: unlisted,
            7: not_again,
        },
        exchanged={
            **faults(_2_3=2, _2_4=2, _2_5=2, _2_6=2, _2_7=2, _2_8=2),
            **faults(_3_5=3, _3_6=6, _3_7=4, _3_8=3, _4_5=5, _4_6=3, _4_8=5),
            **faults(_5_6=7, _5_7=5, _6_7=6, _6_8=7, _7_8=8),
            (3, 4): OF_THE_PROGRAM,
            # These two lines are the same.
            (4, 7): None,
            (5, 8): not_given,
        },
        without={
            1: certificate_line(1, "F1"),
            **faults(_2=2, _3=4, _6=6),
            4: unlisted,
            5: is_open,
            7: unlisted,
            8: not_again,
        },
        twice=faults(_1=2, _2=2, _3=3, _4=5, _5=6, _6=6, _7=8, _8=9),
    )


def sums_over_turns():
    """Two sums, one of each turn of a statement and one of those of another in it, with a growth of each."""
    source = (
        b"program p(output); var i, j, s, t: integer; begin s := 0; for i := 1 to 3 do begin t := i; "
        b"for j := 1 to 4 do t := t + j; s := s + i end; write(s:1) end."
    )
    # A loop doesn't list the variable that is changed in it.
    unlisted = told_at(source, b":= i; for j", "certificate refused C7")
    unlisted_inside = told_at(source, b":= t + j", "certificate refused C7")
    unlisted_behind = told_at(source, b":= s + i", "certificate refused C7")
    # Without a growth a sum is any integer where a turn begins.
    is_open = told_at(source, b"+ i", "possible error: overflow")
    is_open_inside = told_at(source, b"+ j", "possible error: overflow")
    not_given, not_given_inside = (told_at(source, at, "certificate refused C2") for at in (b"for i", b"for j"))
    not_again, not_again_inside = (told_at(source, at, "certificate refused C3") for at in (b"for i", b"for j"))
    no_growth = "certificate refused C1"
    return Genuine(
        "of_sums_",
        source,
        (
            b"pcert 2",
            b"proc 0",
            b"loop 0",
            b"change v2",
            b"change v3",
            b"fact grow v2 0 1 0 3",
            b"loop 1",
            b"change v3",
            b"fact grow v3 1 1 3 4",
        ),
        cut_behind={
            0: certificate_line(1, "F1"),
            1: unlisted,
            **faults(_2=2, _3=3, _7=7),
            4: unlisted,
            5: unlisted_inside,
            6: unlisted_inside,
            8: is_open_inside,
        },
        exchanged={
            **faults(_2_3=2, _2_4=2, _2_5=2, _2_6=2, _2_7=2, _2_8=2, _2_9=2),
            **faults(_3_5=4, _3_6=3, _3_7=7, _3_8=4, _3_9=3, _4_5=5, _4_6=5, _4_7=3, _4_8=5, _4_9=5),
            **faults(_5_6=6, _5_7=7, _5_9=6, _6_7=8, _6_8=6, _7_8=7, _7_9=8, _8_9=9),
            (3, 4): OF_THE_PROGRAM,
            # These two lines are the same.
            (5, 8): None,
            # s is any integer where the outer turn begins, and so where the inner loop is entered.
            (6, 9): not_given_inside,
        },
        without={
            1: certificate_line(1, "F1"),
            **faults(_2=2, _3=5, _7=7),
            4: unlisted_behind,
            5: unlisted,
            6: is_open,
            8: unlisted_inside,
            9: is_open_inside,
        },
        twice=faults(_1=2, _2=2, _3=3, _4=5, _5=6, _6=7, _7=7, _8=9, _9=10),
        instead={
            6: {
                # Each number one off on the side where less is said, and where more is said than holds.
                b"fact grow v2 -1 1 0 3": None,
                b"fact grow v2 0 0 0 3": None,
                b"fact grow v2 0 1 1 3": None,
                b"fact grow v2 0 1 0 4": None,
                b"fact grow v2 1 1 0 3": certificate_line(6, "F4"),
                b"fact grow v2 0 2 0 3": not_again,
                b"fact grow v2 0 1 -1 3": certificate_line(6, "F4"),
                b"fact grow v2 0 1 0 2": not_again,
                b"fact grow v2 1 1 1 3": not_given,
                b"fact grow v2 -1 1 -1 3": not_given,
                # Nothing is given where no value is there, but no growth is known behind a change.
                b"fact grow v1 0 1 0 3": not_again,
                b"fact grow v3 0 1 0 3": not_again,
                b"fact grow v0 0 1 0 3": no_growth,
                b"fact grow v4 0 1 0 3": no_growth,
            },
            9: {
                b"fact grow v3 0 1 3 4": None,
                b"fact grow v3 1 0 3 4": None,
                b"fact grow v3 1 1 4 4": None,
                b"fact grow v3 1 1 3 5": None,
                b"fact grow v3 2 1 3 4": not_given_inside,
                b"fact grow v3 1 2 3 4": not_again_inside,
                b"fact grow v3 1 1 2 4": not_given_inside,
                b"fact grow v3 1 1 3 3": not_again_inside,
                # The outer control variable doesn't change in the inner loop, and s is 0 to 6 where that is entered.
                b"fact grow v0 1 1 3 4": not_again_inside,
                b"fact grow v0 1 0 3 0": is_open_inside,
                b"fact grow v2 1 1 3 4": not_given_inside,
                b"fact grow v2 0 0 6 0": is_open_inside,
                b"fact grow v2 0 0 5 0": not_given_inside,
                b"fact grow v1 1 1 3 4": no_growth,
                b"fact grow v4 1 1 3 4": no_growth,
            },
        },
    )


def marks_of_records():
    """Records of an array whose fields are filled one by one, with a stretch of each field."""
    source = (
        b"program p(output); type r = record m, n: integer end; var t: array [1..3] of r; i: integer; "
        b"begin for i := 1 to 3 do begin t[i].m := i; t[i].n := 0 end; "
        b"for i := 1 to 3 do write(t[i].m:1, t[i].n:1) end."
    )
    # A loop doesn't list the array that is changed in it.
    unlisted = told_at(source, b":= i; t", "certificate refused C7")
    # Without its stretch of a field only what the last turn filled is known.
    is_open, is_open_beside = (
        told_at(source, field, "possible error: undefined variable") for field in (b"t[i].m:1", b"t[i].n:1")
    )
    not_given = told_at(source, b"for i", "certificate refused C2")
    no_part = "certificate refused C1"
    return Genuine(
        "of_records_",
        source,
        (
            b"pcert 3",
            b"proc 0",
            b"loop 0",
            b"change v0",
            b"fact defined v0[].m 1 v1-1",
            b"fact defined v0[].n 1 v1-1",
        ),
        cut_behind={
            0: certificate_line(1, "F1"),
            1: unlisted,
            **faults(_2=2, _3=3),
            4: f"{is_open}\n{is_open_beside}",
            5: is_open_beside,
        },
        exchanged={
            **faults(_2_3=2, _2_4=2, _2_5=2, _2_6=2, _3_5=3, _3_6=3, _4_5=5, _4_6=5, _5_6=6),
            (3, 4): OF_THE_PROGRAM,
        },
        without={1: certificate_line(1, "F1"), **faults(_2=2, _3=4), 4: unlisted, 5: is_open, 6: is_open_beside},
        twice=faults(_1=2, _2=2, _3=3, _4=5, _5=6, _6=7),
        instead={
            1: {
                # In these versions no path to elements is defined, and there is no later one.
                b"pcert 1": certificate_line(5, "F2"),
                b"pcert 2": certificate_line(5, "F2"),
                b"pcert 4": certificate_line(1, "F1"),
            },
            5: {
                # Whole elements are those of which each field is known.
                b"fact defined v0[] 1 v1-1": None,
                b"fact defined v0 1 v1-1": None,
                b"fact defined v0[].m 2 v1-1": is_open,
                # More than holds: the element of this turn, and that of the one before the first.
                b"fact defined v0[].m 1 v1+0": not_given,
                b"fact defined v0[].m 0 v1-1": not_given,
                # What a turn fills isn't beside that.
                b"fact defined v0[].m 1 v1-2": told_at(source, b"for i", "certificate refused C3"),
                # No such field, and no bounds that the path takes.
                b"fact defined v0[].l 1 v1-1": no_part,
                b"fact defined v0[].m": no_part,
            },
            6: {
                # Bounds that are left where no array is, a field of no record, elements of no array.
                b"fact defined v0[].n 1 v1-1 1 3": no_part,
                b"fact defined v0.n 1 v1-1": no_part,
                b"fact defined v0[][] 1 v1-1 1 3": no_part,
            },
        },
    )


POP_BELOW, PUSH_ABOVE = "machine fault M1", "machine fault M2"
OUTSIDE_THE_CODE = "machine fault M2"
# What the machine does with two lines between the heading and `end` exchanged, as an output and what is told. No cell
# may be pushed before `ent` gives room, nor popped where none was pushed; `stp` ends the run.
CODE_EXCHANGED = {
    (2, 3): (b"", PUSH_ABOVE),
    (2, 4): (b"", PUSH_ABOVE),
    (2, 5): (b"", POP_BELOW),
    (2, 6): (b"\n", PUSH_ABOVE),
    (2, 7): (b"", None),
    (3, 4): (b"      3\n", None),
    (3, 5): (b"", POP_BELOW),
    (3, 6): (b"\n", POP_BELOW),
    (3, 7): (b"", None),
    (4, 5): (b"", POP_BELOW),
    (4, 6): (b"\n", POP_BELOW),
    (4, 7): (b"", None),
    (5, 6): (b"\n  7", None),
    (5, 7): (b"", None),
    (6, 7): (b"  7", None),
}
CODE_WITHOUT = {
    1: (b"", code_line(1, "A1")),
    2: (b"", PUSH_ABOVE),
    3: (b"", POP_BELOW),
    4: (b"", POP_BELOW),
    5: (b"\n", None),
    6: (b"  7", None),
    7: (b"  7\n", OUTSIDE_THE_CODE),
    8: (b"", code_line(7, "A6")),
}
CODE_TWICE = {
    1: (b"", code_line(2, "A1")),
    2: (b"  7\n", None),
    3: (b"", PUSH_ABOVE),
    4: (b"", PUSH_ABOVE),
    5: (b"  7", POP_BELOW),
    6: (b"  7\n\n", None),
    7: (b"  7\n", None),
    8: (b"", code_line(8, "A1")),
}
STATUSES = {"possible error": 1, "refused": 2, "machine fault": 7}


def status_of(told):
    return 0 if told is None else next(status for words, status in STATUSES.items() if words in told)


def told_text(told):
    return b"" if told is None else f"{told}\n".encode()


def certificate_case(genuine, name, text, told):
    name = f"certificate_{genuine.title}{name}"
    return Case(name, PLACE, source=genuine.source, certificate=text, tells=told_text(told), status=status_of(told))


def code_case(name, text, output, told):
    return Case(
        f"code_{name}", PLACE, CELLS, code=text, writes=output, tells=told_text(told), status=status_of(told)
    )


def joined(lines):
    return b"".join(line + b"\n" for line in lines)


def line_of(text, index):
    """The number of the line in which a byte stands; a line end stands in its own line."""
    return text.count(b"\n", 0, index) + 1


def cut_certificates(genuine):
    text = joined(genuine.lines)
    for length in range(len(text)):
        ended = length == 0 or text[length - 1 : length] == b"\n"
        whole = text.count(b"\n", 0, length)
        told = genuine.cut_behind[whole] if ended else certificate_line(whole + 1, "F5")
        yield f"cut_behind_byte_{length}", text[:length], told


def changed_certificates(genuine):
    """With another byte the heading is none, another line is none of a certificate, and the last one has no end."""
    text = joined(genuine.lines)
    for index in range(len(text)):
        line = line_of(text, index)
        code = "F1" if line == 1 else "F2" if index + 1 < len(text) else "F5"
        yield f"with_another_byte_{index + 1}", with_another(text, index), certificate_line(line, code)


def with_another(text, index):
    return text[:index] + FORGED + text[index + 1 :]


def certificate_lines(genuine):
    for first, second, lines in exchanges(genuine.lines):
        told = genuine.exchanged[first, second] if first > 1 else certificate_line(1, "F1")
        yield f"lines_{first}_and_{second}_exchanged", joined(lines), told
    for line, told in genuine.without.items():
        yield f"without_line_{line}", joined(without(genuine.lines, line)), told
    for line, told in genuine.twice.items():
        yield f"with_line_{line}_twice", joined(twice(genuine.lines, line)), told
    for line, others in genuine.instead.items():
        for number, (other, told) in enumerate(others.items(), 1):
            yield f"with_line_{line}_as_{number}", joined(with_line(genuine.lines, line, other)), told


def exchanges(lines):
    """Each two lines by their numbers, and the lines with these exchanged."""
    for second in range(2, len(lines) + 1):
        for first in range(1, second):
            yield first, second, exchanged(lines, first, second)


def exchanged(lines, first, second):
    turned = list(lines)
    turned[first - 1], turned[second - 1] = lines[second - 1], lines[first - 1]
    return turned


def without(lines, line):
    return lines[: line - 1] + lines[line:]


def with_line(lines, line, other):
    return (*lines[: line - 1], other, *lines[line:])


def twice(lines, line):
    return lines[:line] + lines[line - 1 :]


def cut_codes():
    """A text that doesn't end with `end` and its line end is told at its last line, an empty one at line 1."""
    text = joined(CODE)
    for length in range(len(text)):
        yield f"cut_behind_byte_{length}", text[:length], b"", code_line(line_of(text, max(length - 1, 0)), "A6")


def changed_codes():
    """With another byte the last line isn't `end`, or a line has an unknown first word, or else wrong operands."""
    text = joined(CODE)
    for index in range(len(text)):
        forged = with_another(text, index)
        line = line_of(text, index)
        lines = forged.split(b"\n")
        if lines[-2:] != [b"end", b""]:
            told = code_line(line, "A6")
        else:
            told = code_line(line, "A1" if line == 1 or FORGED in lines[line - 1].split(b" ")[0] else "A2")
        yield f"with_another_byte_{index + 1}", forged, b"", told


def code_lines():
    last = len(CODE)
    for first, second, lines in exchanges(CODE):
        if second == last:
            done = b"", code_line(last, "A6")
        else:
            done = CODE_EXCHANGED[first, second] if first > 1 else (b"", code_line(1, "A1"))
        yield (f"lines_{first}_and_{second}_exchanged", joined(lines), *done)
    for line, done in CODE_WITHOUT.items():
        yield (f"without_line_{line}", joined(without(CODE, line)), *done)
    for line, done in CODE_TWICE.items():
        yield (f"with_line_{line}_twice", joined(twice(CODE, line)), *done)


def forged_cases():
    for genuine in (list_of_numbers(), matrix_by_rows(), sums_over_turns(), marks_of_records()):
        for make in (cut_certificates, changed_certificates, certificate_lines):
            yield from (certificate_case(genuine, *made) for made in make(genuine))
    for make in (cut_codes, changed_codes, code_lines):
        yield from (code_case(*made) for made in make())
