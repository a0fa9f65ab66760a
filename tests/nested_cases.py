"""Cases of 100 ifs in one another over 1,000 variables, each of which changes some of them, with 200 divisions behind.
Which of these have to be open is worked out here, by the rules of docs/CERTIFICATES.md: where the ways of an if meet, a
variable's range is the least that holds those of both ways, and a division is open where the range of its divisor holds
0."""

from case_files import Case

PLACE = "tests/nested_cases.py"
VARIABLES, IFS, DIVISIONS = 1_000, 100, 200
STRIDE = 5
# What the ways give two variables, which were 1. A range that has 1 and a value below 0 holds 0 too, though no way
# gives that.
GIVEN = ((-3, 4), (7, -1), (0, 2), (5, 5))
DIVIDEND = 100
# A way that gives no variable 0, so that a run on its number finishes.
CHOSEN = 4


def changes(way):
    """What a way gives which variables, in order: of two values for one variable the second counts."""
    first, second = GIVEN[way % len(GIVEN)]
    at = way * 7 * STRIDE
    return [(at % VARIABLES, first), ((at + 10) % VARIABLES, 0), ((at + 10) % VARIABLES, second)]


def is_asked_upwards(level):
    """Whether the further ifs stand in the first way of an if, where `n` is greater than its number."""
    return level % 2 == 1


def statement(level):
    """The if of a level in lines, and those in it. The way of a number is taken where `n` has it."""
    if level > IFS:
        return assignments(level)
    inner, own = statement(level + 1), assignments(level)
    if is_asked_upwards(level):
        return [f"if n > {level} then", *inner, "else", *own]
    return [f"if n = {level} then", *own, "else", *inner]


def assignments(way):
    return ["begin", *(f"v{variable} := {value};" for variable, value in changes(way)), "end"]


def behind(ranges, way):
    """The ranges behind a way: what is given last to each variable alone."""
    return ranges | {variable: (value, value) for variable, value in changes(way)}


def meeting(first, second):
    return {
        variable: (min(first[variable][0], second[variable][0]), max(first[variable][1], second[variable][1]))
        for variable in first
    }


def ranges_behind(ranges, level):
    """The ranges behind the if of a level. No way is impossible: that of a number has it as the value of `n`."""
    if level > IFS:
        return behind(ranges, level)
    return meeting(ranges_behind(ranges, level + 1), behind(ranges, level))


def divisors():
    return [at * STRIDE for at in range(DIVISIONS)]


def division(variable):
    return f"write({DIVIDEND} div v{variable}: 1, ' ');"


def source():
    """The source in lines, and the number of the line of the first division, from 1."""
    declared = ", ".join(f"v{variable}" for variable in range(VARIABLES))
    before = ["program p(input, output);", f"var n, {declared}: integer;", "begin", "read(n);"]
    before += [*(f"v{variable} := 1;" for variable in range(VARIABLES)), *statement(1)]
    before[-1] += ";"
    return [*before, *map(division, divisors()), "end."], len(before) + 1


def open_lines(first_line):
    """A line for each division that has to be open."""
    ranges = ranges_behind({variable: (1, 1) for variable in range(VARIABLES)}, 1)
    column = division(0).index("div") + 1
    for line, variable in enumerate(divisors(), first_line):
        least, greatest = ranges[variable]
        if least <= 0 <= greatest:
            yield f"{line}:{column}: possible error: division by zero"


def written():
    """What a run writes that takes the chosen way; the quotients are cut towards 0."""
    values = {variable: 1 for variable in range(VARIABLES)} | dict(changes(CHOSEN))
    quotients = [int(DIVIDEND / values[variable]) for variable in divisors()]
    return "".join(f"{quotient} " for quotient in quotients)


def nested_cases():
    lines, first_line = source()
    text = "\n".join([*lines, ""]).encode()
    told = "".join(f"{line}\n" for line in open_lines(first_line)).encode()
    name = "nested_ifs_with_divisions_behind"
    yield Case(name, PLACE, source=text, certificate=b"pcert 1\n", tells=told, status=1)
    yield Case(
        f"{name}_run", PLACE, (b"--go",), text, input=b"%d\n" % CHOSEN, writes=written().encode(), tells=told, status=1
    )
