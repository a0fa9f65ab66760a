"""Runs of the programs with allocations refused, by a library that is loaded before the C library, so it needs `cc`."""

import os
import subprocess
import tempfile
from concurrent.futures import ThreadPoolExecutor
from dataclasses import dataclass

from case_files import CERTIFICATE, CODE, SAVED, SAVED_CODE, SOURCE, put, saved_in

HERE = os.path.dirname(os.path.abspath(__file__))
NOTHING = (None, None)
NO_MEMORY = (3, b"", b"no memory\n", *NOTHING)


@dataclass(frozen=True)
class Counts:
    """How many allocations a run makes, and the number of the one with which a machine is made, 0 where none is."""

    all: int
    machine: int


def built_library(room):
    """The library, built in a folder."""
    library = os.path.join(room, "refuse_memory.so")
    source = os.path.join(HERE, "refuse_memory.c")
    subprocess.run(["cc", "-O1", "-shared", "-fPIC", "-o", library, source], check=True)
    return library


def run(library, words, folder, given=b"", refused=None, refused_from=None, output=subprocess.PIPE):
    """Status, output and messages of a run with one allocation refused, or all from a number on; and its counts. The
    output is none where it goes elsewhere."""
    reading, writing = os.pipe()
    environment = dict(os.environ, LD_PRELOAD=library, REFUSE_TELL=str(writing))
    for name, number in (("REFUSE", refused), ("REFUSE_FROM", refused_from)):
        if number is not None:
            environment[name] = str(number)
    streams = {"input": given, "stdout": output, "stderr": subprocess.PIPE}
    ran = subprocess.run(words, cwd=folder, env=environment, pass_fds=[writing], **streams)
    os.close(writing)
    told = os.read(reading, 64).split()
    os.close(reading)
    return (ran.returncode, ran.stdout or b"", ran.stderr), Counts(*map(int, told or (0, 0)))


def run_anew(library, words, folder, given=b"", **how):
    """The same with the files behind it, those of the certificate and of the code; none of them is there before."""
    for name in (SAVED, SAVED_CODE):
        path = os.path.join(folder, name)
        if os.path.exists(path):
            os.remove(path)
    told, counts = run(library, words, folder, given, **how)
    return (*told, saved_in(folder), saved_in(folder, SAVED_CODE)), counts


def without_files(wanted):
    """What a run may do in place of what it does with ample memory, where memory was refused while a file is read or
    written."""
    lines = [f"cannot read {path}\n" for path in (SOURCE, CERTIFICATE, CODE)] + [f"cannot write {SAVED}\n"]
    none = [(3, b"", line.encode(), *NOTHING) for line in lines]
    return [*none, (3, b"", f"cannot write {SAVED_CODE}\n".encode(), wanted[3], None)]


@dataclass(frozen=True)
class Program:
    """A program that is compiled and run with one allocation after another refused."""

    name: str
    source: bytes
    certificate: bytes
    input: bytes = b""

    def placed(self, folder, has_certificate):
        """Puts the texts into a folder, and gives the words that name them."""
        words = ["--cert", put(self.certificate, folder, CERTIFICATE)] if has_certificate else []
        return [*words, "--go", put(self.source, folder, SOURCE)]


# An array that is read and written, one procedure whose variables may be one, and another by which an error is reached.
PROGRAMS = (
    Program(
        "array",
        b"program p(input, output); var n: 1..100; i: integer; a: array [1..100] of integer; "
        b"begin read(n); for i := 1 to n do read(a[i]); for i := 1 to n do write(a[i]) end.",
        b"pcert 1\nproc 0\nloop 0\nchange v2\nfact defined v2 1 v1-1\n",
        b"2 5 7",
    ),
    Program(
        "swap",
        b"program p(output); type v = array [1..2] of integer; var a: v; i: integer; "
        b"procedure swap(var x, y: integer); var t: integer; begin t := x; x := y; y := t end; "
        b"begin a[1] := 4; a[2] := 9; i := 1; swap(a[i], a[i]); swap(a[1], a[2]); write(a[1]:1, a[2]:1) end.",
        b"pcert 1\nproc 1\nalias v0 v2\nalias v0 v3\nalias v2 v3\nchange v2\nchange v3\n"
        b"entry defined v2\nentry defined v3\n",
    ),
    Program(
        "alias",
        b"program p(output); var g, h: integer; procedure q(var x: integer); "
        b"begin g := 1; x := 0; writeln(10 div g) end; begin q(g) end.",
        b"pcert 1\nproc 1\nalias v0 v2\nchange v0\nchange v2\n",
    ),
)


def each_refused(library, pcom, program, has_certificate):
    """What a program does with ample memory, and then with each of its allocations refused, one after another, until a
    run meets none that is refused. The certificate that was used is written and so is the code."""
    with tempfile.TemporaryDirectory() as folder:
        words = [pcom, *program.placed(folder, has_certificate), SAVED_CODE, "--write-cert", SAVED]
        wanted, counts = run_anew(library, words, folder, program.input)
        told = []
        for refused in range(1, counts.all + 2):
            found, met = run_anew(library, words, folder, program.input, refused=refused)
            told.append(found)
            if met.all < refused:
                return wanted, told
    raise AssertionError(f"{program.name}: a run with an allocation refused makes more than one with none")


def behind_the_machine(library, pcom, program, has_certificate):
    """What a program does with ample memory, and with each allocation refused behind the one that makes the machine."""
    with tempfile.TemporaryDirectory() as folder:
        words = [pcom, *program.placed(folder, has_certificate)]
        wanted, counts = run_anew(library, words, folder, program.input)
        told, _ = run_anew(library, words, folder, program.input, refused_from=counts.machine + 1)
        return wanted, counts, told


def each_program(do, library, pcom):
    """Does something with each of the programs, with its certificate and without one; gives what each answers."""
    given = [(program, has_certificate) for program in PROGRAMS for has_certificate in (True, False)]
    with ThreadPoolExecutor(len(os.sched_getaffinity(0))) as pool:
        return [*zip(given, pool.map(lambda it: do(library, pcom, *it), given))]
