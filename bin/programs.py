"""The programs of this repository: what they are built from, where they lie once they are built, and whether they are
still what the sources say. bin/at_hand, bin/prove, bin/tried.py and the tests go by it.

A program may lie in out/proved/NAME, which bin/prove or the gate has proved and built, and in out/tried/NAME, which was
built from the same sources without any proof. A file `key` beside it has the checksum of all that it was built from,
the kit's line and the checksum of the program itself; the bitcode that it was compiled of lies there too, but not that
of the gate."""

import fcntl
import functools
import hashlib
import json
import os
import re
import shutil
import subprocess
import tempfile

TOP = os.path.dirname(os.path.dirname(os.path.realpath(__file__)))
OUT = os.path.join(TOP, "out")
# The programs that people run; and that which only tests and measurements run.
MAIN_PROGRAMS = ("pcom", "pint")
PROGRAMS = (*MAIN_PROGRAMS, "pwhy", "trials_measure")
PROVED, TRIED = KINDS = ("proved", "tried")
# The folders of a crate of which a program is made, by the kind of the program: without proofs the code is enough.
PARTS = {PROVED: ("src", "specs", "proofs", "c"), TRIED: ("src", "c")}
STATUS = 3
CUT_OFF = 130


class Stopped(Exception):
    """Why nothing was built: a sentence, and what the failed command wrote."""

    def __init__(self, why, written=""):
        super().__init__(why)
        self.why, self.written = why, written


def text_of(path):
    """The text of a file; none where it can't be read."""
    try:
        with open(path, encoding="utf-8", errors="replace") as file:
            return file.read()
    except OSError:
        return ""


def bytes_sum(path):
    """The checksum of a file; none where it can't be read."""
    try:
        with open(path, "rb") as file:
            return hashlib.sha256(file.read()).hexdigest()
    except OSError:
        return ""


def replace_text(path, text):
    """Writes a file whole, or leaves it as it was."""
    os.makedirs(os.path.dirname(path), exist_ok=True)
    with tempfile.NamedTemporaryFile("w", dir=os.path.dirname(path), delete=False, encoding="utf-8") as file:
        file.write(text)
    os.replace(file.name, path)


def files_below(folder):
    """The paths of the plain files of a folder and of those in it."""
    with os.scandir(folder) as entries:
        for entry in entries:
            if entry.is_dir(follow_symlinks=False):
                yield from files_below(entry.path)
            elif entry.is_file(follow_symlinks=False):
                yield entry.path


def rows_of(top):
    """The lines of crates.txt, by crate: the libraries that each names."""
    lines = (line.partition("#")[0].partition(":") for line in text_of(os.path.join(top, "crates.txt")).splitlines())
    return {
        head.split()[0]: re.split(r"[\s,]+", rest.strip()) if rest.strip() else []
        for head, _, rest in lines
        if head.strip()
    }


class Sources:
    """What the crates of a folder are built from, by the folders that count: their lines in crates.txt, the checksums
    of their files, the kit."""

    def __init__(self, top, kit, parts):
        self.top, self.kit, self.parts, self.keys = top, kit, parts, {}
        self.rows = rows_of(top)
        self.uses = {name: [word for word in words if word in self.rows] for name, words in self.rows.items()}

    @functools.lru_cache(maxsize=None)
    def sums(self, name):
        """The checksum of each file of a crate, by its path."""
        folder = os.path.join(self.top, "crates", name)
        parts = [part for part in self.parts if os.path.isdir(os.path.join(folder, part))]
        paths = [path for part in parts for path in files_below(os.path.join(folder, part))]
        return sorted((os.path.relpath(path, folder), bytes_sum(path)) for path in paths)

    def below(self, name):
        """The crates on which one stands, however far below."""
        found, left = set(), list(self.uses[name])
        while left:
            name = left.pop()
            if name not in found:
                found.add(name)
                left += self.uses[name]
        return found

    def key(self, name):
        """The checksum of all that a crate is built from."""
        if name not in self.keys:
            below = [(other, self.key(other)) for other in sorted(self.uses[name])]
            text = json.dumps([self.kit, self.rows[name], self.sums(name), below])
            self.keys[name] = hashlib.sha256(text.encode("utf-8", "surrogateescape")).hexdigest()
        return self.keys[name]


def kit_line():
    """The line that tells one kit from another; none where there is no kit on the path."""
    if not shutil.which("rt"):
        return None
    return subprocess.run(["rt", "version"], stdout=subprocess.PIPE, text=True, check=False).stdout.strip()


def needed_kit():
    """The same; without a kit nothing can be built."""
    line = kit_line()
    if not line:
        raise Stopped("the Rattle kit's command rt is not on the path")
    return line


def kit_folder():
    """The folder of the kit whose command rt is on the path."""
    return os.path.dirname(os.path.dirname(os.path.realpath(shutil.which("rt"))))


def folder_of(kind, name):
    return os.path.join(OUT, kind, name)


def path_of(kind, name):
    return os.path.join(folder_of(kind, name), name)


def bitcode_of(kind, name):
    return path_of(kind, name) + ".bc"


def key_text(key, kit, program):
    return f"{key}\n{kit}\n{bytes_sum(program)}\n"


def is_built(kind, name, kit):
    """Whether a program of this kind lies there that was built of just these sources. Where there is no kit nothing can
    be built anew, so it may be of any."""
    noted = text_of(os.path.join(folder_of(kind, name), "key")).split("\n")
    if len(noted) != 4 or not os.access(path_of(kind, name), os.X_OK):
        return False
    sources = Sources(TOP, kit or noted[1], PARTS[kind])
    return "\n".join(noted) == key_text(sources.key(name), sources.kit, path_of(kind, name))


def room(kind, name):
    """A folder for what is made, which goes when it is done with."""
    os.makedirs(os.path.join(OUT, kind), exist_ok=True)
    return tempfile.TemporaryDirectory(prefix=f"{name}-", dir=os.path.join(OUT, kind))


def clear_rooms(kind, name=""):
    """Removes the rooms of this name, or all, that runs left which were killed."""
    folder = os.path.join(OUT, kind)
    for entry in os.listdir(folder) if os.path.isdir(folder) else ():
        if entry.startswith(f"{name}-") or not name and "-" in entry:
            shutil.rmtree(os.path.join(folder, entry), ignore_errors=True)


def put(kind, name, program, key, kit, bitcode=None):
    """Puts a program that was built where programs of its kind lie, with its bitcode where that was kept."""
    with room(kind, name) as made:
        new, old = os.path.join(made, "new"), os.path.join(made, "old")
        os.mkdir(new)
        shutil.copy2(program, os.path.join(new, name))
        if bitcode and os.path.isfile(bitcode):
            shutil.copy2(bitcode, os.path.join(new, f"{name}.bc"))
        replace_text(os.path.join(new, "key"), key_text(key, kit, program))
        if os.path.isdir(folder_of(kind, name)):
            os.rename(folder_of(kind, name), old)
        os.rename(new, folder_of(kind, name))


def held(name, waits):
    """Keeps other runs out of the work of this name until what is returned is closed or this ends; calls waits() where
    another run is at it."""
    os.makedirs(OUT, exist_ok=True)
    lock = open(os.path.join(OUT, f"{name}.lock"), "w", encoding="utf-8")
    try:
        fcntl.flock(lock, fcntl.LOCK_EX | fcntl.LOCK_NB)
    except BlockingIOError:
        waits()
        fcntl.flock(lock, fcntl.LOCK_EX)
    except OSError:
        # Some file systems have no locks.
        pass
    return lock
