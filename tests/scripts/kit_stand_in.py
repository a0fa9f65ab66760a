"""A repository of a few crates and a kit that proves nothing, for tests of bin/pcom, bin/at_hand.py, bin/prove and
bin/page."""

import os
import shutil
import subprocess
import sys
import tempfile
import time
import unittest

TOP = os.path.dirname(os.path.dirname(os.path.dirname(os.path.abspath(__file__))))
SCRIPTS = ("pcom", "pint", "at_hand.py", "prove", "plan.py", "programs.py", "bitcode.py", "tried.py", "files.sh")
CRATES = """# Crates for a test.
low:
left: low thiserror
top_left: left low
right: low
wide:
aside: low
pcom: top_left right clap wide
pint: low
"""
TABLE = """low 10
left 5
top_left 20
right 50   # the longest chain: low, right, pcom
wide 1
aside 900
pcom 5
pint 1
"""
PROGRAMS = ("pcom", "pint")
# Each command of the kit writes what it is asked for to the log. SLOW has seconds by crate. A crate is not proved, and
# not tried, where its code has the word `wrong`. What is made of a program says by which way it was made, and runs.
HEAD = '''#!{python}
import json, os, sys, tempfile, time
def log(*words):
    with open({log!r}, "a") as file:
        file.write(" ".join(map(str, words)) + "\\n")
def wait(name):
    slow = dict(word.split("=") for word in os.environ.get("SLOW", "").split())
    time.sleep(float(slow.get(name, 0)))
def text_of(path):
    with open(path) as file:
        return file.read()
def put(path, text):
    with open(path, "w") as file:
        file.write(text)
def compile(clang, words, text):
    put("module.bc", text + "\\n" + 100_000 * ".")
    return os.spawnv(os.P_WAIT, clang, [clang, *words])
words = sys.argv[1:]
def behind(word):
    return words[words.index(word) + 1]
'''
RT = '''
if words[0] == "version":
    print("a kit of no worth, " + os.environ.get("KIT", "1"))
    sys.exit(0)
if words[0] == "ci":
    log("ci")
    for name in json.loads(os.environ["GATE"]):
        os.makedirs("crates/" + name + "/out", exist_ok=True)
        put("crates/" + name + "/out/" + name, "#!/bin/sh\\necho by the gate\\n")
        os.chmod("crates/" + name + "/out/" + name, 0o755)
    print("all of it\\n" + os.environ["SAYS"])
    sys.exit()
name, text = os.path.basename(os.getcwd()), text_of("src/main.rt")
log("try", name)
wait(name)
if "wrong" in text:
    sys.exit("error: " + os.path.abspath("src/main.rt") + ":1: wrong")
clang = os.path.dirname(os.path.dirname(os.path.abspath(__file__))) + "/toolchain/bin/clang"
os.chdir(tempfile.mkdtemp(dir=os.environ["WORK"]))
words = ["--sysroot=elsewhere", "-x", "ir", "module.bc", "-o", "module.o", "-fPIE", "-O0", "-fsanitize=address"]
put("module.bc", "small")
if os.spawnv(os.P_WAIT, clang, [clang, *words]) or compile(clang, words, "tried " + text):
    sys.exit("the compiler failed")
log("ran", name)
'''
CLANG = '''
if os.path.basename(sys.argv[0]) == "wasm-ld":
    put(behind("-o"), "a module, " + text_of(words[-3]))
    sys.exit()
log("clang", *[word for word in words if word.startswith("-O") or word.startswith("-fs")])
put(behind("-o"), text_of(behind("ir")).split("\\n")[0])
'''
LINK = '''
made = [word for word in words if word.endswith(".o")][0]
put(behind("-o"), "#!/bin/sh\\n# " + text_of(made) + "\\necho " + text_of(made).split()[0] + ' "$@"\\nexit 5\\n')
os.chmod(behind("-o"), 0o755)
'''
RATTLE = '''
name, made = behind("--crate-name"), behind("-o")
log("begin", name, os.getpid(), behind("--jobs"))
for word in [words[k + 1] for k, word in enumerate(words) if word == "--extern"]:
    library, _, path = word.partition("=")
    if not os.path.isdir(path):
        sys.exit(library + " is not built")
wait(name)
text = text_of(words[3])
if "wrong" in text:
    print("fn right: proved\\n" + os.path.abspath(words[3]) + ":1: not proved", flush=True)
    sys.exit(1)
if made.endswith(".o"):
    os.chdir(tempfile.mkdtemp(dir=os.environ["WORK"]))
    if compile(behind("--toolchain") + "/bin/clang", ["-O3", "-x", "ir", "module.bc", "-o", made], "proved " + text):
        sys.exit(1)
else:
    os.mkdir(made)
log("end", name)
'''
COMMANDS = {"bin/rt": RT, "bin/rattle": RATTLE, "bin/rattle-link": LINK, "toolchain/bin/clang": CLANG}


def write(text, *path):
    os.makedirs(os.path.dirname(os.path.join(*path)), exist_ok=True)
    with open(os.path.join(*path), "w", encoding="utf-8") as file:
        file.write(text)


class Repository(unittest.TestCase):
    """A repository in a folder of its own, and what is asked of the kit there."""

    def setUp(self):
        self.folder = os.path.realpath(tempfile.mkdtemp())
        self.addCleanup(shutil.rmtree, self.folder)
        self.top, self.log = os.path.join(self.folder, "top"), os.path.join(self.folder, "log")
        for script in SCRIPTS:
            write("", self.top, "bin", script)
            shutil.copy2(os.path.join(TOP, "bin", script), os.path.join(self.top, "bin", script))
        shutil.copytree(os.path.join(TOP, "bin", "help"), os.path.join(self.top, "bin", "help"))
        write(CRATES, self.top, "crates.txt")
        write(TABLE, self.top, "bin", "prove_seconds.txt")
        for line in CRATES.splitlines()[1:]:
            name = line.partition(":")[0]
            write(f"text of {name}\n", self.top, "crates", name, "src", self.root_of(name))
            write(f"proof of {name}\n", self.top, "crates", name, "proofs", "Lib.antt")
        write("an edit\n", self.top, "crates", "low", "must-fail", "one.edit")
        write("program p; begin end.\n", self.folder, "a b.pas")
        self.make_kit()

    def root_of(self, name):
        return "main.rt" if name in PROGRAMS else "lib.rt"

    def make_kit(self):
        self.kit = os.path.join(self.folder, "kit")
        for command, script in COMMANDS.items():
            write(HEAD.format(python=sys.executable, log=self.log) + script, self.kit, command)
            os.chmod(os.path.join(self.kit, command), 0o755)
        for library in ("std", "thiserror", "clap"):
            os.makedirs(os.path.join(self.kit, "rlibs", f"{library}.rlib"))
        # What the path has for python3 may be a script that takes longer than these do.
        os.symlink(sys.executable, os.path.join(self.kit, "bin", "python3"))

    def how(self, processors=1, has_kit=True, **more):
        """How a command is run: on so many processors, with the kit on the path or without."""
        path = os.environ["PATH"].split(os.pathsep)
        path = [self.kit + "/bin", *path] if has_kit else [it for it in path if not os.path.exists(f"{it}/rt")]
        if not has_kit:
            path.insert(0, self.python_alone())
        some = sorted(os.sched_getaffinity(0))[:processors]
        return {
            "env": {**os.environ, "PATH": os.pathsep.join(path), "WORK": self.folder, **more},
            "cwd": self.folder,
            "preexec_fn": lambda: os.sched_setaffinity(0, some),
        }

    def python_alone(self):
        folder = os.path.join(self.folder, "python")
        os.makedirs(folder, exist_ok=True)
        if not os.path.exists(f"{folder}/python3"):
            os.symlink(sys.executable, f"{folder}/python3")
        return folder

    def words(self, script, *words):
        return [os.path.join(self.top, "bin", script), *words]

    def ran(self, script, *words, given="", **how):
        streams = {"input": given, "stdout": subprocess.PIPE, "stderr": subprocess.PIPE}
        return subprocess.run(self.words(script, *words), text=True, timeout=120, **streams, **self.how(**how))

    def proved(self, *words, **how):
        ran = self.ran("prove", *words, **how)
        self.assertEqual(ran.returncode, 0, ran.stderr)
        return ran

    def calls(self):
        """What the kit was asked for, and did, since this was asked last."""
        with open(self.log, "a+", encoding="utf-8") as file:
            file.seek(0)
            lines = [line.split() for line in file]
        os.remove(self.log)
        return lines

    def begun(self):
        """The crates whose proofs began."""
        return [line[1] for line in self.calls() if line[0] == "begin"]

    def wait_for(self, word):
        """Waits until the kit has done something."""
        for _ in range(1200):
            time.sleep(0.05)
            if os.path.exists(self.log):
                with open(self.log, encoding="utf-8") as file:
                    if word in file.read():
                        return
        self.fail(f"{word} never came")
