"""Builds a program of this repository without any proof: native and optimised, from the same sources.

The kit's command `rt try` compiles a program without proofs, for a run that it looks after, and keeps no file. So it
runs in a view of the kit: links to all that the kit has, but for a copy of `rt`, which finds its kit by its own place,
and for two scripts: one in the place of the compiler, which keeps the program's bitcode (bin/bitcode.py), and one in
the place of the prover, which leaves out the search for hints that `rt try` begins beside a try. The kit's own compiler
then takes the bitcode, optimises and leaves the address sanitizer out, and its linker makes the program. That keeps the
tests which proofs make needless, as those of indexes and of overflow."""

import os
import shutil
import subprocess
import sys
import time

from bitcode import ENDS, link_all, put_script, view_of_toolchain
from programs import PARTS, TOP, TRIED, Sources, Stopped
from programs import clear_rooms, kit_folder, needed_kit, put, replace_text, room

PROVER = """#!/bin/sh
for word; do
  [ "$word" != --start ] || exit 0
done
exec "{rattle}" "$@"
"""
# What the kit's compiler is told in place of what it is told for a try.
REPLACED = {"-O0": "-O2"}
LEFT_OUT = "-fsanitize="
SYSROOT = "--sysroot="


def say(name, text):
    print(f"{name}: {text}", file=sys.stderr, flush=True)


def build(name):
    """Builds the program from the sources as they are now."""
    kit = needed_kit()
    begin = time.monotonic()
    say(name, "building it without proofs, once for these sources; that takes some three minutes")
    clear_rooms(TRIED, name)
    with room(TRIED, name) as folder:
        key = copy_sources(name, kit, os.path.join(folder, "sources"))
        kept = kept_bitcode(name, folder)
        put(TRIED, name, linked(folder, kept), key, kit, kept)
    say(name, f"built, after {time.monotonic() - begin:.0f} s")


def copy_sources(name, kit, top):
    """Copies what the program is made of to a folder of its own, and gives the checksum of that. So an edit made
    meanwhile, or an rt that works on these crates, changes nothing of it."""
    sources = Sources(TOP, kit, PARTS[TRIED])
    crates = sources.below(name) | {name}
    for crate in crates:
        for part in PARTS[TRIED]:
            folder = os.path.join("crates", crate, part)
            if os.path.isdir(os.path.join(TOP, folder)):
                shutil.copytree(os.path.join(TOP, folder), os.path.join(top, folder))
    rows = [f"{crate}: {' '.join(sources.rows[crate])}\n" for crate in crates]
    replace_text(os.path.join(top, "crates.txt"), "".join(rows))
    return Sources(top, kit, PARTS[TRIED]).key(name)


def view_of_kit(view, kept):
    """Makes the view of the kit in which the compiler keeps what it is given."""
    kit = kit_folder()
    link_all(kit, view, ("bin", "toolchain"))
    link_all(os.path.join(kit, "bin"), os.path.join(view, "bin"), ("rt", "rtlib.py", "rattle"))
    for file in ("rt", "rtlib.py"):
        if os.path.isfile(os.path.join(kit, "bin", file)):
            shutil.copy2(os.path.join(kit, "bin", file), os.path.join(view, "bin", file))
    view_of_toolchain(os.path.join(view, "toolchain"), kept, ENDS)
    rattle = os.path.join("bin", "rattle")
    put_script(view, rattle, PROVER.format(rattle=os.path.join(kit, rattle)))


def kept_bitcode(name, folder):
    """The path of the program's bitcode. The words for the compiler stand beside it."""
    view, kept = os.path.join(folder, "kit"), os.path.join(folder, f"{name}.bc")
    view_of_kit(view, kept)
    words = [os.path.join(view, "bin", "rt"), "try", "--steps", "1", "--", os.devnull]
    crate = os.path.join(folder, "sources", "crates", name)
    streams = {"stdin": subprocess.DEVNULL, "stdout": subprocess.PIPE, "stderr": subprocess.STDOUT}
    ran = subprocess.run(words, cwd=crate, text=True, errors="replace", check=False, **streams)
    if not os.path.isfile(kept):
        why = "it can't be built from these sources"
        raise Stopped(why, ran.stdout.replace(os.path.join(folder, "sources"), TOP))
    return kept


def words_for(kept, made):
    """The words for the kit's compiler."""
    with open(f"{kept}.words", encoding="utf-8") as file:
        words = file.read().split("\n")[:-1]
    replaced = {**REPLACED, "module.bc": kept, "module.o": made}
    sysroot = SYSROOT + os.path.join(kit_folder(), "toolchain")
    words = [replaced.get(word, word) for word in words if not word.startswith(LEFT_OUT)]
    return [sysroot if word.startswith(SYSROOT) else word for word in words]


def linked(folder, kept):
    """The path of the program that is made of the bitcode."""
    kit, program = kit_folder(), os.path.join(folder, "made")
    run([os.path.join(kit, "toolchain", "bin", "clang"), *words_for(kept, f"{program}.o")])
    libraries = [os.path.join(kit, "c", file) for file in ("libos_c.a", "liblibc_c.a")]
    target = ["--target", "x86_64-unknown-linux-gnu", "--toolchain", os.path.join(kit, "toolchain")]
    run([os.path.join(kit, "bin", "rattle-link"), *target, "-o", program, f"{program}.o", *libraries])
    return program


def run(words):
    streams = {"stdout": subprocess.PIPE, "stderr": subprocess.STDOUT}
    ran = subprocess.run(words, text=True, errors="replace", check=False, **streams)
    if ran.returncode:
        raise Stopped("it can't be built by this kit", ran.stdout)
