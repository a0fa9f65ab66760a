"""Keeps the bitcode of a program: a view of the kit's toolchain, with a script in the place of its compiler, which
keeps what it is given. The kit has no command that does."""

import os

from programs import kit_folder

# The kit may compile a small module first, to see whether the compiler works.
LEAST = 100_000
COMPILER = """#!/bin/sh
if [ -f module.bc ] && [ "$(wc -c < module.bc)" -gt {least} ]; then
  printf '%s\\n' "$@" > "{kept}.words" && cp module.bc "{kept}.part" && mv "{kept}.part" "{kept}"
  {then}
fi
exec "{clang}" "$@"
"""
GOES_ON, ENDS = ":", "exit 1"


def view_of_toolchain(view, kept, then):
    """Makes a view of the toolchain whose compiler keeps the bitcode, with the words it was called with beside it, and
    then goes on or ends."""
    toolchain = os.path.join(kit_folder(), "toolchain")
    link_all(toolchain, view, ("bin",))
    link_all(os.path.join(toolchain, "bin"), os.path.join(view, "bin"), ("clang",))
    clang = os.path.join(toolchain, "bin", "clang")
    put_script(view, os.path.join("bin", "clang"), COMPILER.format(least=LEAST, kept=kept, then=then, clang=clang))
    return view


def link_all(one, other, but=()):
    """Makes a folder of links to what is in another."""
    os.makedirs(other)
    for entry in os.listdir(one):
        if entry not in but:
            os.symlink(os.path.join(one, entry), os.path.join(other, entry))


def put_script(folder, name, text):
    with open(os.path.join(folder, name), "w", encoding="utf-8") as file:
        file.write(text)
    os.chmod(file.name, 0o755)
