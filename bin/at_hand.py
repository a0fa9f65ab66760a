#!/usr/bin/env python3
"""Finds the program that bin/NAME runs, and notes it for that script in out/NAME.at_hand.

    bin/at_hand.py NAME             builds it without proofs where it isn't built for just these sources
    bin/at_hand.py --unbuilt NAME   builds nothing

It is the proved one where bin/prove, or the gate, has proved and built it of just these sources, else the tried one.
Its kind and its path are printed. Status: 0 found, 3 not built, 130 cut off."""

import sys

sys.dont_write_bytecode = True

import os
import signal
import subprocess

import tried
from programs import CUT_OFF, KINDS, OUT, PROGRAMS, STATUS, TOP, TRIED, Stopped
from programs import held, is_built, kit_line, path_of, replace_text

LISTING = 'top=$0; . "$top/bin/files.sh"; kit_file || echo; files_of "$1"'


def listing(name):
    """What bin/NAME compares: the kit's file, and the sizes and times of all others."""
    words = ["bash", "-c", LISTING, TOP, name]
    return subprocess.run(words, stdout=subprocess.PIPE, text=True, errors="surrogateescape", check=True).stdout


def of_sources(text):
    return [line for line in text.split("\n") if not line.startswith("out/")]


def kind_at_hand(name, kit):
    """The kind of the program that is built for just these sources; None where none is."""
    return next((kind for kind in KINDS if is_built(kind, name, kit)), None)


def found(name):
    """The kind of the program at hand. It is built where there is none, and noted for the script."""
    with held(name, lambda: tried.say(name, "another run builds it; waiting for its end")):
        before = listing(name)
        kit = kit_line()
        kind = kind_at_hand(name, kit)
        if kind is None:
            tried.build(name)
            kind = TRIED
        after = listing(name)
        if of_sources(before) == of_sources(after):
            replace_text(os.path.join(OUT, f"{name}.at_hand"), f"{kind}\n{after}")
    return kind


def program_at_hand(name):
    """The path of the program that bin/NAME runs. It is built where there is none."""
    return path_of(found(name), name)


def cut_off(*_):
    raise KeyboardInterrupt


def main(words):
    signal.signal(signal.SIGTERM, cut_off)
    signal.signal(signal.SIGHUP, cut_off)
    builds = words[:1] != ["--unbuilt"]
    names = words if builds else words[1:]
    if len(names) != 1 or names[0] not in PROGRAMS:
        print(__doc__)
        return 0 if words == ["--help"] else STATUS
    try:
        kind = found(names[0]) if builds else kind_at_hand(names[0], kit_line())
    except Stopped as stop:
        sys.stderr.write(stop.written)
        tried.say(names[0], stop.why)
        return STATUS
    except KeyboardInterrupt:
        tried.say(names[0], "cut off; started again, it builds anew")
        return CUT_OFF
    if kind is None:
        return STATUS
    # In one piece, since bin/test lets some write at once.
    sys.stdout.write(f"{kind} {path_of(kind, names[0])}\n")
    return 0


if __name__ == "__main__":
    sys.exit(main(sys.argv[1:]))
