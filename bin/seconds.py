"""The seconds that a check took, by function and by kind of module: what `bin/census --seconds` prints.

The kit saves each module that it has checked in a file of its own. So the times of these files tell how long each took,
where one job checked the crate from nothing: `rm -r crates/NAME/out/incremental; bin/prove --check NAME`. A module is
named by the function, by what it says of it and by further words."""

import os
import re
from collections import Counter
from typing import NamedTuple

TOP = os.path.dirname(os.path.dirname(os.path.realpath(__file__)))
ENDING = ".oantt"
# What a module says of a function: which types are live at each step, the proof, and so on.
KINDS = "Lts Proof Tie Layout Answers Reads Kinds Named Met Code Mir Invariants Given Goals".split()
KIND = re.compile(rf"\.({'|'.join(KINDS)})\b")
# The modules that are of no function: definitions, lemmas and what declares the crate.
DEFINITIONS, LEMMAS, OTHER = "definitions", "lemmas", "other"
# A time between two files that is longer than this is one between two checks.
LONGEST = 300


class Module(NamedTuple):
    """A module that was checked."""

    crate: str
    # The function; none where it is of none.
    function: str
    kind: str
    seconds: float


def kept(crate):
    """The times and the names of the modules that a check of a crate has kept, in the order in which it kept them."""
    found = []
    for at, _, names in os.walk(os.path.join(TOP, "crates", crate, "out", "incremental")):
        found += [(os.stat(os.path.join(at, name)).st_mtime, name) for name in names if name.endswith(ENDING)]
    return sorted(found)


def module_of(crate, name, seconds):
    """What the name of a module's file says."""
    text = name[: -len(ENDING)].removesuffix(".decls")
    for part, kind in (("specs", DEFINITIONS), ("proofs", LEMMAS)):
        if text.startswith(f"Rattle-{crate}-{part}."):
            text, other = text[len(f"Rattle-{crate}-{part}.") :], kind
            break
    else:
        text, other = text.removeprefix(f"Rattle-{crate}").lstrip("-."), OTHER
    found = KIND.search(text)
    if found:
        return Module(crate, text[: found.start()], found[1], seconds)
    return Module(crate, "", other, seconds)


def modules(crate):
    """The modules of a crate with the seconds of each; of the first none is known."""
    files = kept(crate)
    for (before, _), (after, name) in zip(files, files[1:]):
        if after - before < LONGEST:
            yield module_of(crate, name, after - before)


def summed(found, of):
    """The seconds by what `of` says of a module, most first."""
    seconds = Counter()
    for module in found:
        seconds[of(module)] += module.seconds
    return seconds.most_common()


def shown(crates, most):
    """The lines to print: the dearest functions, then the seconds by kind and by crate."""
    found = [module for crate in crates for module in modules(crate)]
    functions = summed((module for module in found if module.function), lambda it: (it.crate, it.function))
    yield f"{'seconds':>8}  function"
    for (crate, function), seconds in functions[:most]:
        kinds = summed((it for it in found if (it.crate, it.function) == (crate, function)), lambda it: it.kind)
        yield f"{seconds:8.1f}  {crate}::{function.replace('.', '::')} ({told(kinds[:3])})"
    whole = sum(module.seconds for module in found) or 1
    yield f"\n{'seconds':>8}  kind"
    for kind, seconds in summed(found, lambda it: it.kind):
        yield f"{seconds:8.1f}  {kind}, {100 * seconds / whole:.0f} %"
    yield f"\n{'seconds':>8}  crate"
    for crate, seconds in summed(found, lambda it: it.crate):
        yield f"{seconds:8.1f}  {crate}"


def told(kinds):
    return ", ".join(f"{kind} {seconds:.1f}" for kind, seconds in kinds)
