"""What pwhy tells of open sites, where it is built."""

import os
import subprocess

from pcom_lines import message_of

SECONDS = 60
MARGIN = b"  "


def pwhy():
    """The path of the program: that which PWHY names, or beside the pcom at hand the one that is built of just these
    sources. None where there is none."""
    named = os.environ.get("PWHY")
    if named or os.environ.get("PCOM"):
        return named
    # A package names its pcom, and has no sources.
    from programs import KINDS, is_built, kit_line, path_of

    kind = next((kind for kind in KINDS if is_built(kind, "pwhy", kit_line())), None)
    return kind and path_of(kind, "pwhy")


def reasons(files, most):
    """What is told of the first open sites of a source, by their lines and columns; None where no program tells it."""
    program = pwhy()
    if not program or not files.source:
        return None
    given = ["--cert", files.certificate] if files.certificate else []
    try:
        ran = subprocess.run([program, *given, "--", files.source], capture_output=True, timeout=SECONDS)
    except (OSError, ValueError, subprocess.SubprocessError):
        return None
    told, said = {}, None
    for line in ran.stderr.split(b"\n"):
        message = message_of(line)
        if message and message.kind == "possible error":
            if len(told) == most:
                break
            said = told.setdefault((message.line, message.column), [])
        elif said is not None and line.startswith(MARGIN):
            said.append(line.strip().decode("utf-8", "replace"))
    return told
