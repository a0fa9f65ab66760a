"""The programs that the suites run: those at hand, proved or tried, as bin/pcom and bin/pint run them."""

import os
import sys

TOP = os.path.dirname(os.path.dirname(os.path.abspath(__file__)))
sys.path.insert(0, os.path.join(TOP, "bin"))

from at_hand import program_at_hand
from programs import MAIN_PROGRAMS, Stopped


def add_options(parser, *names):
    """Adds to a command's words an option for each program, which names another one than that at hand."""
    for name in names:
        parser.add_argument(option_of(name), metavar="PATH", help=f"another program than the {name} at hand")


def option_of(name):
    return "--" + name.replace("_", "-")


def chosen(given, *names):
    """The paths of the programs, by name: those that the words of the command name, else those at hand. One that isn't
    there ends this."""
    found = {}
    for name in names:
        path = getattr(given, name)
        try:
            found[name] = os.path.abspath(path) if path else program_at_hand(name)
        except Stopped as stop:
            sys.exit(f"{stop.written}{name}: {stop.why}\n0 passed, 1 failed")
        if not os.access(found[name], os.X_OK):
            sys.exit(f"there is no program at {found[name]}\n0 passed, 1 failed")
    return found
