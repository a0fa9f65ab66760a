"""In which order bin/prove proves crates, and how long that will take: by the seconds of bin/prove_seconds.txt, and by
those that were measured here, which stand over them."""

import heapq
import json
import os
import re

from programs import OUT, TOP, files_below, replace_text, rows_of, text_of

MEASURED = os.path.join(OUT, "seconds.json")
TABLE = os.path.join(TOP, "bin", "prove_seconds.txt")


def tabled():
    """The seconds of the table, by crate."""
    rows = [line.partition("#")[0].split() for line in text_of(TABLE).splitlines()]
    return {row[0]: float(row[1]) for row in rows if len(row) == 2}


def measured():
    """The seconds of the processor that were measured here, by crate."""
    try:
        return {name: dict(seconds) for name, seconds in json.loads(text_of(MEASURED)).items()}
    except (ValueError, TypeError, AttributeError):
        return {}


def by_size(name):
    """The seconds that a crate's early returns let one expect."""
    folder = os.path.join(TOP, "crates", name, "src")
    returns = sum(len(re.findall(r"\?(?=[;,.)\s])", text_of(path))) for path in files_below(folder))
    return 20 + 1.3 * returns


class Plan:
    """The crates to prove, in an order: of those that can begin, the one with the longest chain above it."""

    def __init__(self, sources, wanted):
        self.names = set(wanted).union(*[sources.below(name) for name in wanted])
        self.below = {name: sources.below(name) for name in self.names}
        known = {**tabled(), **{name: float(seconds["processor"]) for name, seconds in measured().items()}}
        self.seconds = {name: known[name] if name in known else by_size(name) for name in self.names}
        self.chain = {}
        for name in sorted(self.names, key=lambda name: -len(self.below[name])):
            above = [self.chain[other] for other in self.chain if name in sources.uses[other]]
            self.chain[name] = self.seconds[name] + max(above, default=0)

    def first(self, left, proved):
        """The crate to begin next; None where each one waits for another."""
        ready = [name for name in left if self.below[name] <= proved]
        return max(ready, key=lambda name: (self.chain[name], name), default=None)

    def time_left(self, lanes, proved, running, ratio):
        """The seconds until all is proved, where a proof takes ratio times what is foretold; running: for how long."""
        clock, proved = 0, set(proved)
        left = self.names - proved - set(running)
        ends = [(max(ratio * self.seconds[name] - since, 1), name) for name, since in running.items()]
        heapq.heapify(ends)
        while left or ends:
            name = self.first(left, proved) if len(ends) < lanes else None
            if name:
                left.remove(name)
                heapq.heappush(ends, (clock + ratio * self.seconds[name], name))
            else:
                clock, name = heapq.heappop(ends)
                proved.add(name)
        return clock


def note(name, seconds):
    """Keeps the seconds that a crate took, by the clock and of the processor."""
    replace_text(MEASURED, json.dumps({**measured(), name: seconds}, indent=1) + "\n")


def print_table():
    """Prints the seconds by crate, those measured here over those of the table."""
    seconds = {**tabled(), **{name: found["processor"] for name, found in measured().items()}}
    for name in rows_of(TOP):
        if name in seconds:
            print(name, round(seconds[name]))
