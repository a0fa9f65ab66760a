"""Runs pcom and reads what it writes to standard error, line by line, for bin/explain and editors/pcom-lines."""

import os
import re
import selectors
import signal
import subprocess
from typing import NamedTuple

TOP = os.path.dirname(os.path.dirname(os.path.realpath(__file__)))
OUTPUT, ERRORS = 1, 2
PIECE = 65536
TROUBLE = 3

PLACED = re.compile(
    rb"(\d{1,18}):(\d{1,18}): ((?:possible error|error|input)(?=:)|(?:certificate )?refused(?= )):? (.+)"
)
CLAIMED = re.compile(rb"certificate:(\d{1,18}): refused (\S+)")
PLAIN = re.compile(rb"(refused|certificate refused|machine fault) (\S+)")
PATH = re.compile(rb"(cannot read|cannot write) (.*)")
TROUBLES = (b"no memory",)
STOPS = (b"store full", b"write failed", b"read failed", b"budget used up")


class Message(NamedTuple):
    """What a line says: a code or a name, and the place, where it has one. A line of a certificate has no column."""

    name: str
    # What stands before the name, as `possible error`; nothing where the name is all of the line.
    kind: str = ""
    line: int = 0
    column: int = 0
    is_of_certificate: bool = False
    # The path that it names.
    path: bytes = None
    # Whether it tells how a run ended; so all output comes before it.
    is_stop: bool = False


class Files(NamedTuple):
    """The files that the words of pcom name, None for one that they don't."""

    source: str = None
    certificate: str = None


def message_of(line):
    """The message of a line; None where it is no refusal, open site, error or stop."""
    text = line.rstrip(b"\n")
    if text in TROUBLES or text in STOPS:
        return Message(name_of(text), is_stop=text in STOPS)
    found = PLACED.fullmatch(text)
    if found:
        place = int(found[1]), int(found[2])
        return Message(name_of(found[4]), name_of(found[3]), *place, is_stop=found[3] in (b"error", b"input"))
    found = CLAIMED.fullmatch(text)
    if found:
        return Message(name_of(found[2]), "refused", int(found[1]), is_of_certificate=True)
    found = PLAIN.fullmatch(text)
    if found:
        return Message(name_of(found[2]), name_of(found[1]), is_stop=found[1] == b"machine fault")
    found = PATH.fullmatch(text)
    return Message(name_of(found[1]), path=found[2]) if found else None


def name_of(text):
    return text.decode("utf-8", "replace")


def files_of(words):
    """The files that these words of pcom name."""
    values, certificate = [], None
    rest = list(words)
    while rest:
        word = rest.pop(0)
        if word == "--":
            values += rest
            break
        if word == "--cert":
            certificate = rest.pop(0) if rest else None
        elif word.startswith("--cert="):
            certificate = word[len("--cert=") :]
        elif word == "--write-cert":
            del rest[:1]
        elif word == "-" or not word.startswith("-"):
            values.append(word)
    return Files(values[0] if values else None, certificate)


def program():
    """The program to run: bin/pcom, or what PCOM names."""
    return os.environ.get("PCOM") or os.path.join(TOP, "bin", "pcom")


def run_program(words, told):
    """Runs pcom with these words and gives the status that a shell would. Its output is handed on as it is; of each
    line of standard error `told` gives the bytes to write there."""
    try:
        output = subprocess.PIPE if is_one_stream() else None
        # A source may be a file that this process was given open, as a shell's <(..) is.
        ran = subprocess.Popen([program(), *words], stdout=output, stderr=subprocess.PIPE, close_fds=False)
    except (OSError, ValueError) as error:
        Stream(ERRORS).put(f"cannot run {program()}: {error}\n".encode("utf-8", "replace"))
        return TROUBLE
    relay = Relay(ran, told)
    try:
        relay.follow()
        status = ran.wait()
    except KeyboardInterrupt:
        # What pcom still writes is handed on; a second interrupt ends this process.
        signal.signal(signal.SIGINT, signal.SIG_DFL)
        ran.terminate()
        relay.follow()
        ran.wait()
        status = -signal.SIGINT
    return status if status >= 0 else 128 - status


def is_one_stream():
    """Whether standard output and standard error go to one place, such as a terminal. Only then their order shows, and
    the output has to come through here, for a line to stand where pcom wrote it."""
    try:
        output, errors = os.fstat(OUTPUT), os.fstat(ERRORS)
    except OSError:
        return False
    return (output.st_dev, output.st_ino) == (errors.st_dev, errors.st_ino)


class Stream:
    """A stream of this process. One that fails takes no more."""

    def __init__(self, number):
        self.number = number
        self.has_failed = False

    def put(self, text):
        try:
            while text and not self.has_failed:
                text = text[os.write(self.number, text) :]
        except OSError:
            self.has_failed = True


class Relay:
    """Hands on what a run of pcom writes."""

    def __init__(self, ran, told):
        self.ran = ran
        self.told = told
        self.output = Stream(OUTPUT)
        self.errors = Stream(ERRORS)
        # The beginning of a line that hasn't come to its end, and the lines that wait for the end of the output.
        self.begun = b""
        self.waiting = []

    def follow(self):
        with selectors.DefaultSelector() as selector:
            for pipe in (self.ran.stdout, self.ran.stderr):
                if pipe and not pipe.closed:
                    selector.register(pipe, selectors.EVENT_READ)
            while selector.get_map():
                self.step(selector)
        self.tell([*self.waiting, self.begun])

    def step(self, selector):
        """Reads a piece. What was written to standard error before some output is read before it."""
        ready = [key.fileobj for key, _ in selector.select()]
        pipe = self.ran.stderr if self.ran.stderr in ready else ready[0]
        piece = os.read(pipe.fileno(), PIECE)
        taken = self.take_lines(piece) if pipe is self.ran.stderr else self.take_output(piece)
        if not piece or not taken:
            # pcom finds its stream closed as this process does.
            selector.unregister(pipe)
            pipe.close()

    def take_output(self, piece):
        self.output.put(piece)
        return not self.output.has_failed

    def take_lines(self, piece):
        *lines, self.begun = (self.begun + piece).split(b"\n")
        now = []
        for line in lines:
            message = message_of(line)
            (self.waiting if message and message.is_stop else now).append(line + b"\n")
        self.tell(now)
        return not self.errors.has_failed

    def tell(self, lines):
        self.errors.put(b"".join(self.told(line) for line in lines if line))
