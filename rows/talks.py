"""Talks with a running service. rows/serve/NAME.txt has them, many a file, parted by empty lines.

The first line of a talk is its name, the second one how the service is started: `serve --conns N < OPENING`. The
opening is a file next to the talk; where none is named, it is the lines that follow. Then, a line each, in order:

    amy> LINE       amy sends the line; amy is a connection, which is made where it is first named
    amy| TEXT       she sends the text without a newline
    amy* N TEXT     she sends a line of N bytes, the text and then spaces
    amy~ 20 0a      she sends these bytes
    amy< LINE       this is what she is answered next
    amy ends        she sends no more
    amy is closed   the service has closed her connection, with nothing more said
    amy breaks      she breaks her connection off
    ! LINE          at the end the service has said this on standard error
    = LINE          at the end it prints this

Lines that are sent one after another go out in one piece, and each talk is held once more with each byte sent by
itself. At its end all connections end, in the order in which they were made, and each has to be closed with nothing
more said."""
import contextlib
import pathlib
import re

from blocks import blocks
from serving import Connection, Service, joined, want, wrong_of

TALKS = pathlib.Path(__file__).resolve().parent / "serve"
STARTED = re.compile(r"serve --conns (\d+)(?: < (\S+))?")
STEP = re.compile(r"(\w+)(?:([>|*~<])(?: (.*))?| (ends|is closed|breaks))")
SENDS = (">", "|", "*", "~")
ONE_PIECE, BYTE_BY_BYTE = 1 << 20, 1


class Talk:
    """A talk of a file: how the service is started, and what is said."""

    def __init__(self, lines, folder):
        start = STARTED.fullmatch(lines[0])
        if start is None:
            raise ValueError(f"no start of a talk: {lines[0]}")
        self.conns, name = int(start[1]), start[2]
        rest = [line for line in lines[1:] if not line.startswith(("= ", "! "))]
        opening = [line for line in rest if line.startswith("{")]
        self.opening = (folder / name).read_bytes() if name else joined(opening)
        self.steps = steps_of(rest[len(opening):])
        self.printed = joined(line[2:] for line in lines if line.startswith("= "))
        self.errors = joined(line[2:] for line in lines if line.startswith("! "))

    def hold(self, program, size):
        """Holds the talk, in pieces of at most so many bytes."""
        with Service(program, self.opening, self.conns) as service, contextlib.ExitStack() as stack:
            talkers = {}
            for name, verb, what in self.steps:
                if name not in talkers:
                    talkers[name] = Connection(service.port, size)
                    stack.callback(talkers[name].close)
                act(talkers, name, verb, what)
            for connection in talkers.values():
                connection.finish()
            service.end(self.printed, [self.errors])


def steps_of(lines):
    """Who does what, in order, with which bytes. What is sent at once is one step."""
    steps = []
    for line in lines:
        step = STEP.fullmatch(line)
        if step is None:
            raise ValueError(f"no step of a talk: {line}")
        name, verb, text = step[1], step[2] or step[4], step[3] or ""
        if verb not in SENDS:
            steps.append((name, verb, text.encode() + b"\n"))
        elif steps and steps[-1][:2] == (name, "sends"):
            steps[-1] = (name, "sends", steps[-1][2] + sent_by(verb, text))
        else:
            steps.append((name, "sends", sent_by(verb, text)))
    return steps


def sent_by(verb, text):
    """The bytes that a line of a talk sends."""
    if verb == "~":
        return bytes.fromhex(text)
    if verb == "*":
        count, _, line = text.partition(" ")
        return line.encode().ljust(int(count)) + b"\n"
    return text.encode() + (b"\n" if verb == ">" else b"")


def act(talkers, name, verb, what):
    """One step of a talk."""
    if verb == "sends":
        talkers[name].send(what)
    elif verb == "<":
        want(what, talkers[name].answer(), f"an answer to {name}")
    elif verb == "ends":
        talkers[name].end()
    elif verb == "is closed":
        talkers.pop(name).finish()
    else:
        talkers.pop(name).breaks()


def held(program, row):
    """What is wrong with a talk that is held in pieces of at most so many bytes, if anything is."""
    talk, size = row
    return wrong_of(talk.hold, program, size)


def checks():
    """Each row: its name, how it is run on a program, and what it is."""
    for path in sorted(TALKS.glob("*.txt")):
        for name, lines in blocks(path):
            talk = Talk(lines, TALKS)
            yield f"serve/{name}", held, (talk, ONE_PIECE)
            yield f"serve/{name}, byte by byte", held, (talk, BYTE_BY_BYTE)
