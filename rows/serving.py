"""A running service, `album serve`, and connections to it, for the rows."""
import json
import os
import pathlib
import re
import resource
import signal
import socket
import struct
import subprocess
import tempfile
import threading

SECONDS = 60  # how long a service may run, and how long one wait may take
MOMENT = rb"\d{4}-\d\d-\d\dT\d\d:\d\d:\d\d\.\d{3}Z"
RESET = struct.pack("ii", 1, 0)  # linger for no time: what is not sent is dropped, and the other side gets a reset
NOTHING_NOTED = b'{"alarms":[0,0],"audits":[0,0]}\n'  # what a service prints at its end that has noted nothing


class Differs(Exception):
    """The service did something else than it has to."""


def want(wanted, got, what):
    if wanted != got:
        raise Differs(f"{what} is {got!r}, and {wanted!r} is wanted")


def undated(said):
    """The lines without the moment that each has to begin with, in the order of their bytes: connections that end at
    once have no order."""
    lines = said.splitlines(keepends=True)
    for line in lines:
        want(True, re.match(MOMENT + b" ", line) is not None, f"that {line!r} begins with a moment")
    return b"".join(sorted(re.sub(MOMENT + b" ", b"", line, count=1) for line in lines))


def untimed(notes):
    """The lines of an audit file without the moment that each has to have before its last key."""
    lines = notes.splitlines(keepends=True)
    for line in lines:
        want(True, re.search(b',"time":"' + MOMENT + b'","who":', line) is not None, f"that {line!r} has a moment")
    return re.sub(b'"time":"' + MOMENT + b'",', b"", notes)


class Ports:
    """Which of the ports this process may take, where several processes run rows: none takes one that another has found
    free, and has not taken yet."""

    def __init__(self):
        self.take(0, 1)

    def take(self, number, count):
        """Takes the ports of this number, of so many processes."""
        self.number, self.count = number, count

    def has(self, port):
        # (the system may prefer odd ports, or even ones, so pairs are dealt)
        return port // 2 % self.count == self.number


PORTS = Ports()


def free_port():
    """A port that nobody has."""
    while True:
        with socket.socket() as any_port:
            any_port.bind(("127.0.0.1", 0))
            port = any_port.getsockname()[1]
        if PORTS.has(port):
            return port


class Service:
    """A running service, which is killed where it is left before its end. It may have further words on its command
    line, an input that doesn't end with the opening, so many files and bytes of memory and of a file at most,
    a file for what it says, and further settings in its environment."""

    def __init__(self, program, opening, conns, *words, goes_on=False, files=None, memory=None, size=None, errors=None,
                 settings=None):
        self.port = free_port()
        self.errors = tempfile.TemporaryFile() if errors is None else errors

        def limit():
            if size is not None:
                # A write beyond the size fails, and doesn't end the process.
                signal.signal(signal.SIGXFSZ, signal.SIG_IGN)
            for what, most in ((resource.RLIMIT_NOFILE, files), (resource.RLIMIT_AS, memory),
                               (resource.RLIMIT_FSIZE, size)):
                if most is not None:
                    resource.setrlimit(what, (most, most))

        with tempfile.TemporaryFile() as lines:
            lines.write(opening)
            lines.seek(0)
            self.run = subprocess.Popen([program, "serve", str(self.port), "--conns", str(conns), *words],
                                        stdin=subprocess.PIPE if goes_on else lines, stdout=subprocess.PIPE,
                                        stderr=self.errors, preexec_fn=limit, env={**os.environ, **(settings or {})},
                                        restore_signals=size is None)
        if goes_on:
            self.run.stdin.write(opening)
            self.run.stdin.flush()
        self.clock = threading.Timer(SECONDS, self.run.kill)
        self.clock.start()

    def __enter__(self):
        try:
            want(b'{"answer":"serving","port":%d}\n' % self.port, self.run.stdout.readline(), "the first line")
        except Differs:
            self.__exit__()
            raise
        return self

    def __exit__(self, *_):
        self.clock.cancel()
        self.run.kill()
        self.run.wait()
        self.run.stdout.close()
        if self.run.stdin is not None:
            self.run.stdin.close()
        self.errors.close()

    def said(self):
        """What is on standard error by now."""
        self.errors.seek(0)
        return self.errors.read()

    def end(self, printed, said, is_dated=False):
        """Waits for its end, with what it prints, and one of the texts that it may say, with a moment in each line."""
        want(printed, self.run.stdout.read(), "the end")
        want(0, self.run.wait(SECONDS), "the status")
        errors = undated(self.said()) if is_dated else self.said()
        want(errors if errors in said else said[0], errors, "standard error")


class Connection:
    """A connection to the service, which sends pieces of at most so many bytes, and may have room for few."""

    def __init__(self, port, size, room=None):
        self.socket = socket.socket()
        self.socket.settimeout(SECONDS)
        if room is not None:
            self.socket.setsockopt(socket.SOL_SOCKET, socket.SO_RCVBUF, room)
        self.socket.connect(("127.0.0.1", port))
        self.socket.setsockopt(socket.IPPROTO_TCP, socket.TCP_NODELAY, 1)
        self.lines = self.socket.makefile("rb")
        self.size = size
        self.is_open = True

    def send(self, data):
        for start in range(0, len(data), self.size):
            self.socket.sendall(data[start:start + self.size])

    def answer(self):
        return self.lines.readline()

    def ask(self, asked):
        """What is answered to a line."""
        self.send((json.dumps(asked) + "\n").encode())
        return json.loads(self.answer())

    def end(self):
        if self.is_open:
            self.socket.shutdown(socket.SHUT_WR)
            self.is_open = False

    def finish(self):
        """Ends, and has to be closed with nothing more said."""
        self.end()
        want(b"", self.answer(), "what is said last")
        self.close()

    def breaks(self):
        self.socket.setsockopt(socket.SOL_SOCKET, socket.SO_LINGER, RESET)
        self.close()

    def close(self):
        self.lines.close()
        self.socket.close()


def joined(lines):
    return "".join(f"{line}\n" for line in lines).encode()


def wrong_of(hold, *given):
    """What is wrong with a talk, if anything is."""
    try:
        hold(*given)
    except (Differs, OSError, ValueError, KeyError, subprocess.SubprocessError, threading.BrokenBarrierError) as error:
        return str(error) if isinstance(error, Differs) else repr(error)
    return None


def held(program, fact):
    """What is wrong with a fact of the program, if anything is."""
    return wrong_of(fact, program)


def in_folder(program, fact, *given):
    """Holds a fact of the program in a folder of its own."""
    with tempfile.TemporaryDirectory(prefix="album-row-") as folder:
        fact(program, pathlib.Path(folder), *given)


def held_in_folder(program, fact):
    """What is wrong with a fact that has a folder of its own, if anything is."""
    return wrong_of(in_folder, program, fact)


def rows_of(kind, facts, check=held):
    """The rows of these facts, which have names: the name of each, how it is run on a program, and what it is."""
    for name, fact in facts.items():
        yield f"{kind}: {name}", check, fact
