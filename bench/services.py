"""What is asked over TCP, `album serve` and Redis, and the program that sends requests to them."""
import contextlib
import os
import shutil
import socket
import subprocess
import sys
import tempfile
import time
from typing import Callable, NamedTuple

import pictures
from measure import ALBUM, HERE, finish, free_port, processor_time
from pictures import ASKERS

PATIENCE = 60


class Figures(NamedTuple):
    """What came of a run."""
    a_second: float
    half: float  # microseconds that half of the answers took at most
    most: float  # and 99 of 100
    longest: float  # and all
    stolen: float  # percent of the processors' time that the host took


class Peer(NamedTuple):
    """Another server, which is asked the same as the service."""
    name: str
    port: int
    fill: Callable  # puts the store of pictures.py into it, in place of what is there
    files: Callable  # writes what each connection sends: of a folder, requests and how many connections, the paths
    asking: Callable  # a connection, as a context: of a request and who asks, the answer without a sign before it
    words: tuple = ()  # further ones for the program that sends requests


def build(folder):
    """The program that sends requests."""
    path = os.path.join(folder, "load")
    source = os.path.join(HERE, "serve_load.c")
    subprocess.run(["gcc", "-std=gnu11", "-O2", "-pthread", "-o", path, source], check=True)
    return path


def connect(port):
    """A connection as a file; where there is no one yet, it waits for one."""
    until = time.monotonic() + PATIENCE
    while True:
        try:
            talk = socket.create_connection(("127.0.0.1", port), PATIENCE)
            talk.setsockopt(socket.IPPROTO_TCP, socket.TCP_NODELAY, 1)
            return talk.makefile("rwb")
        except ConnectionRefusedError:
            if time.monotonic() > until:
                raise
            time.sleep(0.01)


def answer_to(talk, line):
    """The line that answers these bytes."""
    talk.write(line)
    talk.flush()
    return talk.readline()


@contextlib.contextmanager
def computing(count):
    """So many processes that only compute."""
    running = [subprocess.Popen([sys.executable, "-c", "while True: pass"]) for _ in range(count)]
    try:
        yield
    finally:
        for process in running:
            process.kill()
            process.wait()


@contextlib.contextmanager
def service(opening, connections, more=(), tool=(), program=ALBUM, errors=None):
    """A service of the opening's lines and so many connections, as its process and its port. It has to end well once
    they have. `more` are further words for the program, `tool` words before it; `errors` takes its standard error."""
    port = free_port()
    words = [*tool, program, "serve", str(port), "--conns", str(connections), *more]
    with tempfile.TemporaryFile() as lines:
        lines.write("".join(opening).encode())
        lines.seek(0)
        process = subprocess.Popen(words, stdin=lines, stdout=subprocess.PIPE, stderr=errors)
    with process:
        try:
            if b'"serving"' not in process.stdout.readline():
                sys.exit("bench: the service doesn't begin")
            yield process, port
            finish(process)
        finally:
            process.kill()


@contextlib.contextmanager
def durable(opening, program=ALBUM, folder=None):
    """A service of the opening's lines that keeps what it writes in this folder, or one of its own, as its process and
    its port."""
    with tempfile.TemporaryDirectory() as own, lasting(opening, program, "--data", folder or own) as service:
        yield service


@contextlib.contextmanager
def lasting(opening, program, *options):
    """A service of the opening's lines whose epochs turn by these options, as its process and its port. It ends by no
    number of connections, so it is killed."""
    port = free_port()
    with tempfile.TemporaryFile() as lines:
        lines.write("".join(opening).encode())
        lines.seek(0)
        words = [program, "serve", str(port), *options]
        with subprocess.Popen(words, stdin=lines, stdout=subprocess.PIPE) as process:
            try:
                if b'"serving"' not in process.stdout.readline():
                    sys.exit("bench: the service doesn't begin")
                yield process, port
            finally:
                process.kill()


@contextlib.contextmanager
def redis(commands, is_durable=False):
    """A Redis that has the store of these commands and the script, as its port and the script's name; None where there
    is no Redis. A durable one answers no write before it is on the disk."""
    program = shutil.which("redis-server")
    if program is None:
        yield None
        return
    port = free_port()
    kept = ["--appendonly", "yes", "--appendfsync", "always"] if is_durable else ["--appendonly", "no"]
    words = [program, "--port", str(port), "--bind", "127.0.0.1", "--save", "", *kept]
    with tempfile.TemporaryDirectory() as folder:
        with subprocess.Popen(words, cwd=folder, stdout=subprocess.DEVNULL) as server:
            try:
                yield port, fill(port, commands)
            finally:
                server.terminate()


def fill(port, commands):
    """Puts the store and the script into Redis, and gives the script's name."""
    with connect(port) as talk:
        for made in (pictures.command("FLUSHALL"), *commands):
            if answer_to(talk, made)[:1] not in b"+:":
                sys.exit("bench: Redis doesn't take the store")
        with open(os.path.join(HERE, "serve.lua")) as script:
            answer_to(talk, pictures.command("SCRIPT", "LOAD", script.read()))
        return talk.readline().strip().decode()


def redis_peer(port, script):
    """A Redis that has this script."""
    @contextlib.contextmanager
    def asking():
        with connect(port) as talk:
            yield lambda request, who: answer_to(talk, request.script(script, who)).removeprefix(b"+")

    return Peer("redis", port, lambda: fill(port, pictures.commands()),
                lambda folder, requests, connections: redis_files(folder, requests, connections, script), asking)


def split(folder, requests, connections, greetings, spell, wanted):
    """Writes what each connection sends into a file of its own: what it says first, and its share of the requests, each
    with how its answer has to begin."""
    paths = []
    for n in range(connections):
        who = ASKERS[n % len(ASKERS)]
        paths.append(os.path.join(folder, "requests%d" % n))
        with open(paths[-1], "wb") as file:
            share = [(wanted(request), spell(request, who)) for request in requests[n::connections]]
            for prefix, text in greetings(who) + share:
                file.write(b"%d %s\n%s" % (len(text), prefix.encode(), text))
    return paths


def sent(load, port, seconds, paths, words=()):
    """Sends the requests of the files, and gives the figures of that. `words` are further ones for the program."""
    stolen, passed = processor_time()
    run = subprocess.run([load, *words, str(port), str(seconds), *paths], stdout=subprocess.PIPE, check=True)
    stolen_then, passed_then = processor_time()
    count, took, half, most, longest = map(float, run.stdout.split())
    a_second = count / took if took > 0 else 0.0
    return Figures(a_second, half, most, longest, 100 * (stolen_then - stolen) / max(passed_then - passed, 1))


def album_files(folder, requests, connections):
    """A write may be answered `aborted` by a checked store, so of its answer the sign alone is wanted."""
    greetings = lambda who: [('{"answer":"hello"', pictures.line({"who": who}).encode())]
    return split(folder, requests, connections, greetings, lambda request, _: request.talk(),
                 lambda request: '{"answer":"' + (request.answer() if request.verb == "read" else ""))


def redis_files(folder, requests, connections, sha):
    return split(folder, requests, connections, lambda _: [("+PONG", pictures.command("PING"))],
                 lambda request, who: request.script(sha, who), lambda request: "+" + request.answer())
