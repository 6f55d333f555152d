"""Who locks others out of a running service: an address with many connections, connections that take all files and say
nothing, and a service that can open no session any more. And notes on standard error, among other lines."""
import json
import os
import re
import socket
import subprocess
import threading
import time

from audits import AUDITED, noted_read
from options import ALLOWED, READ, talker
from serving import (MOMENT, NOTHING_NOTED, SECONDS, Connection, Differs, Service, free_port, held_in_folder,
                     rows_of, undated, untimed, want)
from strangers import CLOSED, THREADS, first_answer, is_open, seconds_of, until_eof
from talks import ONE_PIECE

FILES = 64
CROWDED = b"album: %s has as many connections as it may have: whoever comes from there is refused\n"
GAVE_WAY = rb"album: connection (\d+): gave way to a newcomer\n"
NO_SESSION = b"album: no session could be opened for a minute, and the service ends\n"
OUT_OF_MEMORY = {"name": "OutOfMemory", "refused": 1}
EVERYBODY = str(2 ** 32 - 1)
MINUTE = 60


def comes_from(service, address):
    """A connection from this address of the machine's."""
    connection = Connection.__new__(Connection)
    connection.socket = socket.socket()
    connection.socket.settimeout(SECONDS)
    connection.socket.bind((address, 0))
    connection.socket.connect(("127.0.0.1", service.port))
    connection.socket.setsockopt(socket.IPPROTO_TCP, socket.TCP_NODELAY, 1)
    connection.lines = connection.socket.makefile("rb")
    connection.size, connection.is_open = ONE_PIECE, True
    return connection


def says_hello(connection, who="bo@users"):
    want("hello", connection.ask({"who": who}).get("answer"), "what a newcomer is answered")
    return connection


def is_refused(connection):
    """It is told that it isn't let in, and closed."""
    want(CLOSED, first_answer(connection), "what one too many is answered")
    want(b"", connection.answer(), "what follows it")
    connection.close()


def soon(act, until=5):
    """Does it again until it does well: who has just left is gone after a moment."""
    end = time.monotonic() + until
    while True:
        try:
            return act()
        except (Differs, OSError, ValueError):
            if time.monotonic() > end:
                raise
            time.sleep(0.02)


def at_once_of_an_address(program, folder):
    """An address has so many connections at once, those that haven't said who they are too. One more is refused, also
    where the service ends by a number, and doesn't count there. Another address has as many, and when one ends, another
    has its place."""
    data = os.path.join(folder, "data")
    for conns, words, goes_on in ((5, [], False), (65535, ["--until-eof"], True), (65535, ["--data", data], False),
                                  (65535, ["--epochs"], False)):
        with Service(program, ALLOWED, conns, "--per-address", "2", *words, goes_on=goes_on) as service:
            first, silent = says_hello(comes_from(service, "127.0.0.1")), comes_from(service, "127.0.0.1")
            time.sleep(0.1)
            for _ in range(3):
                is_refused(comes_from(service, "127.0.0.1"))
            others = [says_hello(comes_from(service, "127.0.0.2")) for _ in range(2)]
            is_refused(comes_from(service, "127.0.0.2"))
            want("Sea", first.ask(READ)["title"], "a title")
            silent.finish()
            last = soon(lambda: says_hello(comes_from(service, "127.0.0.1")))
            is_refused(comes_from(service, "127.0.0.1"))
            for connection in (first, last, *others):
                connection.finish()
            if goes_on:
                service.run.stdin.close()
                service.end(NOTHING_NOTED, [CROWDED % b"127.0.0.1"], is_dated=True)
            elif not words:
                service.end(NOTHING_NOTED, [b""])


def any_number_of_an_address(program, folder):
    """Where nothing is said, an address has as many as there are files for: all clients of a machine have one."""
    data = os.path.join(folder, "data")
    for words, goes_on in ((["--until-eof"], True), (["--data", data], False), (["--epochs"], False)):
        with Service(program, ALLOWED, 65535, *words, goes_on=goes_on, files=FILES) as service:
            held = [says_hello(comes_from(service, "127.0.0.3")) for _ in range(FILES // 2 + 8)]
            for connection in held:
                connection.finish()


def an_address_that_comes_and_goes(program, _folder):
    """What ends leaves its place, however it ends: well, by a reset, by a fault, or by a refusal. And its memory."""
    with until_eof(program, ALLOWED, "--per-address", "2", "--hello", "1") as service:
        kept = says_hello(comes_from(service, "127.0.0.1"))
        for turn in range(300):
            connection = soon(lambda: says_hello(comes_from(service, "127.0.0.1")))
            is_refused(comes_from(service, "127.0.0.1"))
            if turn % 2:
                connection.breaks()
            else:
                connection.finish()
        for _ in range(3):
            silent = soon(lambda: left_open(comes_from(service, "127.0.0.1")))
            want(b"", first_answer(silent), "what is said to who doesn't say who")
            silent.close()
        want("Sea", kept.ask(READ)["title"], "a title")
        kept.finish()


def left_open(connection):
    """One that is let in, and says nothing."""
    time.sleep(0.05)
    want(True, is_open(connection), "that it is let in")
    return connection


def files_that_give_way(program, folder):
    """Connections that say nothing hold all files. A newcomer is served all the same: the oldest of them gives way, and
    standard error says so. Who has said who it is, is never closed, however old it is."""
    data = os.path.join(folder, "data")
    for words, goes_on in ((["--until-eof"], True), (["--data", data], False), (["--epochs"], False)):
        words += ["--hello", "50", "--per-address", EVERYBODY]
        with Service(program, ALLOWED, 65535, *words, goes_on=goes_on, files=FILES) as service:
            old = talker(service, "eve@users")
            silent = [Connection(service.port, ONE_PIECE) for _ in range(100)]
            for connection in silent:
                connection.send(b"\n" * 3)
            spoke = []
            for _ in range(5):
                took = seconds_of(lambda: spoke.append(talker(service, "bo@users")))
                want(True, took < 5, f"that one who says it is served soon: {took:.1f} s")
            for connection in (old, *spoke):
                want("Sea", connection.ask(READ)["title"], "a title")
            time.sleep(0.2)
            said = undated(service.said()).splitlines(keepends=True)
            numbers = sorted(int(re.fullmatch(GAVE_WAY, line)[1]) for line in said)
            # The oldest is the first that has come after the one that has said who it is.
            want(list(range(2, 2 + len(numbers))), numbers, "who gave way")
            for index, connection in enumerate(silent[:len(numbers)]):
                want(b"", first_answer(connection), f"what is said to number {index + 2}")
            want(True, 100 + 6 - FILES <= len(numbers) <= 100, f"that {len(numbers)} gave way")
            for connection in (old, *spoke, *silent):
                connection.close()


def files_that_the_named_hold(program, _folder):
    """Where all have said who they are, nobody gives way: a newcomer waits until one of them ends. So it does without
    these options, whoever says what."""
    for words, goes_on in ((["--until-eof", "--per-address", EVERYBODY], True), ([], False)):
        with Service(program, ALLOWED, 65535, *words, goes_on=goes_on, files=FILES) as service:
            held, late = [], None
            for _ in range(100):
                connection = Connection(service.port, ONE_PIECE)
                connection.socket.settimeout(1)
                if goes_on:
                    connection.send(b'{"who":"bo@users"}\n')
                    try:
                        want(True, b"hello" in connection.answer(), "a hello")
                    except TimeoutError:
                        late = connection
                        break
                held.append(connection)
            late = late or held.pop()
            want(True, all(map(is_open, held)), "that all are open")
            want(b"", service.said(), "standard error")
            for connection in (*held, late):
                connection.close()


def no_session_for_a_minute(program, folder):
    """Where no session can be opened for a minute, since each newcomer is refused for want of a thread, that is said,
    and the service ends with status 1. What was written is there after a restart."""
    data, allowed = os.path.join(folder, "data"), ALLOWED.replace(b"257", b"2032127")
    retitle = {"ask": {"do": "retitle", "object": "picture/0", "title": "Bay"}}
    with Service(program, allowed, 65535, "--data", data, "--grace", "1", memory=THREADS << 20) as service:
        service.clock.cancel()
        service.clock = threading.Timer(3 * MINUTE, service.run.kill)
        service.clock.start()
        served = [talker(service, "bo@users")]
        want("committed", served[0].ask(retitle)["answer"], "a write")
        while None not in served:
            served.append(one_more(service))
            want(True, len(served) < 1_000, "that threads are spent")
        served.pop()
        # One that is served begins the minute anew.
        time.sleep(MINUTE / 3)
        served.pop().finish()
        served.append(soon(lambda: says_hello(Connection(service.port, ONE_PIECE))))
        began = time.monotonic()
        while service.run.poll() is None and time.monotonic() < began + 2 * MINUTE:
            try:
                one_more(service)
            except (OSError, ValueError):
                pass
            time.sleep(0.5)
        took = time.monotonic() - began
        want(1, service.run.poll(), f"the status after {took:.0f} s")
        want(True, MINUTE - 2 < took < MINUTE + 15, f"that it ends after a minute: {took:.0f} s")
        said = service.said()
        want(True, re.search(MOMENT + b" " + NO_SESSION, said) is not None, f"that {said[-300:]!r} says why")
        want(True, said.endswith(b"album: out of memory\n"), f"that {said[-300:]!r} ends by its fault")
        for connection in served:
            connection.close()
    with Service(program, b"", 65535, "--data", data) as service:
        reader = talker(service, "bo@users")
        want("Bay", reader.ask(READ)["title"], "the title after a restart")
        reader.finish()


def one_more(service):
    """A connection that is served; or none, where it is refused for want of a thread."""
    connection = Connection(service.port, ONE_PIECE)
    connection.send(b'{"who":"bo@users"}\n')
    answer = json.loads(first_answer(connection) or b"{}")
    if answer.get("answer") == "hello":
        return connection
    want(OUT_OF_MEMORY, answer, "what one without a thread is answered")
    connection.close()
    return None


def notes_on_standard_error(program, folder):
    """With --audit - a note is on standard error before its answer, in the form of the file."""
    for words, goes_on in (([], False), (["--until-eof"], True), (["--data", folder], False), (["--epochs"], False)):
        conns = 1 if not words else 65535
        with Service(program, AUDITED, conns, "--audit", "-", *words, goes_on=goes_on) as service:
            reader = talker(service, "bo@users")
            for count in range(1, 4):
                want("served", reader.ask(READ)["answer"], "a read")
                want(noted_read() * count, untimed(service.said()), "standard error before the answer")
            reader.finish()
            if goes_on:
                service.run.stdin.close()
            if goes_on or not words:
                want(b'{"alarms":[0,0],"audits":[3,0]}\n', service.run.stdout.read(), "the end")
                want(0, service.run.wait(SECONDS), "the status")
                want(noted_read() * 3, untimed(service.said()), "standard error")


def notes_among_other_lines(program, _folder):
    """Eight clients have notes written, while figures are printed and connections break: each line is whole, and each
    answer's note is there."""
    with until_eof(program, AUDITED, "--audit", "-", "--stats", "1") as service:
        until, counts = time.monotonic() + 3, []

        def reads(name):
            count = 0
            while time.monotonic() < until:
                connection = Connection(service.port, ONE_PIECE)
                want("hello", connection.ask({"who": name})["answer"], "a hello")
                for _ in range(20):
                    want("served", connection.ask(READ)["answer"], "a read")
                count += 20
                connection.breaks()
            counts.append(count)

        threads = [threading.Thread(target=reads, args=(f"bo{number}@users",)) for number in range(8)]
        for thread in threads:
            thread.start()
        for thread in threads:
            thread.join()
        service.run.stdin.close()
        want(b'{"alarms":[0,0],"audits":[%d,0]}\n' % sum(counts), service.run.stdout.read(), "the end")
        want(0, service.run.wait(SECONDS), "the status")
        seen = {"note": 0, "outcome": 0, "figures": 0, "fault": 0}
        for line in service.said().splitlines(keepends=True):
            seen[kind_of(line)] += 1
        want((sum(counts), sum(counts)), (seen["note"], seen["outcome"]), "how many notes and outcomes there are")
        want(True, seen["figures"] >= 2 and seen["fault"] >= 8, f"that {seen} has all kinds")


def kind_of(line):
    """What a line of standard error is, whole as it has to be."""
    if line.startswith(b"{"):
        row = json.loads(line)
        if "versions" in row:
            return "figures"
        want(True, bool(row["time"] and row["who"] and row["ask"]), f"that {line!r} says when, who and what")
        return "outcome" if "outcome" in row else "note"
    undated(line)
    want(True, line.endswith(b"failed\n"), f"that {line!r} is a fault's line")
    return "fault"


def notes_that_nobody_takes(program, _folder):
    """Where standard error is closed, or takes nothing, a note isn't there, and its request isn't answered. Others are,
    and the service ends in time."""
    words = [program, "serve", "PORT", "--opening", "/dev/stdin", "--audit", "-", "--conns", "1"]
    port = free_port()
    words[2] = str(port)
    run = subprocess.Popen(words, stdin=subprocess.PIPE, stdout=subprocess.PIPE, preexec_fn=lambda: os.close(2))
    try:
        run.stdin.write(AUDITED)
        run.stdin.close()
        run.stdout.readline()
        reader = Connection(port, ONE_PIECE)
        want("hello", reader.ask({"who": "bo@users"})["answer"], "a hello")
        reader.send((json.dumps(READ) + "\n").encode())
        want(b"", reader.answer(), "what is answered")
        want((b"", 1), (run.stdout.read(), run.wait(SECONDS)), "the end")
        reader.close()
    finally:
        run.kill()
        run.wait()
    stalled, out = os.pipe()
    os.set_blocking(out, False)
    try:
        while True:
            os.write(out, b"x" * 4_096)
    except BlockingIOError:
        os.set_blocking(out, True)
    with os.fdopen(out, "wb", 0) as errors:
        with until_eof_with(program, AUDITED, errors, "--audit", "-", "--grace", "1") as service:
            waits, silent = talker(service, "bo@users"), talker(service, "eve@users")
            waits.send((json.dumps(READ) + "\n").encode())
            want("pending", silent.ask({"pending": 0})["answer"], "what another is answered")
            service.run.stdin.close()
            took = seconds_of(lambda: want(1, service.run.wait(SECONDS), "the status"))
            want(True, took < 6, f"that the end comes within the grace: {took:.1f} s")
            want(b"", waits.answer(), "what is answered whose note isn't there")
            for connection in (waits, silent):
                connection.close()
    os.close(stalled)


def until_eof_with(program, opened, errors, *words):
    return Service(program, opened, 65535, "--until-eof", *words, goes_on=True, errors=errors)


def options_that_are_none(program, _folder):
    """The number is one, from 1."""
    for word in ("0", "-1", "some", str(2 ** 32)):
        done = subprocess.run([program, "serve", str(free_port()), f"--per-address={word}"], input=ALLOWED,
                              capture_output=True, timeout=SECONDS)
        want((2, b""), (done.returncode, done.stdout), "the run")
        want(True, done.stderr.startswith(b"error: invalid value '%s' for '--per-address <N>'" % word.encode()),
             f"that {done.stderr!r} names the option")


FACTS = {
    "at once of an address": at_once_of_an_address,
    "any number of an address": any_number_of_an_address,
    "an address that comes and goes": an_address_that_comes_and_goes,
    "files that give way": files_that_give_way,
    "files that the named hold": files_that_the_named_hold,
    "notes on standard error": notes_on_standard_error,
    "notes among other lines": notes_among_other_lines,
    "notes that nobody takes": notes_that_nobody_takes,
    "options that are none": options_that_are_none,
    "no session for a minute": no_session_for_a_minute,
}


def checks():
    """Each row: its name, how it is run on a program, and what it is."""
    return rows_of("many", FACTS, held_in_folder)
