"""A service at its limits: of files, of connections, of time, of what is read of it, and of what one client may have it
do."""
import fcntl
import itertools
import json
import os
import pathlib
import re
import signal
import socket
import statistics
import subprocess
import tempfile
import time

from crowds import TRIP, at_once
from options import talker
from serving import NOTHING_NOTED, SECONDS, Connection, Differs, Service, free_port, joined, rows_of, want
from talks import ONE_PIECE

OPENING = joined(TRIP)
CHECKED = joined([json.dumps({"open": json.loads(TRIP[0])["open"] | {"checked": True}}), *TRIP[1:]])
HELLO = {"who": "amy@users"}
PENDING = {"answer": "pending", "stamps": []}
CLOSED = b'{"name":"Closed","refused":21}\n'


def greeted(service):
    """A connection that has said who it is, whoever came before it."""
    connection = Connection(service.port, ONE_PIECE)
    want("hello", connection.ask(HELLO)["answer"], "a hello")
    return connection


def files_that_run_out(program):
    """Of eighty connections some sixty have a file. As they end the others are answered, and eighty more."""
    with Service(program, OPENING, 65535, files=64) as service:
        waiting = [Connection(service.port, ONE_PIECE) for _ in range(80)]
        for connection in waiting:
            connection.send(json.dumps(HELLO).encode() + b"\n")
        for connection in waiting:
            want("hello", json.loads(connection.answer())["answer"], "a hello")
            connection.finish()
        for _ in range(80):
            greeted(service).finish()
        want(None, service.run.poll(), "the end of the service")


def beyond_the_last(program):
    """One more than is served gets its refusal while the others talk."""
    with Service(program, OPENING, 2) as service:
        first, second = greeted(service), greeted(service)
        third = Connection(service.port, ONE_PIECE)
        want(CLOSED, third.answer(), "the answer to one too many")
        want(b"", third.answer(), "what follows it")
        third.close()
        for connection in (first, second):
            want(PENDING, connection.ask({"pending": 0}), "the answer to another")
            connection.finish()
        service.end(NOTHING_NOTED, [b""])


def until_the_end_of_its_input(program):
    """Its input ends: what was asked before is answered, and who says nothing is let go."""
    with Service(program, OPENING, 65535, "--until-eof", goes_on=True) as service:
        for _ in range(3):
            greeted(service).finish()
        silent, asking = greeted(service), greeted(service)
        asking.send(b'{"pending":0}\n' * 50)
        want(PENDING, json.loads(asking.answer()), "an answer")
        service.run.stdin.close()
        for _ in range(49):
            want(PENDING, json.loads(asking.answer()), "an answer to what had come")
        for connection in (silent, asking):
            want(b"", connection.answer(), "what is said at the end")
            connection.close()
        service.end(NOTHING_NOTED, [b""])


def no_more_than_counted_until_the_end(program):
    """Where all that count are gone, it still waits for the end of its input."""
    with Service(program, OPENING, 1, "--until-eof", goes_on=True) as service:
        greeted(service).finish()
        more = Connection(service.port, ONE_PIECE)
        want(CLOSED, more.answer(), "the answer to one too many")
        more.close()
        want(None, service.run.poll(), "the end of the service")
        service.run.stdin.close()
        said = b"album: 1 of 1 connections have come: whoever comes now is refused\n"
        service.end(NOTHING_NOTED, [said], is_dated=True)


def nothing_said_for_too_long(program):
    """A connection that says nothing for a second ends, and one that goes on talking does not."""
    with Service(program, OPENING, 2, "--idle", "1") as service:
        silent, talking = greeted(service), greeted(service)
        for _ in range(8):
            time.sleep(0.25)
            want(PENDING, talking.ask({"pending": 0}), "an answer")
        want(b"", silent.answer(), "what is said to who is silent")
        silent.close()
        talking.finish()
        service.end(NOTHING_NOTED, [b"album: reading failed\n"])


def stopped_and_continued(program):
    """A connection that waits is answered still, where the service was stopped and goes on."""
    with Service(program, OPENING, 1, "--idle", str(SECONDS)) as service:
        talking = greeted(service)
        for sign in (signal.SIGSTOP, signal.SIGCONT):
            service.run.send_signal(sign)
            time.sleep(0.2)
        want(PENDING, talking.ask({"pending": 0}), "an answer")
        talking.finish()
        service.end(NOTHING_NOTED, [b""])


def errors_that_nobody_reads(program):
    """Connections that break off have a line on standard error. Where nobody reads it, the others are answered
    still."""
    reads, writes = os.pipe()
    fcntl.fcntl(writes, fcntl.F_SETPIPE_SZ, 4096)
    with os.fdopen(reads, "rb"), Service(program, OPENING, 402, errors=os.fdopen(writes, "wb")) as service:
        for _ in range(400):  # of which some 190 lines fill the pipe
            greeted(service).breaks()
        first, last = greeted(service), greeted(service)
        want(PENDING, first.ask({"pending": 0}), "an answer")
        for connection in (first, last):
            connection.finish()
        want(NOTHING_NOTED, service.run.stdout.read(), "the end")
        want(0, service.run.wait(SECONDS), "the status")


def writes_until_it_ends(service, client):
    """Titles the picture thirty times, or until the connection is closed. Nothing is waited for in vain: each line that
    is sent is answered, or the connection ends."""
    try:
        connection = Connection(service.port, ONE_PIECE)
    except ConnectionRefusedError:
        return
    try:
        lines = [HELLO, *(retitle(f"{client}, {n}") for n in range(30))]
        for line in lines:
            connection.send(json.dumps(line).encode() + b"\n")
            answer = connection.answer()
            if not answer:
                return
            json.loads(answer)
    except (ConnectionResetError, BrokenPipeError):
        return
    finally:
        connection.close()


def memory_that_runs_out(program):
    """With so few megabytes some connections aren't served, or a partition's thread ends. No connection hangs, and the
    service has ended by itself, with the fault, or serves on. So it is where writes that race are attempted anew."""
    for megabytes, opening in itertools.product((40, 64, 96, 160), (OPENING, CHECKED)):
        try:
            with Service(program, opening, 65535, memory=megabytes << 20) as service:
                at_once(*[(writes_until_it_ends, service, client) for client in range(12)])
                status = service.run.poll()
                if status is None:
                    writes_until_it_ends(service, 12)
                else:
                    want(1, status, "the status")
        except Differs as error:
            # It had no memory to begin with.
            if "the first line" not in str(error):
                raise


def what_full_leaves(program):
    """A write that concerns one partition alone, and finds no room there, leaves nothing. No partition has anything
    pending, nobody reads anything of it, and whoever asks once more is told the same."""
    with Service(program, OPENING.replace(b'"limit":1000', b'"limit":2'), 1) as service:
        amy = greeted(service)
        want("committed", amy.ask(retitle("Bay"))["answer"], "the first write")
        for counter in (2, 3):
            wanted = {"answer": "unsettled", "client": 1, "name": "Full", "refused": 20, "stamp": counter * 65_536 + 1}
            want(wanted, amy.ask(retitle("Cape")), "a write that finds no room")
            for part in range(3):
                want(PENDING, amy.ask({"pending": part}), f"what is pending at partition {part}")
            want("Bay", amy.ask({"ask": {"do": "read", "object": "picture/0"}})["title"], "the title")
        amy.finish()
        service.end(NOTHING_NOTED, [b""])


def retitle(title):
    return {"ask": {"do": "retitle", "object": "picture/0", "title": title}}


def wide_opening():
    """Seventeen pictures of amy's that everyone may read, and nobody else may change. The lists of picture/1 to
    picture/15 name thirty groups each. That of picture/16 names four groups, each of 110 groups."""
    rows = [{"open": {"checked": True, "parts": 3, "policy": 3}}]
    for number in range(17):
        named = range(1, 5) if number == 16 else range(1_000 + 30 * number, 1_030 + 30 * number) if number else []
        entries = [["allow", "OWNER@", 2032127, 0], ["allow", "EVERYONE@", 1, 0],
                   *(["allow", f"{group}@groups", 2, 64] for group in named)]
        value = {"content": "", "group": 0, "home": 0, "list": number, "owner": "amy@users", "title": "Sea"}
        rows += [{"item": f"picture/{number}", "value": value},
                 {"item": f"list/{number}", "value": {"entries": entries}}]
    for number in range(1, 5):
        members = [f"{group}@groups" for group in range(5_000 + 110 * number, 5_110 + 110 * number)]
        value = {"group": 0, "list": 100 + number, "members": members, "owner": "amy@users"}
        rows.append({"item": f"group/{number}", "value": value})
    return joined(map(json.dumps, [*rows, {"begin": True}]))


def seconds_to_read(connection, item):
    began = time.monotonic()
    want("served", connection.ask({"ask": {"do": "read", "object": item}})["answer"], f"a read of {item}")
    return time.monotonic() - began


def what_others_ask_of_a_picture(program):
    """Somebody asks, again and again, to set lists that aren't hers: that of a picture which all read, and fifteen that
    name 450 groups. Reads of that picture stay far below one of as many items."""
    with Service(program, wide_opening(), 2) as service:
        bo, eve = talker(service, "bo@users"), talker(service, "eve@users")
        lists = [[f"picture/{number}", [["allow", "eve@users", 1, 0]]] for number in range(16)]
        denied = {"answer": "denied", "client": 2, "reasons": [["picture/0", 262144, "end"]]}
        hot, wide = [], []
        for _ in range(20):
            want(denied, eve.ask({"ask": {"do": "set_lists", "lists": lists}}), "what is answered")
            hot += [seconds_to_read(bo, "picture/0") for _ in range(5)]
            wide += [seconds_to_read(bo, "picture/16") for _ in range(5)]
        hot, wide = statistics.median(hot), statistics.median(wide)
        want(True, hot < wide / 3, f"that {hot * 1e6:.0f} microseconds are far below {wide * 1e6:.0f}")
        for connection in (bo, eve):
            connection.finish()
        service.end(NOTHING_NOTED, [b""])


def megabytes_of(service):
    """The memory that the service takes."""
    with open(f"/proc/{service.run.pid}/status") as file:
        return int(re.search(r"^VmRSS:\s*(\d+) kB", file.read(), re.MULTILINE)[1]) / 1024


def what_one_client_writes(program):
    """One client sets sixteen lists again and again, by lines of 59 KB. Two hundred of them would keep some 38 MB for
    good. With a folder epochs turn by their bytes, so two hundred more than that take less than 15 MB."""
    entries = [["allow", f"{'u' * 8}{number:02}@users", 1, 0] for number in range(100)]
    line = {"ask": {"do": "set_lists", "lists": [[f"picture/{number}", entries] for number in range(16)]}}
    with tempfile.TemporaryDirectory() as folder:
        with Service(program, wide_opening(), 65535, "--data", folder, "--log-mb", "2") as service:
            amy, took = greeted(service), []
            for _ in range(2):
                for _ in range(200):
                    want("committed", amy.ask(line).get("answer"), "what is answered")
                took.append(megabytes_of(service))
            want(True, took[1] < took[0] + 15, f"that {took[1]:.0f} megabytes are few more than {took[0]:.0f}")
            amy.finish()


def stops_by_thread(service):
    """How often each thread of the service has left its processor: to wait, or to let others run."""
    folder, counts = f"/proc/{service.run.pid}/task", {}
    for thread in os.listdir(folder):
        with open(f"{folder}/{thread}/status") as file:
            counts[thread] = sum(map(int, re.findall(r"voluntary_ctxt_switches:\s*(\d+)", file.read())))
    return counts


def stops_beside(service, connection, line, name):
    """The connection asks three hundred times. How often that thread stops that does so most, beside its own."""
    before = stops_by_thread(service)
    for _ in range(300):
        want(name, connection.ask(line).get("name"), f"the answer to {line}")
    return sorted(count - before.get(thread, 0) for thread, count in stops_by_thread(service).items())[-2]


def refused_without_a_partition(program):
    """What is refused for want of right wakes no partition's thread; what an admin asks does."""
    sweep = {"sweep": {"part": 0, "stamp": 65537}}
    with Service(program, OPENING, 2, "--admin", "amy@users") as service:
        bo, amy = talker(service, "bo@users"), talker(service, "amy@users")
        for line in (sweep, {"trim": {"item": "picture/0", "part": 0}}, {"pending": 0}):
            count = stops_beside(service, bo, line, "NotAdmin")
            want(True, count < 30, f"that {count} stops for 300 times {line} are few")
        count = stops_beside(service, amy, sweep, "NotPrepared")
        want(True, count > 100, f"that {count} stops for 300 sweeps of an admin's are many")
        for connection in (bo, amy):
            connection.finish()
        service.end(NOTHING_NOTED, [b""])


def refused_on_standard_error(program):
    """A refused opening is named with its line, from 1, and a port that somebody has with its number."""
    header, picture, begin = TRIP[0], TRIP[1], TRIP[-1]
    for lines, name in (([header, picture.replace("736561", "73656"), begin], "line 2: BadText"),
                        ([header, "", "", picture.replace("amy@users", "Amy@users")], "line 4: BadWho"),
                        ([header, picture], "line 3: BadOpening"), ([], "line 1: BadOpening"),
                        ([header, "nothing"], "line 2: BadLine")):
        done = subprocess.run([program, "serve", str(free_port())], input=joined(lines), capture_output=True,
                              timeout=SECONDS)
        want((1, f"album: opening, {name}\n".encode()), (done.returncode, done.stderr), "the run")
    with socket.create_server(("127.0.0.1", 0)) as taken:
        port = taken.getsockname()[1]
        done = subprocess.run([program, "serve", str(port)], input=OPENING, capture_output=True, timeout=SECONDS)
        first, last = done.stderr.splitlines()
        want((1, b"album: port refused"), (done.returncode, last), "the run")
        want(True, first.startswith(b"album: port %d: " % port), "that the first line has the port and the reason")


def held_by(service):
    """How many kilobytes the service holds."""
    with open(f"/proc/{service.run.pid}/status") as lines:
        return next(int(line.split()[1]) for line in lines if line.startswith("VmRSS"))


def what_a_long_line_took(program):
    """A line of 60,000 bytes takes several buffers of its length. They are given back once it is answered: by the talk,
    and with the settings of `./album` to the system, too."""
    script = (pathlib.Path(__file__).resolve().parent.parent / "album").read_text()
    setting = ":".join(re.findall(r"glibc\.malloc\.\w+=\d+", script))
    want(4, setting.count("="), "how many settings there are")
    count, long = 60, {"x": "y" * 60_000}
    for words in (["--until-eof"], ["--epochs", "--until-eof"]):
        with Service(program, OPENING, 65535, *words, goes_on=True, settings={"GLIBC_TUNABLES": setting}) as service:
            connections = [greeted(service) for _ in range(count)]
            for connection in connections:
                want("served", connection.ask({"ask": {"do": "read", "object": "picture/0"}})["answer"], "a read")
            before = held_by(service)
            for connection in connections:
                want("BadRequest", connection.ask(long)["name"], "what a long line is answered")
            time.sleep(0.3)
            took = (held_by(service) - before) / count
            want(True, took < 35, f"that {took:.0f} KB of a long line are kept by each connection")
            for connection in connections:
                connection.finish()
            service.run.stdin.close()
            service.end(NOTHING_NOTED, [b""])


FACTS = {
    "what a long line took": what_a_long_line_took,
    "files run out, and come back": files_that_run_out,
    "one connection more than is served": beyond_the_last,
    "until the end of its input": until_the_end_of_its_input,
    "no more than are counted until the end of its input": no_more_than_counted_until_the_end,
    "a connection that says nothing for too long": nothing_said_for_too_long,
    "stopped and continued, while a connection waits": stopped_and_continued,
    "errors that nobody reads": errors_that_nobody_reads,
    "memory runs out": memory_that_runs_out,
    "what is refused is named on standard error": refused_on_standard_error,
    "what a full partition leaves of a write": what_full_leaves,
    "what others ask of a picture makes no read of it slower": what_others_ask_of_a_picture,
    "what one client writes is let go as epochs turn": what_one_client_writes,
    "what is refused for want of right asks no partition": refused_without_a_partition,
}


def checks():
    """Each row: its name, how it is run on a program, and what it is."""
    return rows_of("serve", FACTS)
