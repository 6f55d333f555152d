"""What a running service does with whoever never says who it is, never listens, or speaks something else, and what it
says of them. `serve PORT` without these options does what it always did."""
import datetime
import http.client
import json
import os
import re
import shutil
import signal
import socket
import subprocess
import threading
import time
import urllib.error
import urllib.request

from options import ALLOWED, READ, opening, talker
from serving import (MOMENT, NOTHING_NOTED, SECONDS, Connection, Service, free_port, held_in_folder, joined, rows_of,
                     undated, want)
from talks import ONE_PIECE

OWNED = opening([["allow", "OWNER@", 2032127, 0], ["allow", "EVERYONE@", 257, 0]])
BAD_LINE = b'{"name":"BadLine","refused":2}\n'
CLOSED = b'{"name":"Closed","refused":21}\n'
HTTP = b"album: a request of HTTP came, and nothing after its first line was read\n"
HELLO = b'{"who":"bo@users"}\n'
BIG = "x" * 4_000
THREADS = 200  # megabytes of addresses: there is room for a few threads more than a service begins with


def until_eof(program, opened, *words, conns=65535):
    return Service(program, opened, conns, "--until-eof", *words, goes_on=True)


def closes(service, said=(b"",)):
    """Its input ends, and it ends well."""
    service.run.stdin.close()
    service.end(NOTHING_NOTED, list(said), is_dated=True)


def seconds_of(act):
    began = time.monotonic()
    act()
    return time.monotonic() - began


def requests_of_http(program, folder):
    """A page that somebody looks at sends lines in the body of a request, by curl, where that is there, and by Python's
    client. The request's first line is answered, and no other is read."""
    body = os.path.join(folder, "body")
    retitle = {"ask": {"do": "retitle", "object": "picture/0", "title": "Mine"}}
    lines = joined([json.dumps({"who": "amy@users"}), json.dumps(retitle)])
    with open(body, "wb") as file:
        file.write(lines)
    by_curl = [["-X", "POST", "-H", "Content-Type: text/plain", "--data-binary", f"@{body}"], [],
               ["-X", "PUT", "--data-binary", f"@{body}"]] if shutil.which("curl") else []
    with Service(program, OWNED, len(by_curl) + 3) as service:
        address = f"http://127.0.0.1:{service.port}/"
        for words in by_curl:
            done = subprocess.run(["curl", "-s", "--http0.9", *words, address], capture_output=True, timeout=SECONDS)
            want(True, BAD_LINE.startswith(done.stdout), f"that the first line alone is answered: {done.stdout!r}")
        for given in (lines, None):
            try:
                urllib.request.urlopen(address, given, SECONDS)
                want("an error", None, "what Python's client has")
            except (http.client.BadStatusLine, ConnectionError, urllib.error.URLError):
                pass
        reader = talker(service, "bo@users")
        want("Sea", reader.ask(READ)["title"], "the title afterwards")
        reader.finish()
        service.end(NOTHING_NOTED, [HTTP * (len(by_curl) + 2)])


def what_is_like_a_request(program, _folder):
    """A first line ends the connection where it begins like a request, whatever pieces it comes in, and each other one
    is refused by itself."""
    hello = json.dumps({"who": "amy@users"}).encode() + b"\n"
    for first in (b"GET / HTTP/1.1\r\n", b"\r\n \tGET /x HTTP/1.1\n", b"OPTIONS * HTTP/1.1\n", b"PRI * HTTP/2.0\n",
                  b"CONNECT album:80 HTTP/1.1\n", b"POST http://a/ HTTP/1.1\n", b"GET [::1] \n"):
        with Service(program, ALLOWED, 1) as service:
            stranger = Connection(service.port, 1 if len(first) % 2 else ONE_PIECE)
            try:
                stranger.send(first + hello)
            except OSError:
                pass  # it is closed in the midst of what is sent
            want(True, first_answer(stranger) in (BAD_LINE, b""), f"the answer to {first!r}")
            stranger.close()
            service.end(NOTHING_NOTED, [HTTP])
    for first in (b"GET  / HTTP/1.1\n", b"GET\n", b"GET \n", b"get / HTTP/1.1\n", b"GE1 /\n", b"{} GET / HTTP/1.1\n",
                  b" / \n"):
        with Service(program, ALLOWED, 1) as service:
            talking = Connection(service.port, 1)
            talking.send(first + hello)
            want(BAD_LINE, talking.answer(), f"the answer to {first!r}")
            want("hello", json.loads(talking.answer())["answer"], "the answer to the line after it")
            talking.finish()
            service.end(NOTHING_NOTED, [b""])


def first_answer(connection):
    try:
        return connection.answer()
    except ConnectionResetError:
        return b""


def who_counts(program, _folder):
    """Where a service ends by its input, those count that have said who they are."""
    with until_eof(program, ALLOWED, conns=2) as service:
        for _ in range(5):
            Connection(service.port, ONE_PIECE).finish()
        silent = Connection(service.port, ONE_PIECE)
        first, second = talker(service, "bo@users"), talker(service, "eve@users")
        late = Connection(service.port, ONE_PIECE)
        want(CLOSED, late.answer(), "what the third is answered")
        want("Sea", first.ask(READ)["title"], "a title")
        for connection in (late, silent, first, second):
            connection.close()
        closes(service, [b"album: 2 of 2 connections have come: whoever comes now is refused\n"])


def no_last_number(program, _folder):
    """There is no number of connections after which nobody is served: a session serves one connection after another."""
    with until_eof(program, ALLOWED) as service:
        for turn in range(300):
            connection = Connection(service.port, ONE_PIECE)
            hello = connection.ask({"who": f"user{turn}@users"})
            want({"answer": "hello", "client": 1}, hello, "a hello")
            want("Sea", connection.ask(READ)["title"], "a title")
            connection.finish()
        closes(service)
    with Service(program, ALLOWED, 2) as service:
        for number in (1, 2):
            connection = Connection(service.port, ONE_PIECE)
            hello = connection.ask({"who": "bo@users"})
            want({"answer": "hello", "client": number}, hello, "a hello without the option")
            connection.finish()
        service.end(NOTHING_NOTED, [b""])


def time_to_say_who(program, _folder):
    """Whoever doesn't say who it is has so many seconds, and blank lines are no word; who has said it stays."""
    with until_eof(program, ALLOWED, "--hello", "1") as service:
        known, silent, blank = talker(service, "bo@users"), Connection(service.port, 1), Connection(service.port, 1)
        refused = Connection(service.port, ONE_PIECE)
        began = time.monotonic()
        want(BAD_LINE, (refused.send(b"?\n"), refused.answer())[1], "a line that isn't one")
        while time.monotonic() - began < 0.8:
            blank.send(b"\n")
            time.sleep(0.05)
        for connection in (silent, blank, refused):
            want(b"", first_answer(connection), "what is said at the limit")
            connection.close()
        want(True, 0.8 < time.monotonic() - began < 5, "that the limit is about a second")
        time.sleep(1)
        want("Sea", known.ask(READ)["title"], "a title, later")
        known.finish()
        closes(service, [b"".join(b"album: connection %d, client %d, nobody yet: reading failed\n" % (n, n)
                                  for n in (2, 3, 4))])


def limits_that_are_not_given(program, folder):
    """With --until-eof or --data whoever doesn't say who it is has ten seconds. With --until-eof, what is open as the
    input ends has ten more. Without these nobody has a limit."""
    with until_eof(program, big_opening()) as ending, Service(program, ALLOWED, 65535) as plain, \
            Service(program, ALLOWED, 65535, "--data", os.path.join(folder, "data")) as kept:
        began = time.monotonic()
        blank, silent, endless = (Connection(service.port, ONE_PIECE) for service in (ending, kept, plain))
        while time.monotonic() - began < 8:
            blank.send(b"\n")
            time.sleep(0.5)
        for connection in (blank, silent, endless):
            want(True, is_open(connection), "that a connection is open after eight seconds")
        for connection in (blank, silent):
            want(b"", first_answer(connection), "what is said at the limit")
        took = time.monotonic() - began
        want(True, 9.5 < took < 14, f"that the limit is ten seconds: {took:.1f} s")
        deaf = fills(ending, "bo@users")
        ending.run.stdin.close()
        began = time.monotonic()
        want(NOTHING_NOTED, ending.run.stdout.read(), "the end")
        took = time.monotonic() - began
        want(True, 9.5 < took < 14, f"that the grace is ten seconds: {took:.1f} s")
        want(0, ending.run.wait(SECONDS), "the status")
        want(True, is_open(endless), "that a connection has no limit without the options")
        want("hello", endless.ask({"who": "bo@users"})["answer"], "a hello at last")
        for connection in (blank, silent, deaf, endless):
            connection.close()


def is_open(connection):
    """Whether the service has neither closed the connection nor said anything over it."""
    connection.socket.setblocking(False)
    try:
        connection.socket.recv(1, socket.MSG_PEEK)
        return False
    except BlockingIOError:
        return True
    finally:
        connection.socket.settimeout(SECONDS)


def files_that_the_silent_hold(program, _folder):
    """One client takes all files by connections that say blank lines alone: they end in time, and whoever says a
    name is served after them."""
    with Service(program, ALLOWED, 65535, "--until-eof", "--hello", "1", goes_on=True, files=64) as service:
        silent = [Connection(service.port, ONE_PIECE) for _ in range(100)]
        for connection in silent:
            connection.send(b"\n" * 3)
        speaks = []
        took = seconds_of(lambda: speaks.append(talker(service, "bo@users")))
        want(True, took < 15, f"that one who says it is served soon: {took:.1f} s")
        want("Sea", speaks[0].ask(READ)["title"], "a title")
        speaks[0].finish()
        for connection in silent:
            want(b"", first_answer(connection), "what is said to who says nothing")
            connection.close()
        talker(service, "bo@users").finish()


def who_counts_with_a_folder(program, folder):
    """With --data, too, those count alone that have said who they are. Probes don't end the service, and neither do as
    many as are served: whoever comes after them is refused."""
    with Service(program, ALLOWED, 2, "--data", os.path.join(folder, "data")) as service:
        for _ in range(10):
            Connection(service.port, ONE_PIECE).finish()
        for who in ("bo@users", "eve@users"):
            reader = talker(service, who)
            want("Sea", reader.ask(READ)["title"], "a title")
            reader.finish()
        late = Connection(service.port, ONE_PIECE)
        want(CLOSED, late.answer(), "what the third is answered")
        late.close()
        want(None, service.run.poll(), "the end of the service")
        full = b"album: 2 of 2 connections have come: whoever comes now is refused\n"
        want(full, undated(said_soon(service)), "standard error")


def said_soon(service):
    """What is on standard error, once there is something, or after five seconds."""
    until = time.monotonic() + 5
    while not service.said() and time.monotonic() < until:
        time.sleep(0.02)
    return service.said()


def no_thread_for_a_connection(program, _folder):
    """Where no thread can be had for a connection, it is answered OutOfMemory, standard error says why, and the others
    are served on."""
    with Service(program, ALLOWED, 65535, "--until-eof", goes_on=True, memory=THREADS << 20) as service:
        served, refused = [], None
        while refused is None and len(served) < 1_000:
            connection = Connection(service.port, ONE_PIECE)
            connection.send(HELLO)
            answer = json.loads(first_answer(connection) or b"{}")
            if answer.get("answer") == "hello":
                served.append(connection)
            else:
                refused = answer
                connection.close()
        want({"name": "OutOfMemory", "refused": 1}, refused, f"the answer to one after {len(served)}")
        want("Sea", served[0].ask(READ)["title"], "a title")
        want(b"album: no thread could be had for it\n", undated(said_soon(service)), "standard error")
        for connection in served:
            connection.finish()
        talker(service, "bo@users").finish()


def fills(service, who):
    """A connection that asks again and again, and reads no answer, until it can send no more."""
    deaf = Connection(service.port, ONE_PIECE, room=4_096)
    want("hello", deaf.ask({"who": who})["answer"], "a hello")
    deaf.socket.settimeout(2)
    line = (json.dumps(READ) + "\n").encode() * 100
    try:
        while True:
            deaf.socket.sendall(line)
    except OSError:
        return deaf


def big_opening():
    return OWNED.replace(b'"content":""', f'"content":"{BIG.encode().hex()}"'.encode())


def a_client_that_takes_no_answer(program, _folder):
    """It holds nobody up at the end: once the input has ended, what is open has so many seconds. With --idle it is
    ended before that."""
    with until_eof(program, big_opening(), "--grace", "1") as service:
        deaf = fills(service, "bo@users")
        reader = talker(service, "eve@users")
        want("Sea", reader.ask(READ)["title"], "a title beside it")
        reader.finish()
        said = b"album: connection 1, client 1, bo@users: writing failed\n"
        took = seconds_of(lambda: closes(service, [said]))
        want(True, took < 8, f"that the end comes soon: {took:.1f} s")
        deaf.close()
    with Service(program, big_opening(), 1, "--idle", "1") as service:
        deaf = fills(service, "bo@users")
        either = [b"album: writing failed\n", b"album: reading failed\n"]
        took = seconds_of(lambda: service.end(NOTHING_NOTED, either))
        want(True, took < 8, f"that the end comes soon: {took:.1f} s")
        deaf.close()


def inputs_that_have_nothing(program, folder):
    """A service whose input is at its end says why it ends; a folder is named as one."""
    path = os.path.join(folder, "opening")
    with open(path, "wb") as file:
        file.write(ALLOWED)
    words = [program, "serve", str(free_port()), "--until-eof", "--opening"]
    done = subprocess.run([*words, path], stdin=subprocess.DEVNULL, capture_output=True, timeout=SECONDS)
    said = b"album: standard input has ended before anyone came, and so does the service\n"
    want((0, said), (done.returncode, undated(done.stderr)), "the run")
    for given in ([*words, folder], [program, "judge", folder], [program, "replay", folder]):
        done = subprocess.run(given, stdin=subprocess.DEVNULL, capture_output=True, timeout=SECONDS)
        said = f"album: {folder}: a folder, and no file\nalbum: reading failed\n".encode()
        want((1, b"", said), (done.returncode, done.stdout, done.stderr), "the run")


def who_failed(program, _folder):
    """A line of standard error has a moment, the connection and who talks over it. The second connection has the
    session that the first had."""
    with until_eof(program, ALLOWED, "--stats", "1") as service:
        began = time.time()
        for who in ("bo@users", "ANONYMOUS@"):
            broken = Connection(service.port, ONE_PIECE)
            want({"answer": "hello", "client": 1}, broken.ask({"who": who}), "a hello")
            broken.breaks()
            time.sleep(0.5)
        request = Connection(service.port, ONE_PIECE)
        request.send(b"GET / HTTP/1.1\r\n")
        want(BAD_LINE, first_answer(request), "the answer to a request")
        request.close()
        time.sleep(1)
        lines = [line for line in service.said().splitlines(keepends=True) if not line.startswith(b"{")]
        want(b"album: connection 1, client 1, bo@users: reading failed\n"
             b"album: connection 2, client 1, ANONYMOUS@: reading failed\n"
             b"album: connection 3, client 1, nobody yet: " + HTTP[7:], undated(b"".join(lines)), "standard error")
        for line in lines:
            moment = datetime.datetime.fromisoformat(line.decode().split()[0].replace("Z", "+00:00")).timestamp()
            want(True, began - 1 < moment < began + 10, f"that {moment} is after {began}")
        figures = [json.loads(line) for line in service.said().splitlines() if line.startswith(b"{")]
        want(True, bool(figures) and all(re.fullmatch(MOMENT, row["time"].encode()) for row in figures),
             "that each row of figures has a moment")
        service.run.stdin.close()
        want(NOTHING_NOTED, service.run.stdout.read(), "the end")
        want(0, service.run.wait(SECONDS), "the status")


def waits_of(service):
    """How often threads of the service have gone to sleep."""
    folder = f"/proc/{service.run.pid}/task"
    count = 0
    for thread in os.listdir(folder):
        with open(f"{folder}/{thread}/status") as file:
            count += int(re.search(r"^voluntary_ctxt_switches:\s*(\d+)", file.read(), re.MULTILINE)[1])
    return count


def nothing_to_do(program, _folder):
    """A service that nobody asks sleeps, also where some are connected; and whoever comes is taken as soon as by one
    that only accepts."""
    took = []
    for words in (["--until-eof"], []):
        with Service(program, ALLOWED, 65535, *words, goes_on=True) as service:
            known = talker(service, "bo@users")
            before = waits_of(service)
            time.sleep(2)
            want(True, waits_of(service) - before < 20, "that nobody wakes up again and again")
            took.append(sorted(seconds_of(lambda: talker(service, "bo@users").finish()) for _ in range(31))[15])
            known.finish()
    want(True, took[0] < took[1] + 0.003, f"that a hello comes as soon: {took} s")


def many_at_once(program, _folder):
    """Of six hundred that connect before the service takes the first, each is taken in time: the service is stopped
    meanwhile, so all of them wait in the backlog."""
    with until_eof(program, ALLOWED) as service:
        talker(service, "bo@users").finish()
        service.run.send_signal(signal.SIGSTOP)
        waiting = []
        for _ in range(600):
            waiting.append(socket.socket())
            waiting[-1].setblocking(False)
            waiting[-1].connect_ex(("127.0.0.1", service.port))
        time.sleep(0.3)
        connected = sum(is_connected(one) for one in waiting)
        service.run.send_signal(signal.SIGCONT)
        want(600, connected, "how many of six hundred are connected")
        for one in waiting:
            one.close()
        service.run.stdin.close()
        want(NOTHING_NOTED, service.run.stdout.read(), "the end")


def is_connected(one):
    try:
        return one.getpeername() is not None
    except OSError:
        return False


def input_that_goes_on(program, _folder):
    """What comes after the opening is let go, and doesn't keep a processor busy."""
    with until_eof(program, ALLOWED) as service:
        flood = threading.Thread(target=pours, args=(service.run.stdin,))
        flood.start()
        time.sleep(0.2)
        before = seconds_used(service)
        time.sleep(2)
        used = seconds_used(service) - before
        want("Sea", talker(service, "bo@users").ask(READ)["title"], "a title meanwhile")
        service.run.kill()
        flood.join()
        want(True, used < 0.2, f"that it takes little of a processor: {used:.2f} of 2 s")


def pours(stream):
    try:
        while True:
            stream.write(b"y\n" * 100_000)
    except OSError:
        pass


def seconds_used(service):
    with open(f"/proc/{service.run.pid}/stat") as file:
        words = file.read().rpartition(")")[2].split()
    return (int(words[11]) + int(words[12])) / os.sysconf("SC_CLK_TCK")


FACTS = {
    "who failed, and when": who_failed,
    "nothing to do": nothing_to_do,
    "many at once": many_at_once,
    "an input that goes on": input_that_goes_on,
    "inputs that have nothing": inputs_that_have_nothing,
    "requests of HTTP by real clients": requests_of_http,
    "what is like a request of HTTP": what_is_like_a_request,
    "who counts": who_counts,
    "no last number of connections": no_last_number,
    "who counts with a folder": who_counts_with_a_folder,
    "time to say who": time_to_say_who,
    "limits that aren't given": limits_that_are_not_given,
    "files that the silent hold": files_that_the_silent_hold,
    "no thread for a connection": no_thread_for_a_connection,
    "a client that takes no answer": a_client_that_takes_no_answer,
}


def checks():
    """Each row: its name, how it is run on a program, and what it is."""
    return rows_of("strangers", FACTS, held_in_folder)
