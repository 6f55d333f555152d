"""The audit file of a running service: what isn't one, whose line is torn, which is full, stalls, or is moved away; and
that no file is taken for standard input, output or error where these are closed."""
import concurrent.futures
import json
import os
import pty
import signal
import subprocess
import threading
import time
import tty

from options import ALLOWED, READ, READ_MISSING, opening, talker
from serving import (SECONDS, Connection, Service, free_port, held_in_folder, joined, rows_of, undated,
                     untimed, want)
from strangers import fills
from talks import ONE_PIECE

AUDITED = opening([["allow", "EVERYONE@", 257, 0], ["audit", "EVERYONE@", 1, 16]])
# eve's reads, whose answers are long, note nothing, and bo's are noted.
AUDITED_FOR_BO = opening([["allow", "EVERYONE@", 257, 0], ["audit", "bo@users", 1, 16]]).replace(
    b'"content":""', b'"content":"%s"' % (b"78" * 4_000))
LINES = 2_000
LIST = {"ask": {"do": "get_list", "object": "picture/0"}}


def note(who="bo@users", client=1):
    """The line of what is noted of a read, but for its moment."""
    return (b'{"alarm":false,"ask":"read","audit":1,"client":%d,"mask":1,"object":"picture/0","success":true,'
            b'"who":"%s"}\n' % (client, who.encode()))


def noted_read(who="bo@users", client=1):
    """The lines of a read that is served, but for their moments: what is noted of it, and how it has ended."""
    return note(who, client) + (b'{"ask":"read","client":%d,"object":"picture/0","outcome":"served","who":"%s"}\n'
                                % (client, who.encode()))


def read(path):
    with open(path, "rb") as file:
        return file.read()


def reads(connection, count=1):
    for _ in range(count):
        want("served", connection.ask(READ)["answer"], "a read")


def no_audit_file(program, folder):
    """A pipe, which nobody may read, and the opening are refused, and nothing is served."""
    pipe, opened = os.path.join(folder, "pipe"), os.path.join(folder, "opening")
    os.mkfifo(pipe)
    with open(opened, "wb") as file:
        file.write(ALLOWED)
    os.symlink(opened, os.path.join(folder, "link"))
    os.link(opened, os.path.join(folder, "hard"))
    names = [opened, os.path.join(folder, "link"), os.path.join(folder, "hard"), os.path.join(folder, ".", "opening")]
    for words, path, why in ((["--audit", pipe], pipe, "a pipe or a socket is no audit file"),
                             *((["--opening", opened, "--audit", name], name, "the opening is no audit file")
                               for name in names)):
        done = subprocess.run([program, "serve", str(free_port()), *words], input=ALLOWED, capture_output=True,
                              timeout=SECONDS)
        said = f"album: {path}: {why}\nalbum: writing failed\n".encode()
        want((1, b"", said), (done.returncode, done.stdout, done.stderr), "the run")
    # Standard input may be that file, too. And what the service keeps in its folder is its own.
    kept = os.path.join(folder, "kept")
    os.mkdir(kept)
    for words, path, why in (([], opened, "the opening is no audit file"),
                             (["--data", kept], os.path.join(kept, "epoch-1.log"),
                              "an audit file is no part of the service's folder")):
        with open(opened, "rb") as given:
            done = subprocess.run([program, "serve", str(free_port()), "--audit", path, *words], stdin=given,
                                  capture_output=True, timeout=SECONDS)
        said = f"album: {path}: {why}\nalbum: writing failed\n".encode()
        want((1, b"", said), (done.returncode, done.stdout, done.stderr), "the run")
    with open(opened, "rb") as file:
        want(ALLOWED, file.read(), "the opening afterwards")


def a_torn_line(program, folder):
    """A line that a kill or a full disk has torn is ended before the first note, so no note is lost in it."""
    path = os.path.join(folder, "notes")
    audited = opening([["allow", "EVERYONE@", 257, 0], ["audit", "EVERYONE@", 1, 16]])
    whole = note()
    ended = f"album: {path}: the last line was torn, and is ended\n"
    for torn, kept, said in ((b'{"alarm":fal', b'{"alarm":fal\n', ended), (whole, whole, ""), (b"", b"", "")):
        with open(path, "wb") as file:
            file.write(torn)
        with Service(program, audited, 1, "--audit", path) as service:
            reader = talker(service, "bo@users")
            want("served", reader.ask(READ)["answer"], "a read")
            with open(path, "rb") as file:
                want(noted_read(), untimed(file.read().removeprefix(kept)), "the file")
            reader.finish()
            service.end(b'{"alarms":[0,0],"audits":[1,0]}\n', [said.encode()])


def a_full_disk_beside_a_deaf_client(program, folder):
    """A note that can't be written ends the service within the grace, though a client takes no answer."""
    for words, goes_on in ((["--until-eof"], True), (["--data", os.path.join(folder, "data")], False)):
        words += ["--audit", "/dev/full", "--grace", "1"]
        with Service(program, AUDITED_FOR_BO, 65535, *words, goes_on=goes_on) as service:
            deaf = fills(service, "eve@users")
            stuck(service)
            noted, silent = talker(service, "bo@users"), talker(service, "cat@users")
            began = time.monotonic()
            noted.send(json.dumps(READ).encode() + b"\n")
            for connection in (noted, silent):
                want(b"", connection.answer(), "what is answered")
            want(b"", service.run.stdout.read(), "what is printed")
            want(1, service.run.wait(SECONDS), "the status")
            took = time.monotonic() - began
            want(True, took < 8, f"that the end comes within the grace: {took:.1f} s")
            full = b"album: /dev/full: No space left on device (os error 28)\n"
            want(True, full in service.said(), f"that {service.said()!r} has the reason")
            for connection in (deaf, noted, silent):
                connection.close()


def stuck(service):
    """Has each write that waits begin again, so that it has all the room that there is, and waits for more."""
    for sign in (signal.SIGSTOP, signal.SIGCONT):
        service.run.send_signal(sign)
        time.sleep(0.1)


def answers(connection, most, seconds):
    """How many answers come, of so many at most, until none has come for so long."""
    connection.socket.settimeout(seconds)
    got = b""
    try:
        while got.count(b"\n") < most:
            piece = connection.socket.recv(65_536)
            if not piece:
                break
            got += piece
    except TimeoutError:
        pass
    want({"served"}, {json.loads(line)["answer"] for line in got.splitlines()}, "the answers")
    return got.count(b"\n")


def stalled(program, *words):
    """A service whose audit file is a terminal from which nobody reads: it takes some kilobytes, and then each write to
    it waits. Gives a connection whose notes wait to be written, and that is not answered, how many of its lines were,
    and both ends of the terminal."""
    master, slave = pty.openpty()
    tty.setraw(slave)
    service = Service(program, AUDITED, 65535, "--until-eof", "--audit", os.ttyname(slave), *words, goes_on=True)
    service.__enter__()
    noted = talker(service, "bo@users")
    noted.send((json.dumps(READ) + "\n").encode() * LINES)
    count = answers(noted, LINES, 1)
    want(True, 0 < count < LINES, f"that the file stalls: {count} of {LINES} are answered")
    return service, noted, count, master, slave


def a_file_that_stalls(program, _folder):
    """Whoever notes nothing is answered, and begins, while the audit file takes nothing; whoever has noted waits, and
    is answered once it goes on."""
    service, noted, count, master, slave = stalled(program)
    try:
        other = talker(service, "amy@users")
        other.socket.settimeout(5)
        for _ in range(50):
            want("denied", other.ask(LIST)["answer"], "what is answered to who notes nothing")
        other.finish()
        got = []
        taken = threading.Thread(target=takes, args=(master, got))
        taken.start()
        want(LINES - count, answers(noted, LINES - count, SECONDS), "how many more are answered")
        taken.join()
        want(noted_read() * LINES, untimed(b"".join(got)), "the file")
        noted.close()
        service.run.stdin.close()
        want(0, service.run.wait(SECONDS), "the status")
    finally:
        service.__exit__()
        os.close(master)
        os.close(slave)


def a_turn_beside_a_file_that_stalls(program, _folder):
    """An epoch is due to turn while the audit file takes nothing. It goes on after a second or two: whoever notes
    nothing is answered, and begins."""
    service, noted, _, master, slave = stalled(program, "--epochs")
    try:
        other, longest = talker(service, "amy@users"), 0
        for n in range(490):
            if n == 460:  # nine tenths of the marks are made, and a turn is looked for twenty times a second
                time.sleep(0.3)
            began = time.monotonic()
            title = {"ask": {"do": "retitle", "object": "picture/0", "title": str(n)}}
            want("committed", other.ask(title)["answer"], f"what is answered to write {n} of who notes nothing")
            longest = max(longest, time.monotonic() - began)
        want(True, 0.5 < longest < 4, f"that {longest:.1f} s are the longest wait: the turn began, and was put off")
        late = talker(service, "amy@users")
        want("denied", late.ask(LIST)["answer"], "what a newcomer is answered")
        noted.close()
    finally:
        service.__exit__()
        os.close(master)
        os.close(slave)


def takes(master, got):
    """Takes the lines of the terminal."""
    while b"".join(got).count(b"\n") < 2 * LINES:
        got.append(os.read(master, 65_536))


def a_file_that_stalls_at_the_end(program, _folder):
    """It doesn't hold the end up longer than what is open has. Then standard error says so, and the status is 1."""
    service, noted, _, master, slave = stalled(program, "--grace", "1")
    try:
        began = time.monotonic()
        service.run.stdin.close()
        want(1, service.run.wait(SECONDS), "the status")
        want(True, time.monotonic() - began < 8, "that the end comes soon")
        said = service.said().splitlines(keepends=True)
        path = os.ttyname(slave).encode()
        want([b"album: %s: notes wait still to be written, and their requests aren't answered\n" % path,
              b"album: connection 1, client 1, bo@users: writing failed\n"],
             sorted(undated(line) for line in said[:2]), "standard error")
        noted.close()
    finally:
        service.__exit__()
        os.close(master)
        os.close(slave)


def moved_away(program, folder):
    """Where the file was renamed or deleted, or another was put in its place, the path is gone on with within a second
    or two, and standard error says so. No note is lost but those of that second which went into a file that is gone."""
    path, old = os.path.join(folder, "notes"), os.path.join(folder, "notes.1")
    with Service(program, AUDITED, 65535, "--until-eof", "--audit", path, goes_on=True) as service:
        reader = talker(service, "bo@users")
        reads(reader)
        os.rename(path, old)
        time.sleep(1.2)
        reads(reader)
        want((noted_read(), noted_read()), (untimed(read(old)), untimed(read(path))), "the old file and the new one")
        os.remove(path)
        time.sleep(1.2)
        reads(reader, 2)
        want(noted_read() * 2, untimed(read(path)), "the file after it was deleted")
        with open(old, "wb") as file:
            file.write(b"torn")
        os.replace(old, path)
        time.sleep(1.2)
        reads(reader)
        want(noted_read(), untimed(read(path).removeprefix(b"torn\n")), "the file that was put there")
        reader.finish()
        service.run.stdin.close()
        goes_on = f"album: {path}: it is another file now, ".encode()
        said = (goes_on + b"which is gone on with\n") * 2 + goes_on + b"whose last line was torn, and is ended\n"
        service.end(b'{"alarms":[0,0],"audits":[5,0]}\n', [said], is_dated=True)


def moved_to_nowhere(program, folder):
    """Where nothing can be had at the path any more, what is noted isn't answered, and the service ends."""
    inner = os.path.join(folder, "inner")
    path = os.path.join(inner, "notes")
    os.mkdir(inner)
    for away in (lambda: os.rename(inner, inner + ".1"), lambda: (os.remove(path), os.mkfifo(path))):
        with Service(program, AUDITED, 65535, "--until-eof", "--audit", path, goes_on=True) as service:
            reader = talker(service, "bo@users")
            reads(reader)
            away()
            time.sleep(1.2)
            reader.send(json.dumps(READ).encode() + b"\n")
            want(b"", reader.answer(), "what is answered")
            want(b"", service.run.stdout.read(), "what is printed")
            want(1, service.run.wait(SECONDS), "the status")
        os.makedirs(inner, exist_ok=True)


def closed_descriptors(program, folder):
    """Where standard error is closed, what would be said there goes nowhere. Where standard output is, the service
    can't say that it serves, and ends; and a closed input can't be read. No file has what is another's."""
    path, opened = os.path.join(folder, "notes"), os.path.join(folder, "opening")
    with open(opened, "wb") as file:
        file.write(AUDITED)
    words = ["--opening", opened, "--audit", path, "--stats", "1", "--conns", "2"]
    port = free_port()
    run = subprocess.Popen([program, "serve", str(port), *words], stdin=subprocess.DEVNULL, stdout=subprocess.PIPE,
                           preexec_fn=lambda: os.close(2))
    try:
        want(b'{"answer":"serving","port":%d}\n' % port, run.stdout.readline(), "the first line")
        broken, reader = Connection(port, ONE_PIECE), Connection(port, ONE_PIECE)
        want("hello", broken.ask({"who": "amy@users"})["answer"], "a hello")
        want("hello", reader.ask({"who": "bo@users"})["answer"], "a hello")
        broken.breaks()
        time.sleep(1.2)
        reads(reader)
        reader.finish()
        want(0, run.wait(SECONDS), "the status")
    finally:
        run.kill()
        run.stdout.close()
    want(noted_read(client=2), untimed(read(path)), "the file")
    for closed, given, said in ((1, words, b"album: writing failed\n"),
                                (0, ["--audit", path], b"album: reading failed\n")):
        done = subprocess.run([program, "serve", str(free_port()), *given], stderr=subprocess.PIPE, timeout=SECONDS,
                              preexec_fn=lambda number=closed: os.close(number))
        want((1, said), (done.returncode, done.stderr), f"the run without descriptor {closed}")
        want(noted_read(client=2), untimed(read(path)), "the file")


def ends_of(program, folder, opened, *talks):
    """What the audit file has after these talks, each of a principal, its lines and the words that answer them: of each
    line the keys that say what it is, in their order."""
    path = os.path.join(folder, "notes")
    with Service(program, opened, len(talks), "--audit", path) as service:
        for who, lines, words in talks:
            connection = talker(service, who)
            for line, word in zip(lines, words, strict=True):
                answer = connection.ask(line)
                want(word, answer.get("answer", answer.get("name")), "an answer")
            connection.finish()
        want(0, service.run.wait(SECONDS), "the status")
    lines = [json.loads(line) for line in untimed(read(path)).splitlines()]
    os.remove(path)
    keys = ("ask", "success", "name", "object", "outcome", "stamp", "who")
    return [tuple((key, line[key]) for key in keys if key in line) for line in lines]


def noted_as(ask, success, thing, who):
    return ("ask", ask), ("success", success), ("object", thing), ("who", who)


def ended_as(ask, outcome, who, thing=None, stamp=None, name=None):
    row = (("ask", ask), ("name", name), ("object", thing), ("outcome", outcome), ("stamp", stamp), ("who", who))
    return tuple((key, value) for key, value in row if value is not None)


def in_an_album(picture_list, album_list, limit=1000):
    """amy's picture in her album, with these lists."""
    return joined([
        json.dumps({"open": {"limit": limit, "parts": 1}}),
        '{"item":"picture/0","value":{"content":"","group":0,"home":0,"list":0,"owner":"amy@users","title":"Sea"}}',
        '{"item":"album/0","value":{"children":["picture/0"],"group":0,"home":null,"list":1,"owner":"amy@users",'
        '"title":"A"}}',
        json.dumps({"item": "list/0", "value": {"entries": picture_list}}),
        json.dumps({"item": "list/1", "value": {"entries": album_list}}),
        '{"begin":true}',
    ])


def how_requests_end(program, folder):
    """Behind what was noted of a request there is one line that says what it came to. So a deletion that DELETE_CHILD
    has granted, of which a failure is noted, is seen to be committed. Of a request that nothing was noted of there is
    none."""
    delete = {"ask": {"do": "delete", "object": "picture/0"}}
    title = {"ask": {"do": "retitle", "object": "picture/0", "title": "Bay"}}
    denied = opening([["deny", "eve@users", 1, 0], ["allow", "EVERYONE@", 257, 0], ["audit", "EVERYONE@", 1, 48]])
    want([noted_as("read", False, "picture/0", "eve@users"), ended_as("read", "denied", "eve@users", "picture/0"),
          noted_as("read", True, "picture/0", "bo@users"), ended_as("read", "served", "bo@users", "picture/0")],
         ends_of(program, folder, denied, ("eve@users", [READ], ["denied"]),
                 ("bo@users", [READ, LIST, READ_MISSING, {"pending": 0}, {"x": 1}],
                  ["served", "denied", "missing", "pending", "BadRequest"])), "the file")
    by_album = in_an_album([["audit", "EVERYONE@", 65536, 32]], [["allow", "bo@users", 64, 0]])
    want([noted_as("delete", False, "picture/0", "bo@users"),
          ended_as("delete", "committed", "bo@users", "picture/0", 65537)],
         ends_of(program, folder, by_album, ("bo@users", [delete], ["committed"])), "the file")
    full = in_an_album([["allow", "bo@users", 256, 0], ["audit", "bo@users", 256, 16]], [], limit=2)
    want([noted_as("retitle", True, "picture/0", "bo@users"),
          ended_as("retitle", "committed", "bo@users", "picture/0", 65537),
          noted_as("retitle", True, "picture/0", "bo@users"),
          ended_as("retitle", "unsettled", "bo@users", "picture/0", 131073, "Full")],
         ends_of(program, folder, full, ("bo@users", [title] * 2, ["committed", "unsettled"])), "the file")
    lists = {"ask": {"do": "set_lists", "lists": [["picture/0", []], ["album/0", []]]}}
    owned = [["audit", "EVERYONE@", 262144, 48], ["allow", "OWNER@", 2032127, 0]]
    want([noted_as("set_lists", True, "picture/0", "amy@users"), noted_as("set_lists", True, "album/0", "amy@users"),
          ended_as("set_lists", "committed", "amy@users", stamp=65537)],
         ends_of(program, folder, in_an_album(owned, owned), ("amy@users", [lists], ["committed"])), "the file")


def each_ask_by_its_word(program, folder):
    """Each line has the word of its request, whatever is asked, and `object` what the request has under it, or under
    `album`."""
    allows = [["allow", "OWNER@", 2032127, 0], ["audit", "EVERYONE@", 2032127, 48]]
    *items, begin = in_an_album(allows, allows).decode().splitlines()
    owned = {"group": 0, "owner": "amy@users"}
    more = [{"item": "group/1", "value": {**owned, "list": 2, "members": []}},
            {"item": "album/1", "value": {**owned, "children": [], "home": None, "list": 3, "title": "B"}},
            *({"item": f"list/{number}", "value": {"entries": allows}} for number in (2, 3))]
    opened = joined([*items, *map(json.dumps, more), begin])
    lists = [["picture/0", allows]]
    asks = [{"do": word, "object": "picture/0"} for word in ("read", "head", "get_list")]
    asks += [{"do": word, "album": "album/0"} for word in ("list", "children")]
    asks += [{"do": "add_picture", "album": "album/0", "title": "Bay", "content": ""},
             {"do": "add_album", "album": "album/0", "title": "Inner"},
             {"do": "add_group", "album": "album/0", "members": ["bo@users"]},
             {"do": "retitle", "object": "picture/0", "title": "Bay"},
             {"do": "replace", "object": "picture/0", "content": "ff"},
             {"do": "set_lists", "lists": lists},
             {"do": "set_members", "object": "group/1", "members": ["bo@users"]},
             {"do": "share", "lists": lists, "members": [["group/1", []]]},
             {"do": "move", "object": "picture/0", "to": "album/1"},
             {"do": "delete", "object": "picture/0"},
             {"do": "set_owner", "object": "album/0", "owner": "amy@users", "group": 0}]
    words = [{"list": "listed"}.get(ask["do"], "served") for ask in asks[:5]] + ["committed"] * 11
    rows = [dict(row) for row in ends_of(program, folder, opened, ("amy@users", [{"ask": ask} for ask in asks], words))]
    want([ask["do"] for ask in asks], [row["ask"] for row in rows if "outcome" in row], "the words")
    want([ask.get("object", ask.get("album")) for ask in asks], [row.get("object") for row in rows if "outcome" in row],
         "the objects")
    at = 0
    for row in rows:
        want(asks[at]["do"], row["ask"], "the word of a line")
        at += "outcome" in row


def a_busy_listing(program, folder):
    """A listing is ruled on once all is read that decides on its rows. One that is too wide is busy before that:
    nothing is noted of it, and so there is no outcome."""
    groups = [json.dumps({"item": f"group/{number}", "value": {
        "group": 0, "list": 900 + number, "owner": "amy@users",
        "members": [f"{1000 * number + other}@groups" for other in range(128)]}}) for number in range(1, 6)]
    wide = [["allow", f"{number}@groups", 1, 64] for number in range(1, 6)]
    audited = [["allow", "EVERYONE@", 129, 0], ["audit", "EVERYONE@", 129, 48]]
    *items, begin = in_an_album(wide, audited).decode().splitlines()
    opened = joined([*items, *groups, begin])
    listing, children = ({"ask": {"do": word, "album": "album/0"}} for word in ("list", "children"))
    want([noted_as("children", True, "album/0", "bo@users"), ended_as("children", "served", "bo@users", "album/0")],
         ends_of(program, folder, opened, ("bo@users", [listing, children], ["busy", "served"])), "the file")


def several_attempts(program, folder):
    """Writes of one picture race in a checked store. Of each request there are the notes of its attempts, and then one
    line of how it has ended; some are attempted twice."""
    path, clients, count = os.path.join(folder, "notes"), 8, 40
    entries = [["allow", "EVERYONE@", 256, 0], ["audit", "EVERYONE@", 256, 16]]
    opened = joined([
        json.dumps({"open": {"checked": True, "limit": 100_000, "parts": 2}}),
        '{"item":"picture/0","value":{"content":"","group":0,"home":0,"list":0,"owner":"amy@users","title":"Sea"}}',
        json.dumps({"item": "list/0", "value": {"entries": entries}}),
        '{"begin":true}',
    ])
    with Service(program, opened, clients, "--audit", path) as service:
        def writes(number):
            connection = talker(service, f"user{number}@users")
            titles = ({"do": "retitle", "object": "picture/0", "title": str(turn)} for turn in range(count))
            # (all at once, so that each session asks while the others do)
            connection.send(b"".join(json.dumps({"ask": title}).encode() + b"\n" for title in titles))
            words = [json.loads(connection.answer())["answer"] for _ in range(count)]
            connection.finish()
            return words

        with concurrent.futures.ThreadPoolExecutor(clients) as pool:
            answered = list(pool.map(writes, range(clients)))
        want(0, service.run.wait(SECONDS), "the status")
    rows = [json.loads(line) for line in read(path).splitlines()]
    most = 0
    for number in range(clients):
        attempts, outcomes = 0, []
        for row in (row for row in rows if row["who"] == f"user{number}@users"):
            want("retitle", row["ask"], "the ask")
            if "outcome" in row:
                want(True, 1 <= attempts <= 8, f"that {attempts} attempts were noted before {row}")
                most, attempts = max(most, attempts), 0
                outcomes.append(row["outcome"])
            else:
                attempts += 1
        want((0, answered[number]), (attempts, outcomes), "what is left, and the outcomes")
    want(True, most >= 2, "that some request was attempted twice")


FACTS = {
    "how requests end": how_requests_end,
    "each ask by its word": each_ask_by_its_word,
    "a busy listing": a_busy_listing,
    "several attempts": several_attempts,
    "what is no audit file": no_audit_file,
    "a torn line of an audit file": a_torn_line,
    "a full disk, and a client that takes no answer": a_full_disk_beside_a_deaf_client,
    "a file that stalls": a_file_that_stalls,
    "an epoch that is due to turn beside a file that stalls": a_turn_beside_a_file_that_stalls,
    "a file that stalls as the service ends": a_file_that_stalls_at_the_end,
    "a file that is moved away": moved_away,
    "a file that can't be had any more": moved_to_nowhere,
    "closed descriptors": closed_descriptors,
}


def checks():
    """Each row: its name, how it is run on a program, and what it is."""
    return rows_of("audits", FACTS, held_in_folder)
