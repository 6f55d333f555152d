"""Talks with a running service in which what is answered hangs on who comes first: what has to hold whoever does."""
import concurrent.futures
import contextlib
import json
import pathlib
import socket
import subprocess
import threading
import time

from serving import NOTHING_NOTED, SECONDS, Connection, Service, joined, rows_of, want
from talks import ONE_PIECE

TRIP = (pathlib.Path(__file__).resolve().parent / "serve" / "trip.jsonl").read_text().splitlines()
OWNER = ["allow", "OWNER@", 2032127, 0]
SWEPT = {"answer": "swept"}
NOT_PREPARED = {"name": "NotPrepared", "refused": 17}


def ruled(list_0, list_1):
    """An opening: amy's picture in her album, with these two lists."""
    picture, album, *_ = (json.loads(line) for line in TRIP[1:])
    lists = [{"item": f"list/{n}", "value": {"entries": entries}} for n, entries in enumerate((list_0, list_1))]
    made = [json.loads(TRIP[0]), picture, album, *lists, {"begin": True}]
    return joined(map(json.dumps, made))


@contextlib.contextmanager
def connected(service, whos):
    """A connection for each of these, in this order, who have all said who they are, and who end well."""
    with contextlib.ExitStack() as stack:
        connections = []
        for client, who in enumerate(whos, 1):
            connections.append(Connection(service.port, ONE_PIECE))
            stack.callback(connections[-1].close)
            hello = connections[-1].ask({"who": who})
            # (Where epochs turn it says the epoch, too.)
            want(("hello", client), (hello["answer"], hello["client"]), "a hello")
        yield connections
        for connection in connections:
            connection.finish()


def at_once(*jobs):
    """What the jobs give, each of which is a function and what it is given; they begin together."""
    begin = threading.Barrier(len(jobs), timeout=SECONDS)

    def run(job, *given):
        begin.wait()
        return job(*given)

    with concurrent.futures.ThreadPoolExecutor(len(jobs)) as pool:
        return [job.result() for job in [pool.submit(run, *job) for job in jobs]]


def retitles(connection, client, count):
    """Titles the picture so many times; what was written, by stamps, which have to rise."""
    wrote = {}
    for n in range(count):
        title = f"{client}, {n}"
        answer = connection.ask({"ask": {"do": "retitle", "object": "picture/0", "title": title}})
        want(("committed", client, client), (answer["answer"], answer["client"], answer["stamp"] % 65536), "a write")
        wrote[answer["stamp"]] = title
    want(sorted(wrote), list(wrote), "the order of the stamps")
    want(count, len(wrote), "the number of stamps")
    return wrote


def reads(connection, client, count):
    """Reads the picture so many times; what was read, by stamps, which must not sink. Trims may keep a read busy."""
    answers = [connection.ask({"ask": {"do": "read", "object": "picture/0"}}) for _ in range(count)]
    served = [answer for answer in answers if answer != {"answer": "busy", "client": client, "why": "rounds"}]
    want({("served", client)}, {(answer["answer"], answer["client"]) for answer in served}, "the reads")
    stamps = [answer["stamp"] for answer in served]
    want(sorted(stamps), stamps, "the order of the stamps that are read")
    return [(answer["stamp"], answer["title"]) for answer in served]


def four_writers(program):
    opening = ruled([["audit", "EVERYONE@", 256, 16], OWNER], [])
    with Service(program, opening, 4) as service:
        with connected(service, ["amy@users"] * 4) as amys:
            wrote = at_once(*((retitles, amy, client, 25) for client, amy in enumerate(amys, 1)))
            titles = {stamp: title for one in wrote for stamp, title in one.items()}
            want(100, len(titles), "the number of stamps")
            answer = amys[0].ask({"ask": {"do": "read", "object": "picture/0"}})
            want((max(titles), titles[max(titles)]), (answer["stamp"], answer["title"]), "what is read at last")
        service.end(b'{"alarms":[0,0],"audits":[100,0]}\n', [b""])


def readers_beside_writers(program):
    noted = [["audit", "EVERYONE@", 1, 16], ["alarm", "amy@users", 256, 16]]
    with Service(program, ruled(noted + [["allow", "EVERYONE@", 257, 0]], []), 4) as service:
        with connected(service, ["amy@users", "amy@users", "bo@users", "cat@users"]) as (one, two, bo, cat):
            *wrote, first, second = at_once((retitles, one, 1, 25), (retitles, two, 2, 25), (reads, bo, 3, 50),
                                            (reads, cat, 4, 50))
            titles = {0: "Sea", **wrote[0], **wrote[1]}
            for stamp, title in first + second:
                want(titles.get(stamp), title, f"the title read at {stamp}")
        service.end(b'{"alarms":[50,0],"audits":[100,0]}\n', [b""])


def trims(connection, count):
    for _ in range(count):
        want({"answer": "trimmed"}, connection.ask({"trim": {"item": "picture/0", "part": 0}}), "a trim")


def readers_beside_trims(program):
    """Old versions are let go while they are read."""
    with Service(program, ruled([["allow", "EVERYONE@", 257, 0]], []), 4) as service:
        with connected(service, ["amy@users", "amy@users", "bo@users", "cat@users"]) as (one, two, bo, cat):
            wrote, _, first, second = at_once((retitles, one, 1, 50), (trims, two, 100), (reads, bo, 3, 50),
                                              (reads, cat, 4, 50))
            titles = {0: "Sea", **wrote}
            for stamp, title in first + second:
                want(titles.get(stamp), title, f"the title read at {stamp}")
            want([(max(titles), titles[max(titles)])], reads(two, 2, 1), "what is read at last")
        service.end(NOTHING_NOTED, [b""])


def change_of_two_lists(program):
    """Bo sees the album with its picture, or nothing: never an album without its picture, which no write has left."""
    see, look = ["allow", "EVERYONE@", 128, 0], ["allow", "EVERYONE@", 1, 0]
    shown = {"answer": "listed", "object": "album/0", "rows": [["picture/0", "Sea"]], "stamp": 0}
    hidden = {"answer": "denied", "reasons": [["album/0", 1, "end"]]}

    def change(amy):
        for n in range(40):
            shows = n % 2 == 1
            lists = [["picture/0", [OWNER] + [see] * shows], ["album/0", [OWNER] + [look] * shows]]
            want("committed", amy.ask({"ask": {"do": "set_lists", "lists": lists}})["answer"], "a change of two lists")

    def look_on(bo, client):
        for _ in range(60):
            answer = bo.ask({"ask": {"album": "album/0", "do": "list"}})
            want(client, answer.pop("client"), "the client")
            want(shown if answer["answer"] == "listed" else hidden, answer, "what is listed")

    with Service(program, ruled([OWNER, see], [OWNER, look]), 3) as service:
        with connected(service, ["amy@users", "bo@users", "bo@users"]) as (amy, *bos):
            at_once((change, amy), (look_on, bos[0], 2), (look_on, bos[1], 3))
            answer = bos[0].ask({"ask": {"album": "album/0", "do": "list"}})
            want("listed", answer["answer"], "what is listed at last")
        service.end(NOTHING_NOTED, [b""])


def sweep_all(connection):
    """Has every stamp swept that is pending somewhere, and returns whether there was one."""
    found = False
    for part in range(3):
        answer = connection.ask({"pending": part})
        want("pending", answer["answer"], "what is pending at a partition")
        for stamp in answer["stamps"]:
            found = True
            answer = connection.ask({"sweep": {"part": part, "stamp": stamp}})
            want(answer if answer in (SWEPT, NOT_PREPARED) else SWEPT, answer, "the answer to a sweep")
    return found


def set_two_lists(amy, masks):
    """Sets both lists, once for each mask; what was carried out, by stamps."""
    wrote = {}
    for mask in masks:
        lists = [[item, [OWNER, ["allow", "bo@users", mask, 0]]] for item in ("picture/0", "album/0")]
        answer = amy.ask({"ask": {"do": "set_lists", "lists": lists}})
        if answer["answer"] == "committed":
            wrote[answer["stamp"]] = [mask]
        else:
            want("aborted", answer["answer"], "a write that is swept")
    return wrote


def list_of(connection, item):
    """The stamp of an item's list, and the masks after its owner's."""
    answer = connection.ask({"ask": {"do": "get_list", "object": item}})
    return answer["stamp"], [mask for _, _, mask, _ in answer["entries"][1:]]


def swept_writes(program):
    """Each write is carried out or not, as its answer says. A last one, that nobody sweeps, is."""
    is_done = threading.Event()

    def write(amy):
        try:
            return set_two_lists(amy, range(1, 61))
        finally:
            is_done.set()

    def sweep(connection):
        while not is_done.is_set():
            sweep_all(connection)

    with Service(program, ruled([OWNER], [OWNER]), 3) as service:
        with connected(service, ["amy@users"] * 3) as (amy, one, two):
            wrote, *_ = at_once((write, amy), (sweep, one), (sweep, two))
            while sweep_all(one):
                pass
            wrote = {0: [], **wrote}
            for masks in ([], [64]):
                wrote.update(set_two_lists(amy, masks))
                for item in ("picture/0", "album/0"):
                    want((max(wrote), wrote[max(wrote)]), list_of(amy, item), f"the list of {item}")
            want([64], wrote[max(wrote)], "what is written last")
        service.end(NOTHING_NOTED, [b""])


def hundred_connections(program):
    """Each has the number of its turn, whoever speaks first."""
    with Service(program, joined(TRIP), 100) as service:
        connections = [Connection(service.port, ONE_PIECE) for _ in range(100)]
        for client, connection in reversed(list(enumerate(connections, 1))):
            want({"answer": "hello", "client": client}, connection.ask({"who": "bo@users"}), "a hello")
        for connection in connections:
            connection.finish()
        service.end(NOTHING_NOTED, [b""])


def answers_left_unread(program):
    """Bo is owed more than a socket has room for, and takes nothing of it until amy has had her answers."""
    content = "73" * 4096
    with Service(program, joined(TRIP).replace(b"736561", content.encode()), 2) as service:
        bo = Connection(service.port, ONE_PIECE, room=4096)
        bo.send(b'{"who":"bo@users"}\n' + b'{"ask":{"do":"read","object":"picture/0"}}\n' * 700)
        amy = Connection(service.port, ONE_PIECE)
        want({"answer": "hello", "client": 2}, amy.ask({"who": "amy@users"}), "a hello")
        time.sleep(1)  # by now bo's answers should be stuck; whether they are changes nothing
        answer = amy.ask({"ask": {"do": "retitle", "object": "picture/0", "title": "Sea"}})
        want({"answer": "committed", "client": 2, "stamp": 65538}, answer, "the answer to another")
        amy.finish()
        want(b'{"answer":"hello","client":1}\n', bo.answer(), "a hello")
        for _ in range(700):
            answer = json.loads(bo.answer())
            want(("served", content, "Sea"), (answer["answer"], answer["content"], answer["title"]),
                 "an answer taken late")
        bo.finish()
        service.end(NOTHING_NOTED, [b""])


def broken_off_while_answered(program):
    with Service(program, joined(TRIP), 2) as service:
        bo = Connection(service.port, ONE_PIECE)
        bo.send(b'{"who":"bo@users"}\n' + b'{"pending":0}\n' * 2000)
        bo.breaks()
        amy = Connection(service.port, ONE_PIECE)
        want({"answer": "hello", "client": 2}, amy.ask({"who": "amy@users"}), "a hello")
        want({"answer": "pending", "stamps": []}, amy.ask({"pending": 0}), "the answer to another")
        amy.finish()
        service.end(NOTHING_NOTED, [b"album: reading failed\n", b"album: writing failed\n"])


def port_that_is_taken(program):
    """It is asked for once the opening is taken."""
    with socket.create_server(("127.0.0.1", 0)) as taken:
        words = [program, "serve", str(taken.getsockname()[1])]
        for opening, wanted in ((joined(TRIP), (1, b"", b"album: port refused")),
                                (b"{}\n", (1, b'{"name":"BadRequest","refused":3}\n',
                                           b"album: opening, line 1: BadRequest"))):
            done = subprocess.run(words, input=opening, capture_output=True, timeout=SECONDS)
            want(wanted, (done.returncode, done.stdout, done.stderr.splitlines()[-1]), "the run")


FACTS = {
    "four connections write one picture at once": four_writers,
    "what is read beside writes never goes back": readers_beside_writers,
    "what is read beside writes and trims never goes back": readers_beside_trims,
    "a change of two lists is seen whole or not at all": change_of_two_lists,
    "writes that are swept while they are carried out": swept_writes,
    "a hundred connections at once": hundred_connections,
    "a connection that leaves its answers unread holds up nobody": answers_left_unread,
    "a connection that breaks off while it is answered": broken_off_while_answered,
    "a port that somebody has": port_that_is_taken,
}


def checks():
    """Each row: its name, how it is run on a program, and what it is."""
    return rows_of("serve", FACTS)
