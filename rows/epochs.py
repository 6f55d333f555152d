"""Epochs of `serve --epochs`, of which nothing is on a disk, and dumps: what a running service would leave to its next
epoch, over a connection. Run by itself, `rows/epochs.py PROGRAM [WRITES]` says what was seen."""
import json
import pathlib
import subprocess
import sys
import tempfile
import threading
import time

from data import ALL, EVERYONE, compact, opening, picture
from serving import SECONDS, Connection, Differs, Service, rows_of, want
from turns import LIMIT, PICTURES, first, greeted, retitle, set_to, stamps_in, titles_in, writes

# So many counters are left out after each epoch.
MARGIN = 1 << 24


def epoch_shown(service):
    """The number of the epoch that a newcomer is told."""
    connection = Connection(service.port, 1 << 20)
    hello = connection.ask({"who": "amy@users"})
    connection.finish()
    return hello["epoch"]


def dumped(program, service, who="amy@users"):
    """The status of `album dump`, what it prints, and what it says."""
    run = subprocess.run([program, "dump", str(service.port), "--as", who], capture_output=True, timeout=SECONDS)
    return run.returncode, run.stdout, run.stderr


def dump_of(program, service):
    """The header of a dump, and the rows of its items by their names."""
    status, text, said = dumped(program, service)
    want((0, b""), (status, said), "how a dump ends")
    lines = [json.loads(line) for line in text.splitlines()]
    want({"begin": True}, lines[-1], "the last line of a dump")
    return lines[0]["open"], {row["item"]: row for row in lines[1:-1]}


def turns_in_memory(program, count=600):
    """Five connections write, and one has nothing to say until all is over. All are answered, whatever epoch it is, and
    what was written has its stamps. No file is made."""
    wrong = []
    with tempfile.TemporaryDirectory() as folder, Service(program, first(), 65535, "--epochs") as service:
        want(1, epoch_shown(service), "the first epoch")
        silent = greeted(service)
        connections = [greeted(service) for _ in range(1, PICTURES)]
        threads = [threading.Thread(target=writes, args=(connection, n + 1, count, wrong))
                   for n, connection in enumerate(connections)]
        for thread in threads:
            thread.start()
        for thread in threads:
            thread.join()
        if wrong:
            raise wrong[0]
        want([str(count)] * (PICTURES - 1), titles_in(silent), "the titles that one sees who was silent")
        want(True, all(stamp > 0 for stamp in stamps_in(silent)), f"that {stamps_in(silent)} are stamps of writes")
        least = 2 * count * (PICTURES - 1) // (2 * LIMIT)
        if not epoch_shown(service) >= least:
            raise Differs(f"the epoch is {epoch_shown(service)}, and at least {least} are wanted")
        for connection in [silent, *connections]:
            connection.finish()
        want(b"", service.said(), "standard error")
        want([], list(pathlib.Path(folder).iterdir()), "the files")


def turns_by_bytes(program):
    """With `--log-mb 1` four hundred writes of pictures of 4,096 bytes turn the epoch, though few marks are made."""
    with Service(program, first(limit=10_000), 65535, "--epochs", "--log-mb", "1") as service:
        connection = greeted(service)
        add = {"do": "add_picture", "album": "album/0", "title": "0", "content": "ab" * 4_096}
        made = connection.ask({"ask": add})["stamp"]
        for n in range(400):
            answer = connection.ask({"ask": {"do": "retitle", "object": f"picture/{made}", "title": str(n)}})
            want("committed", answer.get("answer"), f"the answer to retitle {n}")
        until = time.monotonic() + 5
        while epoch_shown(service) < 2 and time.monotonic() < until:
            time.sleep(0.02)
        want(True, epoch_shown(service) >= 2, "that an epoch has turned")
        want("399", connection.ask({"ask": {"do": "read", "object": f"picture/{made}"}})["title"], "the title")
        connection.finish()


def only_where_epochs_turn(program):
    """Without `--epochs` and `--data` a hello says no epoch."""
    with Service(program, first(), 65535) as service:
        connection = Connection(service.port, 1 << 20)
        want({"answer": "hello", "client": 1}, connection.ask({"who": "amy@users"}), "a hello")
        connection.finish()


def dump_worked_out(program, *words):
    """One title is set, at stamp 65537. A dump has that with its stamp, and all else as it was at first. Counters begin
    2^24 above the greatest of a mark."""
    opened = opening(2)
    rows = {row["item"]: {"stamp": 0, **row} for row in map(json.loads, opened.splitlines()) if "item" in row}
    with Service(program, opened, 65535, *words) as service:
        connection = greeted(service)
        want(65537, connection.ask(retitle(0, "Lake"))["stamp"], "the stamp")
        header, found = dump_of(program, service)
        want({"checked": True, "first": 1 + MARGIN, "limit": 1000, "parts": 2, "policy": 3, "trace": False}, header,
             "the header")
        rows["picture/0"]["value"]["title"] = "Lake"
        rows["picture/0"]["stamp"] = 65537
        want(rows, found, "the rows")
        # The service goes on, and a replay opens on the dump: it shows the title and the stamp.
        want("committed", connection.ask(retitle(0, "Sea"))["answer"], "the answer to a write after the dump")
        connection.finish()


def dump_opens(program):
    """A replay and a service open on a dump, and show what was written, at its stamp."""
    with Service(program, opening(3), 65535, "--epochs") as service:
        connection = greeted(service)
        add = {"do": "add_picture", "album": "album/0", "title": "Hut", "content": "ab"}
        made = connection.ask({"ask": add})["stamp"]
        connection.finish()
        text = dumped(program, service)[1]
    read = {"do": "read", "object": f"picture/{made}"}
    events = [{"client": 1, "who": "amy@users", "ask": read}, {"deliver": [1, 60]}]
    run = subprocess.run([program, "replay"], input=text + b"".join(compact(event) + b"\n" for event in events),
                         capture_output=True, timeout=SECONDS)
    shown = [json.loads(line) for line in run.stdout.splitlines() if b'"served"' in line]
    want([("Hut", made)], [(row["title"], row["stamp"]) for row in shown], "what a replay shows")
    with tempfile.NamedTemporaryFile() as file:
        file.write(text)
        file.flush()
        with Service(program, b"", 65535, "--opening", file.name) as service:
            connection = greeted(service)
            answer = connection.ask({"ask": read})
            want(("Hut", made), (answer["title"], answer["stamp"]), "what a service shows")
            connection.finish()


def dumps_under_load(program, *words):
    """Writers set the lists of two pictures at two partitions together, and titles. Each dump has what was answered
    before it was asked, or newer, and of the two lists none without the other."""
    opened = opening(2, {"item": "picture/1", "value": picture("0", number=2)},
                     {"item": "list/2", "value": {"entries": [EVERYONE]}}, limit=2000)
    wrong, done, answered = [], threading.Event(), [0]

    def share(service):
        connection, mask = greeted(service), 0
        try:
            while not done.is_set():
                mask = mask % 127 + 1
                entries = [["allow", "amy@users", ALL, 0], ["allow", "bo@users", mask, 0]]
                lists = [{"object": item, "entries": entries} for item in ("picture/0", "picture/1")]
                connection.ask({"ask": {"do": "set_lists", "lists": lists}})
            connection.finish()
        except (OSError, ValueError, Differs) as error:
            wrong.append(error)

    def count(service):
        connection = greeted(service)
        try:
            while not done.is_set():
                set_to(connection, 1, answered[0] + 1)
                answered[0] += 1
            connection.finish()
        except (OSError, ValueError, Differs) as error:
            wrong.append(error)

    with Service(program, opened, 65535, *words) as service:
        threads = [threading.Thread(target=work, args=(service,)) for work in (share, share, count)]
        for thread in threads:
            thread.start()
        try:
            for _ in range(40):
                before = answered[0]
                _, found = dump_of(program, service)
                title = int(found["picture/1"]["value"]["title"])
                if title < before:
                    raise Differs(f"a dump has the title {title}, and {before} was answered before")
                want(found["list/0"]["value"]["entries"][1:], found["list/2"]["value"]["entries"][1:],
                     "the lists that are set together")
        finally:
            done.set()
            for thread in threads:
                thread.join()
        if wrong:
            raise wrong[0]


def dumps_for_admins(program):
    """With `--admin` nobody else has a dump: that is refused by its name, and `album dump` ends with status 1."""
    with Service(program, opening(2), 65535, "--epochs", "--admin", "amy@users") as service:
        connection = Connection(service.port, 1 << 20)
        connection.ask({"who": "bo@users"})
        want({"name": "NotAdmin", "refused": 24}, connection.ask({"dump": True}), "the answer to a dump")
        connection.finish()
        status, text, _ = dumped(program, service, "bo@users")
        want((1, b'{"name":"NotAdmin","refused":24}\n'), (status, text), "what a dump prints")
        want(0, dumped(program, service)[0], "the status for an admin")


def dump_in_an_ask(program):
    """`album ask` passes the lines of a dump on, and then answers what comes after it."""
    with Service(program, opening(2), 65535, "--epochs") as service:
        requests = b'{"dump":true}\n{"do":"read","object":"picture/0"}\n'
        run = subprocess.run([program, "ask", str(service.port), "--as", "amy@users"], input=requests,
                             capture_output=True, timeout=SECONDS)
        lines = [json.loads(line) for line in run.stdout.splitlines()]
        want({"answer": "dump", "lines": 6}, lines[0], "the first line")
        want({"begin": True}, lines[6], "the last line of the dump")
        want(["Sea"], [line["title"] for line in lines[7:]], "the title that is read after it")


def pair(hold, *words):
    return lambda program: hold(program, *words)


ROWS = {
    "epochs of --epochs turn while connections write": turns_in_memory,
    "an epoch of --epochs turns by bytes": turns_by_bytes,
    "a hello says no epoch where none turns": only_where_epochs_turn,
    "a dump, worked out": dump_worked_out,
    "a dump of --epochs, worked out": pair(dump_worked_out, "--epochs"),
    "a replay and a service open on a dump": dump_opens,
    "dumps of --epochs while connections write": pair(dumps_under_load, "--epochs"),
    "dumps are for admins": dumps_for_admins,
    "a dump within an ask": dump_in_an_ask,
}


def checks():
    """The rows: the name of each, how it is run on a program, and what it is."""
    return rows_of("epochs", ROWS)


def main():
    program, given = sys.argv[1], [int(word) for word in sys.argv[2:]]
    for name, hold in ROWS.items():
        began = time.monotonic()
        hold(program, *(given if hold is turns_in_memory else ()))
        print(f"{name}: {time.monotonic() - began:.1f} s")


if __name__ == "__main__":
    main()
