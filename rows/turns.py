"""Epochs of `serve --data` that turn while connections stay: a store whose partitions may make few marks goes on beyond
them, and nobody who is connected sees more of it than a longer answer. Run by itself, `rows/turns.py PROGRAM [WRITES]`
says what was seen."""
import json
import sys
import threading
import time

from data import EVERYONE, names_in, opening, picture, served
from serving import SECONDS, Connection, Differs, Service, held_in_folder, in_folder, rows_of, want

PICTURES = 6
LIMIT = 400


def first(**more):
    """Six pictures, each with a list of its own; a partition may make 400 marks, and so some 200 writes."""
    items = [row for n in range(1, PICTURES) for row in (
        {"item": f"picture/{n}", "value": picture("0", number=n + 1)},
        {"item": f"list/{n + 1}", "value": {"entries": [EVERYONE]}})]
    return opening(2, *items, **{"limit": LIMIT, **more})


def greeted(service, room=None):
    connection = Connection(service.port, 1 << 20, room)
    want("hello", connection.ask({"who": "amy@users"})["answer"], "a hello")
    return connection


def epoch_of(folder):
    """The number of the newest epoch."""
    return max(int(name.split("-")[1].split(".")[0]) for name in names_in(folder) if name.endswith(".opening"))


def retitle(number, title):
    return {"ask": {"do": "retitle", "object": f"picture/{number}", "title": str(title)}}


def set_to(connection, number, title):
    """Sets a title. What a full partition refuses is asked again: it turns in a moment."""
    for _ in range(2000):
        answer = connection.ask(retitle(number, title))
        if answer.get("answer") == "committed":
            return
        if answer.get("name") != "Full":
            raise Differs(f"a retitle of picture/{number} is answered {answer}")
        time.sleep(0.005)
    raise Differs("a partition stays full")


def writes(connection, number, count, wrong):
    try:
        for title in range(1, count + 1):
            set_to(connection, number, title)
    except (OSError, ValueError, Differs) as error:
        wrong.append(error)


def titles_in(connection):
    return [connection.ask({"ask": {"do": "read", "object": f"picture/{n}"}})["title"] for n in range(1, PICTURES)]


def stamps_in(connection):
    return [connection.ask({"ask": {"do": "read", "object": f"picture/{n}"}})["stamp"] for n in range(1, PICTURES)]


def turns_under_load(program, folder, count=600):
    """Five connections write, and one has nothing to say until all is over. All are answered in the epochs that come,
    and a start finds what was written."""
    wrong = []
    with Service(program, first(), 65535, "--data", str(folder)) as service:
        silent = greeted(service)
        connections = [greeted(service) for _ in range(1, PICTURES)]
        threads = [threading.Thread(target=writes, args=(connection, n + 1, count, wrong))
                   for n, connection in enumerate(connections)]
        for thread in threads:
            thread.start()
        for thread in threads:
            thread.join()
        if wrong:
            raise wrong[0]
        want([str(count)] * (PICTURES - 1), titles_in(silent), "the titles that one sees who was silent")
        stamps = stamps_in(silent)
        for connection in [silent, *connections]:
            connection.finish()
        # Each write makes two marks, at one partition of two at least.
        least = 2 * count * (PICTURES - 1) // (2 * LIMIT)
        if not epoch_of(folder) >= least:
            raise Differs(f"the epoch is {epoch_of(folder)}, and at least {least} are wanted")
        want(b"", service.said(), "standard error")
    with served(program, folder) as service:
        connection = greeted(service)
        want([str(count)] * (PICTURES - 1), titles_in(connection), "the titles after a start")
        want(stamps, stamps_in(connection), "their stamps")
        connection.finish()


def lines_at_once(program, folder):
    """A connection sends a thousand lines and reads no answer until all are sent, and the last line in two parts: each
    line is answered once, in order, whatever epoch it is read in."""
    count = 1000
    lines = [json.dumps(retitle(1 + n % 2, n)) + "\n" for n in range(count)]
    data = "".join(lines).encode()
    with Service(program, first(), 65535, "--data", str(folder)) as service:
        connection, others = greeted(service), greeted(service)
        sender = threading.Thread(target=connection.send, args=(data[:-20],))
        sender.start()
        answers = [json.loads(connection.answer()) for _ in range(count - 1)]
        sender.join()
        # The last line has begun. While it waits for its end, an epoch turns.
        before = epoch_of(folder)
        for title in range(LIMIT):
            set_to(others, 3, title)
        if epoch_of(folder) == before:
            raise Differs("no epoch has turned")
        connection.send(data[-20:])
        answers.append(json.loads(connection.answer()))
        kinds = {answer.get("name") or answer.get("answer") for answer in answers}
        if not kinds <= {"committed", "Full"}:
            raise Differs(f"the answers are {sorted(map(str, kinds))}")
        want("committed", answers[-1].get("answer"), "the answer to the last line")
        last = [max(n for n in range(count) if n % 2 == k and answers[n].get("answer") == "committed") for k in (0, 1)]
        want([str(n) for n in last], titles_in(others)[:2], "the titles")
        connection.finish()
        others.finish()


def takes_no_answers(program, folder):
    """A client asks, and takes no answer. Others turn the epoch within seconds, and go on."""
    with Service(program, first(), 65535, "--data", str(folder)) as service:
        others = greeted(service)
        big = {"ask": {"do": "add_picture", "album": "album/0", "title": "big", "content": "ab" * 4_096}}
        made = others.ask(big)["stamp"]
        stalled = greeted(service, room=4096)
        asked = (json.dumps({"ask": {"do": "read", "object": f"picture/{made}"}}) + "\n").encode()
        sender = threading.Thread(target=until_cut, args=(stalled, asked * 400))
        sender.start()
        time.sleep(0.3)
        before, began = epoch_of(folder), time.monotonic()
        for title in range(LIMIT):
            set_to(others, 3, title)
        took = time.monotonic() - began
        if epoch_of(folder) == before or took > 8:
            raise Differs(f"the epoch is {epoch_of(folder)} after {before}, in {took:.1f} s")
        others.finish()
        stalled.close()
        sender.join()


def until_cut(connection, data):
    try:
        connection.send(data)
    except OSError:
        pass


def turns_by_bytes(program, folder):
    """With `--log-mb 1` four hundred writes of pictures of 4,096 bytes turn the epoch twice, though few marks are made.
    What was added is there."""
    with Service(program, first(limit=10_000), 65535, "--data", str(folder), "--log-mb", "1") as service:
        connection, made = greeted(service), []
        for n in range(100):
            add = {"do": "add_picture", "album": "album/0", "title": str(n), "content": "ab" * 4_096}
            answer = connection.ask({"ask": add})
            want("committed", answer.get("answer"), f"the answer to addition {n}")
            made.append([f"picture/{answer['stamp']}", str(n)])
        for row in made * 3:
            row[1] += "!"
            answer = connection.ask({"ask": {"do": "retitle", "object": row[0], "title": row[1]}})
            want("committed", answer.get("answer"), f"the answer to {row}")
        rows = connection.ask({"ask": {"do": "list", "album": "album/0"}})["rows"]
        want(made, [row for row in rows if row in made], "what is listed")
        # (a turn is looked for twenty times a second)
        until = time.monotonic() + 5
        while epoch_of(folder) < 3 and time.monotonic() < until:
            time.sleep(0.02)
        want(True, epoch_of(folder) >= 3, f"that epoch {epoch_of(folder)} is the third, or a later one")
        connection.finish()


def ends_as_it_turns(program, folder):
    """The input ends while epochs turn: what was asked is answered, and the service ends well, with nothing to say."""
    wrong = []
    with Service(program, first(), 65535, "--data", str(folder), "--until-eof", goes_on=True) as service:
        connections = [greeted(service) for _ in range(1, PICTURES)]
        answered = [0] * len(connections)

        def ask_until_closed(n):
            try:
                while True:
                    set_to(connections[n], n + 1, answered[n] + 1)
                    answered[n] += 1
            except (OSError, ValueError):
                pass
            except Differs as error:
                if "Closed" not in str(error):
                    wrong.append(error)

        threads = [threading.Thread(target=ask_until_closed, args=(n,)) for n in range(len(connections))]
        for thread in threads:
            thread.start()
        while epoch_of(folder) < 3:
            time.sleep(0.001)
        service.run.stdin.close()
        service.run.stdin = None
        for thread in threads:
            thread.join()
        want(0, service.run.wait(SECONDS), "the status")
        if wrong:
            raise wrong[0]
    with served(program, folder) as service:
        connection = greeted(service)
        for shown, least in zip(titles_in(connection), answered):
            if not least <= int(shown) <= least + 1:
                raise Differs(f"a title is {shown} after a start, and {least} was answered committed")
        connection.finish()


ROWS = {
    "epochs turn while connections write": turns_under_load,
    "a thousand lines at once, over epochs": lines_at_once,
    "an epoch turns by the bytes of its log": turns_by_bytes,
    "an epoch turns though a client takes no answers": takes_no_answers,
    "the input ends as an epoch turns": ends_as_it_turns,
}


def checks():
    """The rows: the name of each, how it is run on a program, and what it is."""
    return rows_of("turns", ROWS, held_in_folder)


def main():
    program, given = sys.argv[1], [int(word) for word in sys.argv[2:]]
    for name, hold in ROWS.items():
        began = time.monotonic()
        in_folder(program, hold, *(given if hold is turns_under_load else ()))
        print(f"{name}: {time.monotonic() - began:.1f} s")


if __name__ == "__main__":
    main()
