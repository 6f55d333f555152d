"""A service that is killed while it writes, and started again on its folder: nothing that was answered is lost, no
write is there in part, and each is shown at the stamp that was answered. Run by itself, `rows/kills.py PROGRAM [KILLS]
[SEED]` says how each life ended."""
import pathlib
import random
import shutil
import sys
import tempfile
import threading
import time

from crowds import connected
from races import EVERYONE, album, entries, opening, picture
from serving import Connection, Differs, Service, want, wrong_of

PICTURES = 8
CLIENTS = 6


def first_items():
    """Pictures of one album, each with a list of its own, and two lists that are always set together."""
    lists = [entries(n, EVERYONE[:3] + [0]) for n in range(PICTURES)] + [entries(100, EVERYONE)]
    pictures = [picture(0, n, "0") for n in range(PICTURES)]
    return [*pictures, album(0, 100, [f"picture/{n}" for n in range(PICTURES)]), *lists]


class Seen:
    """What clients were answered: of each picture its titles in the order in which they were committed by one writer,
    and of each pair of lists the mask that it has."""

    def __init__(self):
        self.lock = threading.Lock()
        self.titles = {n: 0 for n in range(PICTURES)}   # the greatest number that was answered committed
        self.asked = {n: 0 for n in range(PICTURES)}    # the greatest that was ever asked
        self.pairs = {}                                 # of each pair: the greatest that was answered, and asked
        self.added = set()                              # additions that were answered committed
        self.reads = {n: 0 for n in range(PICTURES)}    # the greatest that was ever read
        self.stamps = {}                                # of a picture and its title: the stamp that was answered
        self.shown = {n: 0 for n in range(PICTURES)}    # the stamp at which a life showed it


def retitles(connection, seen, number, stop):
    """Sets the title of one picture to rising numbers: nobody else writes it."""
    while not stop.is_set():
        with seen.lock:
            seen.asked[number] += 1
            title = seen.asked[number]
        answer = connection.ask({"ask": {"do": "retitle", "object": f"picture/{number}", "title": str(title)}})
        if answer.get("answer") == "committed":
            with seen.lock:
                seen.titles[number] = max(seen.titles[number], title)
                seen.stamps[number, title] = answer["stamp"]


def pairs(connection, seen, one, other, stop):
    """Sets two lists together, again and again, to one number of entries."""
    count = 0
    while not stop.is_set():
        count = count % 60 + 1
        rows = [["allow", f"u{n}@users", 1, 0] for n in range(count)] + [EVERYONE[:3] + [0]]
        connection.ask({"ask": {"do": "set_lists", "lists": [[f"picture/{one}", rows], [f"picture/{other}", rows]]}})


def adds(connection, seen, stop):
    """Adds pictures, and deletes them again, so that the album never fills up."""
    while not stop.is_set():
        answer = connection.ask({"ask": {"do": "add_picture", "album": "album/0", "title": "x", "content": ""}})
        if answer.get("answer") != "committed":
            continue
        made = f"picture/{answer['stamp']}"
        with seen.lock:
            seen.added.add(made)
        if random.random() < 0.8:
            with seen.lock:
                seen.added.discard(made)
            connection.ask({"ask": {"do": "delete", "object": made}})


def reads(connection, seen, stop):
    """Reads titles: what was read once must be there after a start."""
    while not stop.is_set():
        number = random.randrange(PICTURES)
        answer = connection.ask({"ask": {"do": "read", "object": f"picture/{number}"}})
        if answer.get("answer") == "served":
            with seen.lock:
                seen.reads[number] = max(seen.reads[number], int(answer["title"]))


def until_cut(work, *given):
    """Does it until the connection ends."""
    try:
        work(*given)
    except (OSError, ValueError, Differs):
        pass


def checked(connection, seen):
    """What a new life shows is what was answered, and nothing in part."""
    for number in range(PICTURES):
        answer = connection.ask({"ask": {"do": "read", "object": f"picture/{number}"}})
        want("served", answer.get("answer"), f"a read of picture/{number}")
        shown = int(answer["title"])
        if not max(seen.titles[number], seen.reads[number]) <= shown <= seen.asked[number]:
            raise Differs(f"picture/{number} has the title {shown}: {seen.titles[number]} was answered committed, "
                          f"{seen.reads[number]} was read, {seen.asked[number]} was the last that was asked")
        seen.titles[number] = seen.reads[number] = shown
        want(seen.stamps.setdefault((number, shown), answer["stamp"]), answer["stamp"],
             f"the stamp of picture/{number} with the title {shown}")
        if answer["stamp"] < seen.shown[number]:
            raise Differs(f"picture/{number} goes back from the stamp {seen.shown[number]} to {answer['stamp']}")
        seen.shown[number] = answer["stamp"]
    for one, other in ((0, 1), (2, 3)):
        both = [connection.ask({"ask": {"do": "get_list", "object": f"picture/{n}"}}) for n in (one, other)]
        want(*((of["entries"], of["stamp"]) for of in both), f"the lists of picture/{one} and picture/{other}")
    rows = {item for item, _ in connection.ask({"ask": {"do": "list", "album": "album/0"}})["rows"]}
    missing = seen.added - rows
    if missing:
        raise Differs(f"{sorted(missing)[:3]} and others, {len(missing)} in all, were added and are not listed")
    # Others may have been made without an answer. All of them go, so that there is room.
    for item in rows:
        if int(item.partition("/")[2]) >= 65536:
            connection.ask({"ask": {"do": "delete", "object": item}})
    seen.added.clear()


def life(program, folder, first, seen, seconds):
    """One life of the service: it is looked at, written to, and killed."""
    begun = time.monotonic()
    with Service(program, first, 65535, "--data", folder) as service:
        took = time.monotonic() - begun
        with connected(service, ["amy@users"]) as [connection]:
            checked(connection, seen)
        stop = threading.Event()
        work = [*((retitles, seen, n, stop) for n in (4, 5, 6, 7)), (pairs, seen, 0, 1, stop),
                (pairs, seen, 2, 3, stop), (adds, seen, stop), (adds, seen, stop), (reads, seen, stop)]
        connections = [greeted(service) for _ in work]
        threads = [threading.Thread(target=until_cut, args=(how, connection, *given))
                   for connection, (how, *given) in zip(connections, work)]
        for thread in threads:
            thread.start()
        time.sleep(seconds)
        service.run.kill()
        stop.set()
        for thread in threads:
            thread.join()
        for connection in connections:
            connection.close()
    return took


def greeted(service):
    connection = Connection(service.port, 1 << 16)
    connection.ask({"who": "amy@users"})
    return connection


def kills(program, count=25, seed=1, say=lambda text: None):
    """So many lives, each killed after a moment."""
    chance = random.Random(seed)
    folder = tempfile.mkdtemp(prefix="album-data-")
    seen = Seen()
    try:
        first = opening(True, *first_items())
        for number in range(count):
            took = life(program, folder, first if number == 0 else b"", seen, chance.uniform(0.02, 0.4))
            size = sum(file.stat().st_size for file in pathlib.Path(folder).iterdir())
            say(f"life {number + 1}: began after {took * 1000:.0f} ms; {sum(seen.titles.values())} titles, "
                f"{size:,} bytes in {len(list(pathlib.Path(folder).iterdir()))} files")
        with Service(program, b"", 65535, "--data", folder) as service:
            with connected(service, ["amy@users"]) as [connection]:
                checked(connection, seen)
    finally:
        shutil.rmtree(folder)


def kills_row(program, count):
    """What is wrong with a service that is killed so often, if anything is."""
    return wrong_of(kills, program, count)


def checks():
    """The row: its name, how it is run on a program, and what it is."""
    yield "kills: a service is killed 12 times while it writes", kills_row, 12


if __name__ == "__main__":
    kills(sys.argv[1], *map(int, sys.argv[2:]), say=print)
