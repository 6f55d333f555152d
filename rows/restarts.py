"""A restart after each delivery of a write at two partitions, and after each other order of its two Prepares.

Two pictures of amy's lie with their lists at two partitions, and she hides both. Her request reads twice, which takes
28 messages; then each partition is sent a Prepare, says that it has prepared, is sent a Commit, and says that it has
committed: 36 in all. Once both Prepares are delivered the next epoch has the write; before it has nothing of it."""
import json
import subprocess

from serving import SECONDS, joined, want, wrong_of

READ, PREPARES, ALL = 28, (29, 30), 36
PICTURE = {"content": "", "group": 0, "home": 0, "owner": "amy@users", "title": "T"}
ITEMS = [[f"picture/{number}", PICTURE | {"list": number}] for number in (0, 1)]
LISTS = [[f"list/{number}", {"entries": [["allow", "OWNER@", 2032127, 0], ["allow", "EVERYONE@", 1, 0]]}]
         for number in (0, 1)]
HIDDEN = [[f"picture/{number}", [["allow", "OWNER@", 2032127, 0]]] for number in (0, 1)]
COMMITTED = {"answer": "committed", "client": 1, "stamp": 65537}


def script(is_checked, delivered):
    """The lines of a replay that restarts once these messages are delivered, and then shows both pictures to bo."""
    yield {"open": {"parts": 2} | ({"checked": True} if is_checked else {})}
    yield from ({"item": item, "value": value} for item, value in ITEMS + LISTS)
    yield {"begin": True}
    yield {"ask": {"do": "set_lists", "lists": HIDDEN}, "client": 1, "who": "amy@users"}
    yield from ({"deliver": number} for number in delivered)
    yield {"restart": True}
    for number, first in ((0, 1), (1, 17)):
        yield {"ask": {"do": "read", "object": f"picture/{number}"}, "client": 2, "who": "bo@users"}
        yield {"deliver": [first, first + 15]}


def printed(delivered):
    """What that prints."""
    if ALL in delivered:
        yield COMMITTED
    yield {"answer": "restarted", "epoch": 2}
    for of in ("picture/0", "picture/1"):
        if all(prepare in delivered for prepare in PREPARES):
            yield {"answer": "denied", "client": 2, "reasons": [[of, 1, "end"]]}
        else:
            yield {"answer": "served", "client": 2, "content": "", "object": of, "stamp": 0, "title": "T"}


def lines(values):
    return joined(json.dumps(value, separators=(",", ":")) for value in values)


def after(program, is_checked, delivered):
    done = subprocess.run([program, "replay"], input=lines(script(is_checked, delivered)), capture_output=True,
                          timeout=SECONDS)
    want(lines(printed(delivered)), done.stdout, f"what is printed after {len(delivered)} deliveries")


def all_after(program, is_checked):
    for count in range(ALL + 1):
        after(program, is_checked, range(1, count + 1))
    for prepares in (PREPARES[1:], PREPARES[::-1]):
        after(program, is_checked, [*range(1, READ + 1), *prepares])


def checks():
    """Each row: its name, how it is run on a program, and what it is."""
    def check(program, is_checked):
        return wrong_of(all_after, program, is_checked)

    yield "restarts: after each delivery, in a checked store", check, True
    yield "restarts: after each delivery, in another store", check, False
