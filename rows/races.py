"""Writes of one item that race over connections to a checked service: nothing that was answered is lost. Run by itself,
`rows/races.py PROGRAM [--plain] [SECONDS]` says how each race went; with --plain the store isn't checked, and loses
some."""
import json
import pathlib
import random
import sys
import time

from crowds import at_once, connected
from serving import NOTHING_NOTED, SECONDS, Connection, Differs, Service, joined, rows_of, want, wrong_of
from talks import ONE_PIECE

ALL = 2032127
EVERYONE = ["allow", "EVERYONE@", ALL, 3]
ROUNDS = 200


def picture(home, number, title):
    value = {"content": "", "group": 0, "home": home, "list": number, "owner": "amy@users", "title": title}
    return {"item": f"picture/{number}", "value": value}


def album(number, owned_list, children=()):
    value = {"children": list(children), "group": 0, "home": None, "list": owned_list, "owner": "amy@users",
             "title": f"Album {number}"}
    return {"item": f"album/{number}", "value": value}


def entries(number, *rows):
    return {"item": f"list/{number}", "value": {"entries": list(rows)}}


def opening(is_checked, *items):
    header = {"parts": 3, "limit": 1_000_000, **({"checked": True} if is_checked else {})}
    return joined(map(json.dumps, [{"open": header}, *items, {"begin": True}]))


def insists(connection, asked):
    """The answer to what is asked, which is asked again where it is aborted; and how often that was."""
    for aborted in range(1000):
        answer = connection.ask({"ask": asked})
        if answer.get("answer") != "aborted":
            return answer, aborted
    raise Differs("a write is aborted for ever")


def serves(is_checked, program, items, count, hold):
    """Has so many connections of amy's hold their race in a service of these items."""
    with Service(program, opening(is_checked, *items), count) as service:
        with connected(service, ["amy@users"] * count) as connections:
            hold(*connections)
        service.end(NOTHING_NOTED, [b""])


def listed(connection, number):
    answer = connection.ask({"ask": {"do": "list", "album": f"album/{number}"}})
    return [item for item, _ in answer["rows"]]


def adds(connection, albums, count):
    """The pictures that were added to these albums by turns, and how many were refused since an album was full."""
    made, full = [], 0
    for n in range(count):
        number = albums[n % len(albums)]
        answer, _ = insists(connection, {"do": "add_picture", "album": f"album/{number}", "title": "x", "content": ""})
        if answer.get("refused") == 10:
            full += 1
        else:
            want("committed", answer["answer"], "the answer to an addition")
            made.append((number, f"picture/{answer['stamp']}"))
    return made, full


def five_hundred_pictures(program, is_checked=True):
    """20 clients add 25 pictures each, to four albums: each is listed."""
    def hold(*connections):
        turned = ([(n + k) % 4 for k in range(4)] for n in range(len(connections)))
        added = at_once(*((adds, connection, albums, 25) for connection, albums in zip(connections, turned)))
        made = [row for rows, _ in added for row in rows]
        want((500, 0), (len(made), sum(full for _, full in added)), "what was added")
        shown = [(number, item) for number in range(4) for item in listed(connections[0], number)]
        want(sorted(made), sorted(shown), "what is listed")
    items = [album(n, n) for n in range(4)] + [entries(n, EVERYONE) for n in range(4)]
    serves(is_checked, program, items, 20, hold)


def full_album(program, is_checked=True):
    """20 clients add 25 pictures each to one album, which has room for 128: these are listed, and no other was made."""
    def hold(*connections):
        added = at_once(*((adds, connection, [0], 25) for connection in connections))
        made = [item for rows, _ in added for _, item in rows]
        want((128, 372), (len(made), sum(full for _, full in added)), "what was added, and what found no room")
        want(sorted(made), sorted(listed(connections[0], 0)), "what is listed")
    serves(is_checked, program, [album(0, 0), entries(0, EVERYONE)], 20, hold)


def race(one, other, first, second):
    """The answers to two requests that are made at once."""
    (answer, _), (later, _) = at_once((insists, one, first), (insists, other, second))
    return answer, later


def retitle_and_set_owner(program, is_checked=True):
    """Who sets a title undoes no change of the owner, nor the other way round: only the owner may read."""
    def hold(one, other, amy):
        with_bo = False
        for n in range(ROUNDS):
            with_bo = not with_bo
            owner = "bo@users" if with_bo else "amy@users"
            answers = race(one, other, {"do": "retitle", "object": "picture/0", "title": f"{n}"},
                           {"do": "set_owner", "object": "picture/0", "owner": owner, "group": 0})
            want(("committed", "committed"), tuple(answer["answer"] for answer in answers), "the answers")
            read = amy.ask({"ask": {"do": "read", "object": "picture/0"}})
            want("denied" if with_bo else "served", read["answer"], "what amy is answered when the picture is "
                 f"{owner}'s")
            if not with_bo:
                want(f"{n}", read["title"], "the title")
    rights = [entries(0, ["allow", "EVERYONE@", 256 + 524288, 0], ["allow", "OWNER@", 1, 0])]
    serves(is_checked, program, [picture(0, 0, "Sea"), *rights], 3, hold)


def delete_and_retitle(program, is_checked=True):
    """What is deleted stays so."""
    def hold(one, other):
        for n in range(ROUNDS):
            (_, item), = adds(one, [0], 1)[0]
            gone, _ = race(one, other, {"do": "delete", "object": item},
                           {"do": "retitle", "object": item, "title": f"{n}"})
            want("committed", gone["answer"], "the answer to a deletion")
            want("missing", other.ask({"ask": {"do": "read", "object": item}})["answer"], "what is deleted")
            want([], listed(other, 0), "what is listed")
    serves(is_checked, program, [album(0, 0), entries(0, EVERYONE)], 2, hold)


def move_and_move(program, is_checked=True):
    """Two pictures change their album at once: both are in the other then, and in no other."""
    def hold(one, other):
        there = 0
        for _ in range(ROUNDS):
            there = 1 - there
            moves = ({"do": "move", "object": f"picture/{n}", "to": f"album/{there}"} for n in (0, 1))
            answers = race(one, other, *moves)
            want(("committed", "committed"), tuple(answer["answer"] for answer in answers), "the answers")
            shown = sorted(listed(one, there)), listed(one, 1 - there)
            want((["picture/0", "picture/1"], []), shown, "what is listed")
    items = [picture(0, 0, "Sea"), picture(0, 1, "Bay"), album(0, 2, ["picture/0", "picture/1"]), album(1, 3)]
    serves(is_checked, program, items + [entries(n, ["allow", "EVERYONE@", ALL, 0]) for n in range(4)], 2, hold)


def two_lists(program, is_checked=True):
    """Of two lists that are set at once the one with the greater stamp stays, whole."""
    def hold(one, other):
        for n in range(ROUNDS):
            lists = [[["allow", "EVERYONE@", ALL, 0], ["allow", f"user{n}.{k}@users", 1, 0]] for k in (0, 1)]
            answers = race(one, other, *({"do": "set_lists", "lists": [["picture/0", rows]]} for rows in lists))
            want(("committed", "committed"), tuple(answer["answer"] for answer in answers), "the answers")
            stamps = [answer["stamp"] for answer in answers]
            got = one.ask({"ask": {"do": "get_list", "object": "picture/0"}})
            want((max(stamps), lists[stamps.index(max(stamps))]), (got["stamp"], got["entries"]), "the list")
    serves(is_checked, program, [picture(0, 0, "Sea"), entries(0, ["allow", "EVERYONE@", ALL, 0])], 2, hold)


def members_and_owner(program, is_checked=True):
    """Who sets a group's owner brings no member back, nor the other way round: only the owner may read it."""
    def hold(one, other, amy):
        with_bo = False
        for n in range(ROUNDS):
            with_bo = not with_bo
            owner = "bo@users" if with_bo else "amy@users"
            members = [f"user{n}@users"]
            answers = race(one, other, {"do": "set_members", "object": "group/0", "members": members},
                           {"do": "set_owner", "object": "group/0", "owner": owner, "group": 0})
            want(("committed", "committed"), tuple(answer["answer"] for answer in answers), "the answers")
            read = amy.ask({"ask": {"do": "read", "object": "group/0"}})
            want("denied" if with_bo else "served", read["answer"], f"what amy is answered when the group is {owner}'s")
            if not with_bo:
                want(members, read["members"], "the members")
    group = {"item": "group/0", "value": {"group": 0, "list": 0, "members": [], "owner": "amy@users"}}
    rights = entries(0, ["allow", "EVERYONE@", 2 + 524288, 0], ["allow", "OWNER@", 1, 0])
    serves(is_checked, program, [group, rights], 3, hold)


def one_hot_picture(program, is_checked=True, seconds=3.0, count=64):
    """So many clients retitle one picture: each answer comes within five seconds, and few are aborted."""
    def retitles(connection, until):
        answers, aborted, slowest = 0, 0, 0.0
        while time.monotonic() < until:
            began = time.monotonic()
            answer = connection.ask({"ask": {"do": "retitle", "object": "picture/0", "title": f"{answers}"}})
            slowest = max(slowest, time.monotonic() - began)
            answers += 1
            aborted += answer["answer"] == "aborted"
        return answers, aborted, slowest

    def hold(*connections):
        until = time.monotonic() + seconds
        rows = at_once(*((retitles, connection, until) for connection in connections))
        answers, aborted = (sum(row[place] for row in rows) for place in (0, 1))
        slowest = max(row[2] for row in rows)
        print_if_alone(f"{answers} answers in {seconds} s, {aborted} aborted, the slowest after {slowest:.2f} s, "
                       f"{min(row[0] for row in rows)} to {max(row[0] for row in rows)} a client")
        want(True, slowest < 5 and aborted * 100 < answers, "whether each answer came soon, and few were aborted")
    items = [picture(0, 0, "Sea"), entries(0, ["allow", "EVERYONE@", ALL, 0])]
    serves(is_checked, program, items, count, hold)


def hot_picture(is_checked):
    return opening(is_checked, picture(0, 0, "Sea"), entries(0, ["allow", "EVERYONE@", ALL, 0]))


def greeted(service):
    """A connection that has said who it is, whoever came before it."""
    connection = Connection(service.port, ONE_PIECE)
    want("hello", connection.ask({"who": "amy@users"})["answer"], "a hello")
    return connection


def retitle(title):
    return {"ask": {"do": "retitle", "object": "picture/0", "title": title}}


def clients_that_go(program, is_checked=True):
    """Clients break off while their writes race with others: these are answered, and what was answered last is
    there."""
    def goes(service, client):
        for n in range(ROUNDS // 4):
            connection = greeted(service)
            connection.send((json.dumps(retitle(f"{client}, {n}, gone")) + "\n").encode())
            connection.breaks()

    def stays(connection, client):
        for n in range(ROUNDS):
            began = time.monotonic()
            insists(connection, retitle(f"{client}, {n}")["ask"])
            want(True, time.monotonic() - began < 5, "whether the answer came soon")

    with Service(program, hot_picture(is_checked), 4 + 4 * (ROUNDS // 4)) as service:
        steady = [greeted(service) for _ in range(4)]
        at_once(*((stays, connection, n) for n, connection in enumerate(steady)),
                *((goes, service, n) for n in range(4)))
        last, _ = insists(steady[0], retitle("last")["ask"])
        read = steady[1].ask({"ask": {"do": "read", "object": "picture/0"}})
        want(("committed", "last"), (last["answer"], read["title"]), "the last title")
        for connection in steady:
            connection.finish()
        want(NOTHING_NOTED, service.run.stdout.read(), "the end")
        want(0, service.run.wait(SECONDS), "the status")


ADD = {"ask": {"do": "add_picture", "album": "album/0", "title": "x", "content": ""}}
RETITLE = {"ask": {"do": "retitle", "object": "album/0", "title": "y"}}
STAY, GO = 43, 21


def is_killed(service, client, until):
    """What it was told that it added, and how many lives it had. In each it has three requests under way at all times,
    and at a random moment it is killed. It adds in the first two alone, so that there is room."""
    chance, made, lives = random.Random(client), [], 0
    while time.monotonic() < until:
        connection, end, answers = greeted(service), time.monotonic() + chance.uniform(0, 0.5), []
        connection.send(joined(map(json.dumps, [ADD if lives < 2 else RETITLE, RETITLE, RETITLE])))
        while (left := end - time.monotonic()) > 0:
            connection.socket.settimeout(left)
            try:
                answers.append(json.loads(connection.answer()))
            except TimeoutError:
                break
            connection.send(joined([json.dumps(RETITLE)]))
        connection.breaks()
        made += [f"picture/{answer['stamp']}" for answer in answers[:lives < 2] if answer["answer"] == "committed"]
        lives += 1
    return made, lives


def ends(connection, asked):
    """Whether the write is committed, and its stamp."""
    began = time.monotonic()
    answer = connection.ask(asked)
    want(True, time.monotonic() - began < 5, "whether the answer came soon")
    want(True, answer.get("answer") in ("committed", "aborted"), f"the answer {answer}")
    return answer["answer"] == "committed", answer["stamp"]


def adds_and_deletes(connection, until):
    """What it added and didn't delete, and what it deleted: it has two pictures at most, so that there is room."""
    made, gone = [], []
    while time.monotonic() < until:
        if len(made) < 2:
            is_made, stamp = ends(connection, ADD)
            made += [f"picture/{stamp}"] * is_made
        elif ends(connection, {"ask": {"do": "delete", "object": made[0]}})[0]:
            gone.append(made.pop(0))
    return made, gone


def clients_that_are_killed(program, is_checked=True, seconds=8.0):
    """Of 64 clients of one album a third are killed again and again, at random moments, with requests under way. The
    others add pictures to it and delete them meanwhile: each answer comes within five seconds, and stays true."""
    opened = opening(is_checked, album(0, 0), entries(0, EVERYONE))
    with Service(program, opened, 65535, "--until-eof", goes_on=True) as service:
        steady = [greeted(service) for _ in range(STAY)]
        until = time.monotonic() + seconds
        rows = at_once(*((adds_and_deletes, connection, until) for connection in steady),
                       *((is_killed, service, client, until) for client in range(GO)))
        made = sorted(item for row, _ in rows for item in row)
        gone = {item for _, row in rows[:STAY] for item in row}
        print_if_alone(f"{sum(lives for _, lives in rows[STAY:])} were killed; {len(made)} pictures are there, "
                       f"{len(gone)} were deleted")
        want(True, len(made) > 0 and len(gone) > 0, "whether the others went on")
        shown = set(listed(steady[0], 0))
        want((made, set()), (sorted(shown & set(made)), shown & gone), "what is listed of what was answered")
        for connection in steady:
            connection.finish()
        service.run.stdin.close()
        want(NOTHING_NOTED, service.run.stdout.read(), "the end")
        want(0, service.run.wait(SECONDS), "the status")


def a_service_that_closes(program, is_checked=True):
    """The input of a service ends while writes race. Each line is answered, or its connection ends; none hangs."""
    def ends(service):
        time.sleep(0.2)
        service.run.stdin.close()

    def answer_to(connection, asked):
        try:
            connection.send((json.dumps(asked) + "\n").encode())
            return connection.answer()
        except (ConnectionResetError, BrokenPipeError):
            return b""

    def writes(connection, client):
        for n in range(1_000_000):
            answer = answer_to(connection, retitle(f"{client}, {n}"))
            if not answer:
                connection.close()
                return n
            want(True, json.loads(answer).get("answer") in ("committed", "aborted"), f"the answer {answer}")
        raise Differs("the service goes on after the end of its input")

    with Service(program, hot_picture(is_checked), 65535, "--until-eof", goes_on=True) as service:
        connections = [greeted(service) for _ in range(12)]
        *counts, _ = at_once(*((writes, connection, n) for n, connection in enumerate(connections)), (ends, service))
        want(True, min(counts) > 0, "whether each was answered before the end")
        want(NOTHING_NOTED, service.run.stdout.read(), "the end")
        want(0, service.run.wait(SECONDS), "the status")


RACES = {
    "500 pictures that 20 clients add to four albums": five_hundred_pictures,
    "500 pictures for an album of 128": full_album,
    "a title and an owner": retitle_and_set_owner,
    "a deletion and a title": delete_and_retitle,
    "two moves": move_and_move,
    "two lists": two_lists,
    "the members and the owner of a group": members_and_owner,
    "64 clients and one picture": one_hot_picture,
    "clients that break off": clients_that_go,
    "64 clients of one album, of whom a third are killed": clients_that_are_killed,
    "a service that closes": a_service_that_closes,
}


def checks():
    """Each row: its name, how it is run on a program, and what it is."""
    return rows_of("serve, races", RACES)


def print_if_alone(text):
    if __name__ == "__main__":
        print(f"  {text}", flush=True)


def main():
    program, *words = sys.argv[1:]
    is_checked = "--plain" not in words
    seconds = [float(word) for word in words if word != "--plain"]
    for name, hold in RACES.items():
        more = {"seconds": seconds[0]} if seconds and hold is one_hot_picture else {}
        began = time.monotonic()
        wrong = wrong_of(hold, str(pathlib.Path(program).resolve()), is_checked, *more.values())
        print(f"{name}: {wrong or 'nothing is lost'}; {time.monotonic() - began:.1f} s", flush=True)


if __name__ == "__main__":
    main()
