"""What those who run `album serve` see of it: the notes in its audit file, its figures and its warnings."""
import json
import os
import subprocess
import time

from options import READ, opening, talker
from serving import SECONDS, Service, free_port, held_in_folder, joined, rows_of, untimed, want

# Reads are audited, and those of eve's, which are denied, raise an alarm too.
AUDITED = opening([["deny", "eve@users", 1, 0], ["allow", "EVERYONE@", 257, 0], ["audit", "EVERYONE@", 1, 48],
                   ["alarm", "eve@users", 1, 32]])
OWNED = [["allow", "OWNER@", 2032127, 0]]
# A read is audited once where it is granted, and raises three alarms; where it is denied it is two and four.
COUNTED = [["deny", "eve@users", 1, 0], ["allow", "EVERYONE@", 1, 0], ["audit", "EVERYONE@", 1, 16],
           *[["alarm", "EVERYONE@", 1, 16]] * 3, *[["audit", "EVERYONE@", 1, 32]] * 2,
           *[["alarm", "EVERYONE@", 1, 32]] * 4]


def note(client, who, entry, success, alarm=False):
    """The line of what is noted of a read, but for its moment."""
    truth = {True: "true", False: "false"}
    return (f'{{"alarm":{truth[alarm]},"ask":"read","audit":{entry},"client":{client},"mask":1,"object":"picture/0",'
            f'"success":{truth[success]},"who":"{who}"}}\n')


def ended(client, who, outcome="served"):
    """The line of how a read has ended, but for its moment."""
    return f'{{"ask":"read","client":{client},"object":"picture/0","outcome":"{outcome}","who":"{who}"}}\n'


def text_of(path):
    """The whole lines of an audit file, without their moments: the notes of others may be on their way."""
    with open(path, "rb") as file:
        text = file.read()
    return untimed(text[:text.rfind(b"\n") + 1]).decode()


def notes_in_a_file(program, folder):
    """As a request is answered its notes are in the file, with who asked, after those of before; a file is gone on
    with. The totals are their counts."""
    path = os.path.join(folder, "notes")
    lines = ""
    for _ in range(2):
        with Service(program, AUDITED, 3, "--audit", path) as service:
            bo, eve, nobody = (talker(service, who) for who in ("bo@users", "eve@users", "ANONYMOUS@"))
            for reader, answer, notes in (
                    (bo, "served", note(1, "bo@users", 2, True) + ended(1, "bo@users")),
                    (eve, "denied", note(2, "eve@users", 2, False) + note(2, "eve@users", 3, False, alarm=True)
                     + ended(2, "eve@users", "denied")),
                    (nobody, "served", note(3, "ANONYMOUS@", 2, True) + ended(3, "ANONYMOUS@")),
                    (bo, "served", note(1, "bo@users", 2, True) + ended(1, "bo@users"))):
                want(answer, reader.ask(READ)["answer"], "an answer")
                lines += notes
                want(lines, text_of(path), "the file")
            for connection in (bo, eve, nobody):
                connection.finish()
            service.end(b'{"alarms":[0,1],"audits":[3,1]}\n', [b""])


def notes_of_many(program, folder):
    """Four connections at once: each note is in the file by when its request is answered, and none is lost or
    doubled."""
    path = os.path.join(folder, "notes")
    with Service(program, AUDITED, 4, "--audit", path) as service:
        connections = [talker(service, f"user{n}@users") for n in range(4)]
        for turn in range(25):
            for connection in connections:
                connection.send(json.dumps(READ).encode() + b"\n")
            for n, connection in enumerate(connections):
                want("served", json.loads(connection.answer())["answer"], "an answer")
                text, who = text_of(path), f"user{n}@users"
                mine = text.count(note(n + 1, who, 2, True)), text.count(ended(n + 1, who))
                want((turn + 1, turn + 1), mine, "how many notes of it are there, and how many outcomes")
        for connection in connections:
            connection.finish()
        service.end(b'{"alarms":[0,0],"audits":[100,0]}\n', [b""])


def a_note_that_cannot_be_written(program, _folder):
    """What is to be noted and can't be is not answered. All connections are closed, and the service ends."""
    with Service(program, AUDITED, 65535, "--audit", "/dev/full") as service:
        silent, reader = talker(service, "amy@users"), talker(service, "bo@users")
        reader.send(json.dumps(READ).encode() + b"\n")
        for connection in (reader, silent):
            want(b"", connection.answer(), "what is answered")
            connection.close()
        want(b"", service.run.stdout.read(), "what is printed")
        want(1, service.run.wait(SECONDS), "the status")
        service.errors.seek(0)
        want(b"album: /dev/full: No space left on device (os error 28)\nalbum: writing failed\nalbum: writing failed\n",
             service.errors.read(), "standard error")


def an_audit_file_that_cannot_be_had(program, folder):
    """It is named with the reason, and nothing is served."""
    path = os.path.join(folder, "none", "notes")
    done = subprocess.run([program, "serve", str(free_port()), "--audit", path], input=AUDITED, capture_output=True,
                          timeout=SECONDS)
    said = f"album: {path}: No such file or directory (os error 2)\nalbum: writing failed\n".encode()
    want((1, b"", said), (done.returncode, done.stdout, done.stderr), "the run")


def said_by(service, line):
    """What is on standard error once the line is there."""
    for _ in range(10 * SECONDS):
        service.errors.seek(0)
        lines = service.errors.read().decode().splitlines()
        if line in lines:
            return lines
        time.sleep(0.1)
    want([line], lines[-2:], "the end of standard error")


def figures(program, _folder):
    """A retitle makes two marks and a version. One of two connections has ended."""
    with Service(program, opening(OWNED), 7, "--stats", "1") as service:
        said_by(service, '{"alarms":[0,0],"audits":[0,0],"connections":[0,0,7],"marks":[[0,1000]],"pending":[0],'
                         '"versions":[0]}')
        talker(service, "bo@users").finish()
        amy = talker(service, "amy@users")
        want("committed", amy.ask({"ask": {"do": "retitle", "object": "picture/0", "title": "Bay"}})["answer"], "it")
        said_by(service, '{"alarms":[0,0],"audits":[0,0],"connections":[1,2,7],"marks":[[2,1000]],"pending":[0],'
                         '"versions":[1]}')
        amy.finish()


def warnings(program, _folder):
    """It warns once as nine tenths of a partition's marks are made, and again of nothing else."""
    with Service(program, opening(OWNED, limit=100), 7, "--stats", "1") as service:
        amy = talker(service, "amy@users")
        for turn in range(45):
            asked = {"ask": {"do": "retitle", "object": "picture/0", "title": str(turn)}}
            want("committed", amy.ask(asked)["answer"], "a retitle")
        said_by(service, "album: partition 0: 90 of 100 marks")
        time.sleep(2.5)
        warned = [line for line in said_by(service, "album: partition 0: 90 of 100 marks") if line.startswith("album")]
        want(["album: partition 0: 90 of 100 marks"], warned, "the warnings")
        amy.finish()


def opening_of_two(entries, limit):
    """Two partitions: amy's picture and its list are at 0, her album and its list at 1."""
    return joined([
        json.dumps({"open": {"limit": limit, "parts": 2}}),
        '{"item":"picture/0","value":{"content":"","group":0,"home":0,"list":0,"owner":"amy@users","title":"Sea"}}',
        '{"item":"album/0","value":{"children":[],"group":0,"home":null,"list":1,"owner":"amy@users","title":"Trip"}}',
        json.dumps({"item": "list/0", "value": {"entries": OWNED + entries}}),
        json.dumps({"item": "list/1", "value": {"entries": OWNED}}),
        '{"begin":true}',
    ])


def retitles(connection, item, count):
    """Each makes two marks at the item's partition, and a version."""
    for turn in range(count):
        asked = {"ask": {"do": "retitle", "object": item, "title": str(turn)}}
        want("committed", connection.ask(asked)["answer"], "a retitle")


def leaves_one_pending(connection):
    """Both lists are to be written, and partition 0 has no room: at partition 1 the stamp is prepared, and stays so."""
    lists = [["picture/0", OWNED], ["album/0", OWNED]]
    answer = connection.ask({"ask": {"do": "set_lists", "lists": lists}})
    want(("unsettled", "Full"), (answer["answer"], answer.get("name")), "a write that finds no room")


def each_figure(program, _folder):
    """Each figure has a number of its own, also of what is open or pending still. Limits below a hundred aren't warned
    of."""
    with Service(program, opening_of_two(COUNTED, 4), 9, "--stats", "1") as service:
        amy, bo, eve, dan = (talker(service, f"{name}@users") for name in ("amy", "bo", "eve", "dan"))
        want("served", bo.ask(READ)["answer"], "what bo is answered")
        want("denied", eve.ask(READ)["answer"], "what eve is answered")
        dan.finish()
        retitles(amy, "picture/0", 2)
        leaves_one_pending(amy)
        lines = said_by(service, '{"alarms":[3,4],"audits":[1,2],"connections":[3,4,9],"marks":[[4,4],[1,4]],'
                                 '"pending":[0,1],"versions":[2,1]}')
        want([], [line for line in lines if line.startswith("album")], "the warnings")
        for connection in (amy, bo, eve):
            connection.finish()


def warnings_without_figures(program, _folder):
    """It warns within ten seconds, of connections and of marks. Those that pending stamps will take count too: at
    partition 1 retitles have made 88, one more is Prepared, and one will say how that is decided."""
    with Service(program, opening_of_two([], 100), 100) as service:
        amy = talker(service, "amy@users")
        retitles(amy, "album/0", 44)
        retitles(amy, "picture/0", 50)
        leaves_one_pending(amy)
        for _ in range(89):
            talker(service, "bo@users").finish()
        said_by(service, "album: partition 1: 90 of 100 marks")
        lines = said_by(service, "album: 90 of 100 connections")
        others = [line for line in lines if line[:19] != "album: partition 0:"]
        want(["album: partition 1: 90 of 100 marks", "album: 90 of 100 connections"], others, "the other warnings")
        want(3, len(lines), "how many warnings there are")
        amy.finish()


def bytes_of_partitions(program, _folder):
    """With --epochs each line of figures says about how many bytes the writes of the epoch take, of each partition: a
    retitle some hundreds, a list of a hundred entries some thousands, and a turn gives room."""
    opened = opening_of_two([], 1_000)
    with Service(program, opened, 65535, "--epochs", "--stats", "1", "--log-mb", "1") as service:
        amy = talker(service, "amy@users")
        want([0, 0], figure(service, "bytes", lambda bytes: True), "the bytes at first")
        retitles(amy, "picture/0", 1)
        first, other = figure(service, "bytes", lambda bytes: bytes[0] > 0)
        want((True, 0), (200 < first < 2_000, other), f"that {first} bytes are those of a title")
        wide = [["picture/0", [["allow", f"user{n}@users", 1, 0] for n in range(100)] + OWNED]]
        want("committed", amy.ask({"ask": {"do": "set_lists", "lists": wide}})["answer"], "a wide list")
        then, _ = figure(service, "bytes", lambda bytes: bytes[0] > first)
        want(True, 4_000 < then - first < 40_000, f"that {then - first} bytes are those of a wide list")
        for _ in range(4_000_000 // (then - first)):  # four times as much as an epoch may have
            want("committed", amy.ask({"ask": {"do": "set_lists", "lists": wide}})["answer"], "a wide list")
        figure(service, "bytes", lambda bytes: bytes[0] < 1_200_000)
        amy.close()


def figure(service, key, holds):
    """The value of the last line of figures, once it is there and holds."""
    for _ in range(10 * SECONDS):
        lines = [line for line in service.said().decode().splitlines() if line.startswith("{")]
        if lines and holds(json.loads(lines[-1])[key]):
            want(sorted(json.loads(lines[-1])), list(json.loads(lines[-1])), "the keys")
            return json.loads(lines[-1])[key]
        time.sleep(0.1)
    return want(True, False, f"that {lines[-1:]} holds")


FACTS = {
    "bytes of partitions": bytes_of_partitions,
    "notes in a file": notes_in_a_file,
    "notes of many connections": notes_of_many,
    "a note that can't be written": a_note_that_cannot_be_written,
    "an audit file that can't be had": an_audit_file_that_cannot_be_had,
    "figures each second": figures,
    "a warning before the marks are spent": warnings,
    "each figure by itself": each_figure,
    "warnings without figures": warnings_without_figures,
}


def checks():
    """Each row: its name, how it is run on a program, and what it is."""
    return rows_of("watching", FACTS, held_in_folder)
