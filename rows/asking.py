"""`album ask`, a client of a running service: requests line by line, and their answers back, also spelled out."""
import os
import pty
import subprocess

from helpers import BAD_LINE, SERVED, compact
from options import READ
from serving import NOTHING_NOTED, SECONDS, Service, free_port, joined, rows_of, want

# amy's picture and album; the picture's list lets everyone read it, and nobody delete it.
OPENING = joined([
    '{"open":{"parts":2}}',
    '{"item":"picture/0","value":{"content":"736561","group":0,"home":0,"list":0,"owner":"amy@users","title":"Sea"}}',
    '{"item":"album/0","value":{"children":["picture/0"],"group":0,"home":null,"list":1,"owner":"amy@users",'
    '"title":"Trip"}}',
    '{"item":"list/0","value":{"entries":[["allow","OWNER@",2032127,0],["allow","EVERYONE@",1,0]]}}',
    '{"item":"list/1","value":{"entries":[["allow","OWNER@",2032127,0]]}}',
    '{"begin":true}'])
SEA = {**SERVED, "content": "736561"}
NEW = {"album": "album/0", "content": "ff", "do": "add_picture", "title": "Bay"}


def asked(program, port, words, text):
    """The status of a client that is given the text, what it wrote and what it said."""
    done = subprocess.run([program, "ask", str(port), *words], input=text, capture_output=True, timeout=SECONDS)
    return done.returncode, done.stdout, done.stderr


def requests_and_lines(program):
    """A request is a line by itself, or the line of a connection; blank lines are left out; each answer has a line. The
    keys of a request may stand in any order, and a last line needs no end."""
    with Service(program, OPENING, 1) as service:
        text = compact(READ["ask"]) + b"\n \t\r\n" + compact(READ) + b'{"pending":0}\n{"list\n'
        text += b'{"object":"picture/0","do":"read"}'
        wanted = compact(SEA) * 2 + compact({"answer": "pending", "stamps": []}) + BAD_LINE + compact(SEA)
        want((0, wanted, b""), asked(program, service.port, ["--as", "bo@users"], text), "the run")
        service.end(NOTHING_NOTED, [b""])


def spelled_answers(program):
    """Contents that are text, the bits of masks and flags, and what was made, by their names."""
    get_list = {"do": "get_list", "object": "picture/0"}
    entries = [["audit", "EVERYONE@", 65537, 48], ["allow", "OWNER@", 2, 1]]
    set_list = {"do": "set_lists", "lists": [["album/0", entries]]}
    with Service(program, OPENING, 2) as service:
        refused = {"answer": "denied", "client": 1, "reasons": [["picture/0", "DELETE", "end"],
                                                              ["album/0", "DELETE_CHILD", "end"]]}
        served = {"answer": "served", "client": 1, "object": "picture/0", "stamp": 0, "text": "sea", "title": "Sea"}
        text = compact(READ) + compact({"do": "delete", "object": "picture/0"}) + compact({"pending": 7})
        wanted = compact(served) + compact(refused) + compact({"name": "NoSuchPart", "refused": 23})
        want((0, wanted, b""), asked(program, service.port, ["--as", "bo@users", "--text"], text), "the run of bo")

        stamp = 65538  # counter 1 of client 2
        made = {"answer": "committed", "client": 2, "object": f"picture/{stamp}", "stamp": stamp}
        text = compact(NEW) + compact(get_list) + compact(set_list)
        wanted = compact(made) + compact({
            "answer": "served", "client": 2, "entries": [
                ["allow", "OWNER@", "READ_DATA,WRITE_DATA,APPEND_DATA,READ_NAMED_ATTRS,WRITE_NAMED_ATTRS,EXECUTE,"
                 "DELETE_CHILD,READ_ATTRIBUTES,WRITE_ATTRIBUTES,DELETE,READ_ACL,WRITE_ACL,WRITE_OWNER,SYNCHRONIZE", ""],
                ["allow", "EVERYONE@", "READ_DATA", ""]],
            "object": "picture/0", "stamp": 0})
        wanted += compact({"answer": "committed", "client": 2, "stamp": stamp + 65536})
        want((0, wanted, b""), asked(program, service.port, ["--as", "amy@users", "--text"], text), "the run of amy")
        service.end(NOTHING_NOTED, [b""])


def spelled_bits_and_contents(program):
    """Each flag has its name, with commas between. A content that isn't UTF-8 stays hexadecimal, and one of no byte is
    an empty text."""
    flags = {1: "FILE_INHERIT", 2: "DIRECTORY_INHERIT", 4: "NO_PROPAGATE_INHERIT", 9: "FILE_INHERIT,INHERIT_ONLY",
             16: "SUCCESSFUL_ACCESS", 32: "FAILED_ACCESS", 64: "IDENTIFIER_GROUP"}
    given = [["allow", "OWNER@", 393216, 3]]
    spelled = [["allow", "OWNER@", "READ_ACL,WRITE_ACL", "FILE_INHERIT,DIRECTORY_INHERIT"]]
    for number, name in flags.items():
        who = "7@groups" if number == 64 else "bo@users"
        given.append(["deny", who, 65600, number])
        spelled.append(["deny", who, "DELETE_CHILD,DELETE", name])
    first, second = 65537, 131073  # counters 1 and 2 of client 1
    read = {"answer": "served", "client": 1, "object": "picture/0", "stamp": first, "text": "", "title": "Sea"}
    with Service(program, OPENING.replace(b"736561", b"ff"), 1) as service:
        requests = [
            (READ, {**SERVED, "content": "ff"}),
            ({"content": "", "do": "replace", "object": "picture/0"},
             {"answer": "committed", "client": 1, "stamp": first}),
            (READ, read),
            ({"do": "set_lists", "lists": [["album/0", given]]},
             {"answer": "committed", "client": 1, "stamp": second}),
            ({"do": "get_list", "object": "album/0"},
             {"answer": "served", "client": 1, "entries": spelled, "object": "album/0", "stamp": second})]
        text, wanted = (b"".join(compact(row[n]) for row in requests) for n in (0, 1))
        want((0, wanted, b""), asked(program, service.port, ["--as", "amy@users", "--text"], text), "the run")
        service.end(NOTHING_NOTED, [b""])


def spelled_new_objects(program):
    """The commit of a new picture, album or group names it, whichever way the ask was sent; another commit, and a
    denial, name nothing."""
    adds = [{**NEW, "content": ""}, {"album": "album/0", "do": "add_album", "title": "Inner"},
            {"album": "album/0", "do": "add_group", "members": []}]
    adds += [{"ask": add} for add in adds]
    retitle = {"do": "retitle", "object": "picture/0", "title": "Cape"}
    with Service(program, OPENING, 2) as service:
        text = b"".join(compact(line) for line in (*adds, retitle, {"ask": retitle}))
        made = (("picture", 65537), ("album", 131073), ("group", 196609), ("picture", 262145), ("album", 327681),
                ("group", 393217))
        wanted = b"".join(compact({"answer": "committed", "client": 1, "object": f"{kind}/{stamp}", "stamp": stamp})
                          for kind, stamp in made)
        wanted += b"".join(compact({"answer": "committed", "client": 1, "stamp": stamp}) for stamp in (458753, 524289))
        want((0, wanted, b""), asked(program, service.port, ["--as", "amy@users", "--text"], text), "the run of amy")

        text = compact({"ask": {"do": "retitle", "object": "album/0", "title": ""}}) + compact({"ask": {"do": "sing"}})
        wanted = compact({"answer": "denied", "client": 2, "reasons": [["album/0", "WRITE_ATTRIBUTES", "end"]]})
        wanted += compact({"name": "BadRequest", "refused": 3})
        want((0, wanted, b""), asked(program, service.port, ["--as", "bo@users", "--text"], text), "the run of bo")
        service.end(NOTHING_NOTED, [b""])


def nobody_is_there(program):
    """No service, and a who that is none: each says so, with status 1."""
    status, out, err = asked(program, free_port(), ["--as", "bo@users"], compact(READ))
    want((1, b"", True), (status, out, err.startswith(b"album: port ")), "a run without a service")
    with Service(program, OPENING, 2) as service:
        unknown = b"album: the service doesn't talk to bo (a principal is name@users or ANONYMOUS@)\n"
        nobody = asked(program, service.port, ["--as", "bo"], b"")
        want((1, b'{"name":"BadWho","refused":4}\n', unknown), nobody, "nobody")
        want((0, b"", b""), asked(program, service.port, ["--as", "bo@users"], b""), "a run that asks nothing")
        service.end(NOTHING_NOTED, [b""])


def on_a_terminal(program):
    """A prompt with the principal is shown where a request is waited for."""
    with Service(program, OPENING, 1) as service:
        ours, its = pty.openpty()
        with subprocess.Popen([program, "ask", str(service.port), "--as", "bo@users"], stdin=its, stdout=its,
                              stderr=its) as run:
            os.close(its)
            os.write(ours, b'{"pending":0}\n\x04')
            shown = b""
            while True:
                try:
                    piece = os.read(ours, 4096)
                except OSError:  # the terminal's other side is closed
                    break
                if not piece:
                    break
                shown += piece
            want(0, run.wait(SECONDS), "the status")
        os.close(ours)
        shown = shown.replace(b"\r\n", b"\n").replace(b'{"pending":0}\n', b"", 1)
        want(b'bo@users> {"answer":"pending","stamps":[]}\nbo@users> ', shown.replace(b"^D\x08\x08", b""), "the talk")
        service.end(NOTHING_NOTED, [b""])


FACTS = {
    "requests and lines": requests_and_lines,
    "answers spelled out": spelled_answers,
    "bits and contents spelled out": spelled_bits_and_contents,
    "new objects spelled out": spelled_new_objects,
    "nobody is there": nobody_is_there,
    "on a terminal": on_a_terminal,
}


def checks():
    """Each row: its name, how it is run on a program, and what it is."""
    return rows_of("ask", FACTS)
