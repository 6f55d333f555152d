"""Files that the command line names, traces of scripts whatever they begin with, and what `album serve` does by its
options: where the opening is, and who may do what."""
import json
import os
import pathlib
import subprocess

from serving import NOTHING_NOTED, SECONDS, Connection, Service, free_port, held_in_folder, joined, rows_of, want
from talks import ONE_PIECE

REFUSED = {"name": "NotAdmin", "refused": 24}
SWEEP = {"sweep": {"part": 0, "stamp": 65537}}
TRIM = {"trim": {"item": "picture/0", "part": 0}}
READ = {"ask": {"do": "read", "object": "picture/0"}}
READ_MISSING = {"ask": {"do": "read", "object": "picture/9"}}
SCRIPTS = pathlib.Path(__file__).resolve().parent / "replay"
MAX_LINE = 65_536
BAD_LINE = b'{"name":"BadLine","refused":2}\n'
MESSAGE = b'{"from":"c1","item":"picture/9","k":1,"say":"get","stamps":[],"tag":1,"to":"p0"}\n'


def opening(entries, parts=1, limit=1000):
    """A picture of amy's whose list has these entries."""
    return joined([
        json.dumps({"open": {"limit": limit, "parts": parts}}),
        '{"item":"picture/0","value":{"content":"","group":0,"home":0,"list":0,"owner":"amy@users","title":"Sea"}}',
        json.dumps({"item": "list/0", "value": {"entries": entries}}),
        '{"begin":true}',
    ])


ALLOWED = opening([["allow", "EVERYONE@", 257, 0]])


def talker(service, who):
    """A connection of this principal."""
    connection = Connection(service.port, ONE_PIECE)
    want("hello", connection.ask({"who": who})["answer"], "a hello")
    return connection


def opened_by_a_file(program, folder):
    """The opening is in a file: standard input is empty, or its end ends the service."""
    path = os.path.join(folder, "opening")
    with open(path, "wb") as file:
        file.write(ALLOWED)
    with Service(program, b"", 1, "--opening", path) as service:
        reader = talker(service, "bo@users")
        want("Sea", reader.ask(READ)["title"], "a title")
        reader.finish()
        service.end(NOTHING_NOTED, [b""])
    with Service(program, b"", 65535, "--until-eof", "--opening", path, goes_on=True) as service:
        talker(service, "bo@users").finish()
        want(None, service.run.poll(), "the end of the service")
        service.run.stdin.close()
        service.end(NOTHING_NOTED, [b""])


def files_that_are_not_there(program, folder):
    """A file that can't be opened is named with the reason, and nothing is served."""
    path = os.path.join(folder, "none")
    said = f"album: {path}: No such file or directory (os error 2)\nalbum: reading failed\n".encode()
    for words in (["judge", path], ["replay", path], ["serve", str(free_port()), "--opening", path]):
        done = subprocess.run([program, *words], input=ALLOWED, capture_output=True, timeout=SECONDS)
        want((1, b"", said), (done.returncode, done.stdout, done.stderr), "the run")


def lines_in_files(program, folder):
    """Lines in files are answered as those of standard input: of a judge file after file, each to its end."""
    question = '{"entries":[["allow","amy@users",1,0]],"group":0,"mask":%d,"owner":"bo@users","who":"amy@users"}'
    script = joined(['{"open":{"parts":1}}', '{"begin":true}', '{"deliver":1}'])
    for name, text in (("first", question % 1), ("second", question % 2 + "\n"), ("script", script.decode())):
        with open(os.path.join(folder, name), "w") as file:
            file.write(text)
    first, second, script = (os.path.join(folder, name) for name in ("first", "second", "script"))
    for words, wanted in ((["judge", first, second], b'{"answer":"granted"}\n{"answer":"denied","at":"end"}\n'),
                          (["replay", script], b'{"name":"NoSuchMessage","refused":14}\n')):
        done = subprocess.run([program, *words], stdin=subprocess.DEVNULL, capture_output=True, timeout=SECONDS)
        want((0, wanted, b""), (done.returncode, done.stdout, done.stderr), "the run")


def explained_files(program, folder):
    """Each file is explained by itself: its lines are counted from 1, its first line says who talks, its opening is one
    of its own. One refused line makes the status, whichever file it is in."""
    question = '{"entries":[["allow","amy@users",1,0]],"group":0,"mask":%d,"owner":"bo@users","who":"amy@users"}'
    texts = {
        "bad": ["", question % 0, question % 1], "good": [question % 2],
        "silent": ['{"pending":0}', '{"who":"amy@users"}'], "talk": ['{"who":"bo@users"}', '{"pending":1}'],
        "begun": ['{"open":{"checked":true,"parts":1}}', '{"begin":true}', '{"stop":1}'],
        "ended": ['{"open":{"checked":true,"parts":2}}'],
    }
    wanted = {
        "bad": ['{"at":"mask","line":2,"name":"BadMask","refused":5,"value":0}',
                '{"answer":"granted","bits":[["READ_DATA","allowed",0]],"groups":[],"line":3}'],
        "good": ['{"answer":"denied","at":"end","bits":[["WRITE_DATA","denied","end"]],"groups":[],"line":1}'],
        "silent": ['{"at":"pending","line":1,"name":"BadRequest","refused":3,"value":0}',
                   '{"kind":"who","line":2,"reads":"talk"}'],
        "talk": ['{"kind":"who","line":1,"reads":"talk"}', '{"kind":"pending","line":2,"reads":"talk"}'],
        "begun": ['{"kind":"open","line":1,"reads":"opening"}', '{"kind":"begin","line":2,"reads":"opening"}',
                  '{"kind":"stop","line":3,"reads":"event"}'],
        "ended": ['{"kind":"open","line":1,"reads":"opening"}',
                  '{"at":"begin","line":2,"name":"BadOpening","refused":22}'],
    }
    for name, lines in texts.items():
        with open(os.path.join(folder, name), "wb") as file:
            file.write(joined(lines))
    for status, kind, *names in ((1, "judge", "bad", "good"), (1, "judge", "good", "bad"), (0, "judge", "good", "good"),
                                 (1, "talk", "talk", "silent"), (1, "talk", "silent", "talk"),
                                 (0, "talk", "talk", "talk"), (1, "opening", "ended", "begun"),
                                 (1, "opening", "begun", "ended"), (0, "opening", "begun", "begun")):
        done = subprocess.run([program, "explain", kind, *(os.path.join(folder, name) for name in names)],
                              stdin=subprocess.DEVNULL, capture_output=True, timeout=SECONDS)
        want((status, joined(line for name in names for line in wanted[name]), b""),
             (done.returncode, done.stdout, done.stderr), f"what is explained of {kind} {names}")


def replayed(program, *words, text=b""):
    """The status of a replay, and the lines that it printed."""
    done = subprocess.run([program, "replay", *words], input=text, capture_output=True, timeout=SECONDS)
    return done.returncode, done.stdout.splitlines(keepends=True)


def traces_of_any_script(program, _folder):
    """With --trace each script prints messages, and else what it has to print without."""
    for path in sorted(SCRIPTS.rglob("*.jsonl")):
        status, lines = replayed(program, "--trace", path)
        wanted = path.with_suffix(".out").read_bytes().splitlines(keepends=True)
        want((0, but_messages(wanted)), (status, but_messages(lines)), f"what {path.name} prints but for messages")


def but_messages(lines):
    return [line for line in lines if not line.startswith(b'{"from":')]


def traces_after_any_opening(program, _folder):
    """With --trace a message is printed after blank lines of any number, and a header of each length that a line may
    have. One byte more is refused."""
    header = b'{"open":{"parts":1}}'
    repeated = b'{"open":{' + b'"parts":1,' * 6_551 + b'"parts":1}}'  # 65,530 bytes
    rest = joined(["", '{"begin":true}', json.dumps({**READ_MISSING, "client": 1, "who": "bo@users"})])
    for name, opened, wanted in (
            ("many empty lines", b"\n" * 140_000 + header, MESSAGE),
            ("many blank lines", (b" " * MAX_LINE + b"\n") * 3 + header, MESSAGE),
            ("a blank line too long", b" " * (MAX_LINE + 1) + b"\n" + header, BAD_LINE),
            ("blanks before a header", header.rjust(MAX_LINE), MESSAGE),
            ("a blank too many before a header", header.rjust(MAX_LINE + 1), BAD_LINE),
            ("blanks after a header", header.ljust(MAX_LINE), MESSAGE),
            ("a blank too many after a header", header.ljust(MAX_LINE + 1), BAD_LINE),
            ("a key that is repeated", repeated.ljust(MAX_LINE), MESSAGE),
            ("a key that is repeated too often", repeated.ljust(MAX_LINE + 1), BAD_LINE)):
        want((0, [wanted]), replayed(program, "--trace", text=opened + rest), f"what is printed after {name}")


def only_admins(program, _folder):
    """Who is no admin may ask, and nothing else; the refusal doesn't show which partitions there are."""
    with Service(program, ALLOWED, 3, "--admin", "amy@users", "--admin", "ANONYMOUS@") as service:
        other = talker(service, "bo@users")
        for line in ({"pending": 0}, {"pending": 9}, SWEEP, TRIM):
            want(REFUSED, other.ask(line), f"the answer to {line}")
        want("Sea", other.ask(READ)["title"], "a title")
        for who in ("amy@users", "ANONYMOUS@"):
            admin = talker(service, who)
            want({"answer": "pending", "stamps": []}, admin.ask({"pending": 0}), "what is pending")
            want({"name": "NoSuchPart", "refused": 23}, admin.ask({"pending": 9}), "another partition")
            want({"name": "NotPrepared", "refused": 17}, admin.ask(SWEEP), "a sweep")
            want({"answer": "trimmed"}, admin.ask(TRIM), "a trim")
            admin.finish()
        other.finish()
        service.end(NOTHING_NOTED, [b""])


def admins_on_the_command_line(program, _folder):
    """A name that is none is refused as the command line is."""
    for word in ("amy", "OWNER@", "1@groups", ""):
        done = subprocess.run([program, "serve", str(free_port()), f"--admin={word}"], stdin=subprocess.DEVNULL,
                              capture_output=True, timeout=SECONDS)
        want((2, b""), (done.returncode, done.stdout), "the run")
        want(True, done.stderr.startswith(b"error: "), "that standard error has the reason")


FACTS = {
    "an opening in a file": opened_by_a_file,
    "files that are not there": files_that_are_not_there,
    "lines in files": lines_in_files,
    "explanations of several files": explained_files,
    "traces of any script": traces_of_any_script,
    "traces after any opening": traces_after_any_opening,
    "admins alone sweep, trim and ask what is pending": only_admins,
    "admins on the command line": admins_on_the_command_line,
}


def checks():
    """Each row: its name, how it is run on a program, and what it is."""
    return rows_of("options", FACTS, held_in_folder)
