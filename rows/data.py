"""The folder of `serve --data`, written by hand: what a service finds in it, and what it refuses. The lines of the logs
are made here, with their sums, by the description in docs/FORMATS.md. Run by itself, `rows/data.py PROGRAM` also cuts a
log at each byte, and changes each."""
import json
import subprocess
import sys
import tempfile

from serving import SECONDS, Connection, Differs, Service, free_port, held_in_folder, in_folder, rows_of, want
from talks import ONE_PIECE

MASK = (1 << 64) - 1
ALL = 2032127
EVERYONE = ["allow", "EVERYONE@", ALL, 0]


# ---- lines

def siphash13(data):
    """SipHash-1-3 of the bytes, with keys of 0 (Aumasson and Bernstein, 2012; of one and three rounds)."""
    v = [0x736F6D6570736575, 0x646F72616E646F6D, 0x6C7967656E657261, 0x7465646279746573]

    def rotated(x, b):
        return (x << b | x >> 64 - b) & MASK

    def round_once():
        v[0] = v[0] + v[1] & MASK
        v[1] = rotated(v[1], 13) ^ v[0]
        v[0] = rotated(v[0], 32)
        v[2] = v[2] + v[3] & MASK
        v[3] = rotated(v[3], 16) ^ v[2]
        v[0] = v[0] + v[3] & MASK
        v[3] = rotated(v[3], 21) ^ v[0]
        v[2] = v[2] + v[1] & MASK
        v[1] = rotated(v[1], 17) ^ v[2]
        v[2] = rotated(v[2], 32)

    whole = len(data) // 8 * 8
    words = [int.from_bytes(data[k:k + 8], "little") for k in range(0, whole, 8)]
    words.append(int.from_bytes(data[whole:], "little") | (len(data) & 255) << 56)
    for word in words:
        v[3] ^= word
        round_once()
        v[0] ^= word
    v[2] ^= 255
    for _ in range(3):
        round_once()
    return v[0] ^ v[1] ^ v[2] ^ v[3]


def compact(value):
    return json.dumps(value, separators=(",", ":"), sort_keys=True, ensure_ascii=False).encode()


def line(part, stamp, items, *writes):
    """The line of what a partition has prepared."""
    body = compact({"items": items, "part": part, "stamp": stamp, "writes": list(writes)})[:-1]
    digits = f"{max(1, siphash13(bytes(8) + body)):016x}"
    return body + b',"sum":"' + digits.encode() + b'"}\n'


def picture(title, owner="amy@users", number=0, home=0):
    return {"content": "", "group": 0, "home": home, "list": number, "owner": owner, "title": title}


def opening(parts, *items, **more):
    """One picture in an album, whose lists let everyone do everything."""
    header = {"checked": True, "limit": 1000, "parts": parts, "policy": 3, **more}
    first = [{"item": "picture/0", "value": picture("Sea")},
             {"item": "album/0", "value": {"children": ["picture/0"], "group": 0, "home": None, "list": 1,
                                          "owner": "amy@users", "title": "Trip"}},
             {"item": "list/0", "value": {"entries": [EVERYONE]}},
             {"item": "list/1", "value": {"entries": [[*EVERYONE[:3], 3]]}}]
    return b"".join(compact(row) + b"\n" for row in [{"open": header}, *first, *items, {"begin": True}])


# ---- folders

def folder_with(folder, opened, log, epoch=1):
    (folder / f"epoch-{epoch}.opening").write_bytes(opened)
    (folder / f"epoch-{epoch}.log").write_bytes(log)


def ask(service, what):
    connection = Connection(service.port, ONE_PIECE)
    try:
        want("hello", connection.ask({"who": "amy@users"})["answer"], "a hello")
        return connection.ask({"ask": what})
    finally:
        connection.close()


def title_in(service, item="picture/0"):
    return ask(service, {"do": "read", "object": item}).get("title")


def listed_in(service):
    return ask(service, {"do": "list", "album": "album/0"})["rows"]


def served(program, folder):
    """A service of the folder, which isn't given an opening."""
    return Service(program, b"", 65535, "--data", str(folder))


def refused(program, folder, given=b"", *words):
    """What a service says that doesn't begin on the folder; its status is 1, and it prints what it printed."""
    run = subprocess.run([program, "serve", str(free_port()), "--data", str(folder), *words], input=given,
                         capture_output=True, timeout=SECONDS)
    want(1, run.returncode, f"the status, with {run.stderr}")
    return run.stdout.decode(), run.stderr.decode().replace(str(folder), "DIR")


def checked(program, folder, *words):
    """The status of `check-data`, what it prints, and what it says."""
    run = subprocess.run([program, "check-data", str(folder), *words], capture_output=True, timeout=SECONDS)
    return run.returncode, run.stdout.decode(), run.stderr.decode().replace(str(folder), "DIR")


def names_in(folder):
    return sorted(file.name for file in folder.iterdir())


# ---- what is found

def goes_on(program, folder):
    """A service is killed, and the next one has what was written, in the next epoch. That before the last is gone."""
    with Service(program, opening(2), 65535, "--data", str(folder)) as service:
        lake = ask(service, {"do": "retitle", "object": "picture/0", "title": "Lake"})
        want("committed", lake["answer"], "a retitle")
        made = ask(service, {"do": "add_picture", "album": "album/0", "title": "New", "content": "ab"})
    made = f"picture/{made['stamp']}"
    with served(program, folder) as service:
        want([["picture/0", "Lake"], [made, "New"]], listed_in(service), "a listing")
        want("committed", ask(service, {"do": "delete", "object": made})["answer"], "a deletion")
    with served(program, folder) as service:
        want([["picture/0", "Lake"]], listed_in(service), "a listing")
        shown = ask(service, {"do": "read", "object": "picture/0"})
        want(lake["stamp"], shown["stamp"], "the stamp of what was written two epochs before")
        another = ask(service, {"do": "add_picture", "album": "album/0", "title": "Newer", "content": ""})["stamp"]
    want(True, another > int(made[8:]), "that no number is given twice")
    want(["epoch-2.log", "epoch-2.opening", "epoch-3.log", "epoch-3.opening", "lock"], names_in(folder), "the files")
    # What an epoch opens on is an opening as any other.
    listing = b'{"ask":{"do":"list","album":"album/0"},"client":1,"who":"amy@users"}\n{"deliver":[1,200]}\n'
    replayed = subprocess.run([program, "replay"], input=(folder / "epoch-3.opening").read_bytes() + listing,
                              capture_output=True, timeout=SECONDS)
    want([["picture/0", "Lake"]], json.loads(replayed.stdout.splitlines()[-1])["rows"], "a replay of the opening")


def logs_by_hand(program, folder):
    """Each write by itself: (how many partitions, the log, the title of picture/0 and that of album/0, and the stamps
    at which they are shown)."""
    # Of two partitions picture/0 is at 0, and album/0 at 1.
    both = ["picture/0", "album/0"]
    trip = {"children": ["picture/0"], "group": 0, "home": None, "list": 1, "owner": "amy@users", "title": "Tour"}
    lake, hill = picture("Lake"), picture("Hill")
    at_0, at_1 = line(0, 65537, both, ["picture/0", lake]), line(1, 65537, both, ["album/0", trip])
    own = line(0, 65538, ["picture/0"], ["picture/0", hill])
    older = line(0, 131073, ["picture/0"], ["picture/0", lake])
    newer = line(0, 131074, ["picture/0"], ["picture/0", hill])
    for name, parts, log, titles, stamps in (
            ("nothing", 2, b"", ("Sea", "Trip"), (0, 0)),
            ("zeros", 2, bytes(5000), ("Sea", "Trip"), (0, 0)),
            ("a write at one partition", 2, own, ("Hill", "Trip"), (65538, 0)),
            ("a half of a write", 2, at_0, ("Sea", "Trip"), (0, 0)),
            ("the other half", 2, at_1, ("Sea", "Trip"), (0, 0)),
            ("both halves", 2, at_1 + at_0, ("Lake", "Tour"), (65537, 65537)),
            ("a half, and a greater stamp", 2, at_0 + own, ("Hill", "Trip"), (65538, 0)),
            ("both halves, and a greater stamp", 2, own + at_0 + at_1, ("Hill", "Tour"), (65538, 65537)),
            ("two stamps", 1, older + newer, ("Hill", "Trip"), (131074, 0)),
            ("two stamps, the greater one first", 1, newer + older, ("Hill", "Trip"), (131074, 0)),
            ("a line twice", 2, own + own, ("Hill", "Trip"), (65538, 0)),
            ("a stamp twice, of which the first counts", 1, older + line(0, 131073, ["picture/0"], ["picture/0", hill]),
             ("Lake", "Trip"), (131073, 0)),
            ("a torn line behind", 2, own + at_0[:-1], ("Hill", "Trip"), (65538, 0)),
            ("a torn line, and a whole one behind it", 2, own + at_0[:40] + bytes(len(at_0) - 40) + at_1,
             ("Hill", "Trip"), (65538, 0)),
            ("a picture that is missing", 1, line(0, 65537, ["picture/0"], ["picture/0", None]), (None, "Trip"),
             (None, 0)),
            ("letters beyond ASCII", 1, line(0, 65537, ["picture/0"], ["picture/0", picture("Nær Ærø ☃")]),
             ("Nær Ærø ☃", "Trip"), (65537, 0))):
        for file in folder.iterdir():
            file.unlink()
        folder_with(folder, opening(parts), log)
        with served(program, folder) as service:
            shown = ask(service, {"do": "read", "object": "picture/0"})
            want((titles[0], stamps[0]), (shown.get("title"), shown.get("stamp")), f"the picture after {name}")
            row = json.loads([row for row in (folder / "epoch-2.opening").read_bytes().splitlines()
                              if b'"album/0"' in row and b'"value"' in row][0])
            want((titles[1], stamps[1]), (row["value"]["title"], row["stamp"]), f"the album after {name}")


def damaged(program, folder):
    """A whole line that is none of a log's: nothing is served, and nothing is changed."""
    right = line(0, 65537, ["picture/0"], ["picture/0", picture("Lake")])
    other = line(0, 65538, ["picture/0"], ["picture/0", picture("Hill")])
    for name, log, number, why in (
            ("another sum", right.replace(b'"Lake"', b'"Like"'), 1, "BadLine"),
            ("no sum", compact({"items": [], "part": 0, "stamp": 65537, "writes": []}) + b"\n", 1, "BadLine"),
            ("digits in upper case", right[:-20] + right[-20:].upper(), 1, "BadLine"),
            ("an empty line", right + b"\n" + other, 2, "BadLine"),
            ("another partition", right + line(1, 65538, ["picture/0"], ["picture/0", picture("Hill")]), 2,
             "NoSuchPart"),
            ("no stamp", line(0, 7, ["picture/0"], ["picture/0", picture("Hill")]), 1, "BadRequest"),
            ("an item that is none", line(0, 65537, ["picture/x"], ["picture/0", picture("Hill")]), 1, "BadRequest"),
            ("a value that is none", line(0, 65537, ["picture/0"], ["picture/0", {"title": "Hill"}]), 1, "BadRequest"),
            ("a title that is none", line(0, 65537, ["picture/0"], ["picture/0", picture("a\tb")]), 1, "BadText")):
        folder_with(folder, opening(1), log)
        before = {file.name: file.read_bytes() for file in folder.iterdir() if file.name != "lock"}
        byte = 0 if number == 1 else len(right)
        said = f"album: DIR/epoch-1.log: line {number}, from byte {byte}, is damaged ({why})"
        want(("", f"{said}: nothing is served\n"), refused(program, folder), f"what is said of {name}")
        want((1, "", f"{said}\n"), checked(program, folder), f"what check-data says of {name}")
        after = {file.name: file.read_bytes() for file in folder.iterdir() if file.name != "lock"}
        want(before, after, f"the files after {name}")


def looked_at_and_repaired(program, folder):
    """What `check-data` finds, where nothing is damaged and where a line is; and an epoch that begins on the lines
    before it. The folder of a running service is refused, as one that has no epoch."""
    want((1, "", "album: DIR: it has no epoch\n"), checked(program, folder), "what is said of an empty folder")
    first = line(0, 65537, ["picture/0"], ["picture/0", picture("Lake")])
    second = line(0, 131073, ["picture/0"], ["picture/0", picture("Hill")])
    folder_with(folder, opening(1), first + second)
    want((0, '{"epoch":1,"items":4,"lines":2}\n', ""), checked(program, folder), "what is found")
    folder_with(folder, opening(1), first + second + b"x\n" + second)
    damaged_at = len(first + second)
    want((1, "", f"album: DIR/epoch-1.log: line 3, from byte {damaged_at}, is damaged (BadLine)\n"),
         checked(program, folder), "what is said of damage")
    want((1, "", "album: DIR/epoch-1.log: it has less than 5 lines\n"),
         checked(program, folder, "--repair-to-line", "5"), "what is said of a line that isn't there")
    want(damaged_at + 2 + len(second), (folder / "epoch-1.log").stat().st_size, "the size of the log")
    want((1, "", f"album: DIR/epoch-1.log: line 3, from byte {damaged_at}, is damaged (BadLine)\n"),
         checked(program, folder, "--repair-to-line", "3"), "what is said of a line that is damaged")
    want(["epoch-1.log", "epoch-1.opening", "lock"], names_in(folder), "the files")
    want((0, '{"epoch":2,"items":4,"lines":0}\n', ""), checked(program, folder, "--repair-to-line", "2"), "a repair")
    want(first + second + b"x\n" + second, (folder / "epoch-1.log").read_bytes(), "the log that was damaged")
    with served(program, folder) as service:
        want("Hill", title_in(service), "the title after a repair")
        want((1, "", "album: DIR: another service has it\n"), checked(program, folder), "what is said meanwhile")


def openings_that_are_none(program, folder):
    """A first opening that is refused leaves no epoch; one of an epoch that is none is named."""
    want(('{"name":"BadOpening","refused":22}\n', "album: opening: BadOpening\n"),
         refused(program, folder, opening(1, {"item": "picture/0", "value": picture("Twice")})), "what is said")
    want(["lock"], names_in(folder), "the files")
    want(('{"name":"BadLine","refused":2}\n', "album: opening, line 1: BadLine\n"), refused(program, folder, b"x\n"),
         "what is said")
    (folder / "epoch-1.opening").write_bytes(opening(1))
    want(("", "album: DIR/epoch-1.log: No such file or directory (os error 2)\n"), refused(program, folder),
         "what is said without a log")
    folder_with(folder, opening(1)[:-len(b'{"begin":true}\n')], b"")
    want(("", "album: DIR/epoch-1.opening: BadOpening: nothing is served\n"), refused(program, folder), "what is said")


def begun_and_not_opened(program, folder):
    """What is left of an epoch whose opening wasn't there yet doesn't count."""
    folder_with(folder, opening(1), line(0, 65537, ["picture/0"], ["picture/0", picture("Lake")]))
    (folder / "epoch-2.log").write_bytes(b"anything\0")
    (folder / "epoch-2.begun").write_bytes(opening(1)[:100])
    with served(program, folder) as service:
        want("Lake", title_in(service), "a title")
    want(["epoch-1.log", "epoch-1.opening", "epoch-2.log", "epoch-2.opening", "lock"], names_in(folder), "the files")


def opening_that_is_not_read(program, folder):
    """Where the folder has an epoch, the opening that is named isn't read."""
    folder_with(folder, opening(1), b"")
    with Service(program, b"", 65535, "--data", str(folder), "--opening", "/nowhere") as service:
        want("Sea", title_in(service), "a title")


def two_on_one_folder(program, folder):
    """The second is refused, and the first goes on."""
    with Service(program, opening(1), 65535, "--data", str(folder)) as service:
        want(("", "album: DIR: another service has it\n"), refused(program, folder, opening(1)), "what is said")
        want("Sea", title_in(service), "a title")


def folders_that_cannot_be(program, folder):
    """A path that is a file, and one below it."""
    path = folder / "file"
    path.write_bytes(b"")
    for name in (path, path / "below"):
        want(("", True), (lambda said: (said[0], said[1].startswith("album: DIR")))(refused(program, name, opening(1))),
             f"what is said of {name}")


def disk_that_is_full(program, folder):
    """A file that may not grow: what waited is not answered, the reason is said, and what was answered is there."""
    with tempfile.TemporaryFile() as errors:
        run = Service(program, opening(1, limit=100_000), 65535, "--data", str(folder), errors=errors,
                      size=3 << 18)
        with run as service:
            connection = Connection(service.port, ONE_PIECE)
            connection.ask({"who": "amy@users"})
            last = 0
            for number in range(1, 5000):
                try:
                    title = "x" * 190 + str(number)
                    answer = connection.ask({"ask": {"do": "retitle", "object": "picture/0", "title": title}})
                except (OSError, ValueError):
                    break
                if answer.get("answer") != "committed":
                    break
                last = number
            want(1, service.run.wait(SECONDS), "the status")
            said = service.said().decode().replace(str(folder), "DIR")
            want(True, "album: DIR/epoch-1.log: the disk failed" in said, f"that {said!r} has the reason")
    with served(program, folder) as service:
        shown = int(title_in(service)[190:])
        want(True, last <= shown <= last + 1, f"that {shown} is there, where {last} was answered last")


FACTS = {
    "a service goes on": goes_on,
    "logs by hand": logs_by_hand,
    "damaged logs": damaged,
    "a folder that is looked at, and repaired": looked_at_and_repaired,
    "openings that are none": openings_that_are_none,
    "an epoch that was begun and never opened": begun_and_not_opened,
    "an opening that isn't read": opening_that_is_not_read,
    "two services on one folder": two_on_one_folder,
    "folders that can't be": folders_that_cannot_be,
    "a disk that is full": disk_that_is_full,
}


# ---- each byte

def at_each_byte(program, folder, say):
    """A log of three writes that is cut at each byte, and whose bytes are changed one by one."""
    lines = [line(0, 65536 * n + 1, ["picture/0"], ["picture/0", picture(f"T{n}")]) for n in (1, 2, 3)]
    log = b"".join(lines)
    ends = [sum(map(len, lines[:n])) for n in range(4)]
    for cut in range(len(log) + 1):
        for rest in (b"", bytes(100)):
            folder_with(folder, opening(1), log[:cut] + rest)
            whole = max(n for n in range(4) if ends[n] <= cut)
            with served(program, folder) as service:
                want(f"T{whole}" if whole else "Sea", title_in(service), f"the title, cut at {cut}")
            for file in folder.glob("epoch-2.*"):
                file.unlink()
    say(f"cut at {len(log) + 1} bytes")
    named = torn = 0
    for at in range(len(log)):
        changed = log[:at] + bytes([log[at] ^ 1]) + log[at + 1:]
        folder_with(folder, opening(1), changed)
        run = subprocess.run([program, "serve", str(free_port()), "--data", str(folder), "--until-eof"],
                             stdin=subprocess.DEVNULL, capture_output=True, timeout=SECONDS)
        if run.returncode == 1 and b"is damaged" in run.stderr:
            named += 1
        elif at == len(log) - 1 and run.returncode == 0:
            torn += 1  # the last newline: then the line is a torn one
        else:
            raise Differs(f"byte {at} was changed: {run.returncode}, {run.stderr}")
        for file in folder.glob("epoch-2.*"):
            file.unlink()
    say(f"of {len(log)} changes {named} were named, and {torn} left a torn line at the end")


def checks():
    """Each row: its name, how it is run on a program, and what it is."""
    return rows_of("data", FACTS, held_in_folder)


if __name__ == "__main__":
    for name, fact in FACTS.items():
        print(f"{name}: {held_in_folder(sys.argv[1], fact) or 'holds'}")
    in_folder(sys.argv[1], lambda program, folder: at_each_byte(program, folder, print))
