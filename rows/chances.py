"""Random scripts of a checked store: three clients ask at once, and their messages come in any order. What was answered
committed, done one after another in the order of the stamps, gives exactly what is listed in the end. So nothing that
was answered is lost, whatever came between. `rows/chances.py PROGRAM [--plain | --restarts] [SCRIPTS]` says how many
differ; with --plain the store isn't checked, and many do. With --restarts the store restarts now and then: a write that
isn't answered is done then exactly where each partition that got a part of it has prepared that. What is shown has the
stamp of the write that made it so, in whatever epoch that was."""
import json
import pathlib
import random
import subprocess
import sys

from races import ALL, EVERYONE, album, entries, opening, picture
from serving import Differs, want, wrong_of

SCRIPTS = 300
STEPS = 160
CLIENTS = (1, 2, 3)
ALBUMS = ("album/0", "album/1")
PLAIN = ["allow", "EVERYONE@", ALL, 0]  # for a picture, which passes nothing on
NO_MESSAGE = {"name": "NoSuchMessage", "refused": 14}
NEVER = 4_000_000_000  # the number of a message that there never is
LOOKED_AT = 3  # of how many pictures the stamps are looked at


class Script:
    """A replay that is written as it goes on. Each event is followed by one whose answer is known, so it is known what
    the event has printed."""

    def __init__(self, program, is_checked, seed):
        self.chance = random.Random(seed)
        self.run = subprocess.Popen([program, "replay", "--trace"], stdin=subprocess.PIPE, stdout=subprocess.PIPE)
        items = [picture(0, 0, "Sea"), picture(1, 1, "Sky"), album(0, 2, ["picture/0"]), album(1, 3, ["picture/1"]),
                 *(entries(number, PLAIN) for number in (0, 1)), *(entries(number, EVERYONE) for number in (2, 3))]
        self.write(opening(is_checked, *items))
        self.pictures = ["picture/0", "picture/1"]
        self.done, self.answers = [], []
        self.epoch, self.carried, self.let_go = 1, 0, 0
        self.forget()

    def forget(self):
        """Nothing is on its way, nobody is to be answered, and nothing is prepared but what the epoch began with."""
        self.sent, self.asked, self.prepares, self.prepared = [], {}, {}, set()

    def write(self, data):
        self.run.stdin.write(data)
        self.run.stdin.flush()

    def event(self, event):
        """Has it happen, and takes what it prints: messages that are on their way now, and answers."""
        self.write((json.dumps(event) + "\n" + json.dumps({"deliver": NEVER}) + "\n").encode())
        while True:
            line = json.loads(self.run.stdout.readline())
            if line == NO_MESSAGE:
                return
            if "say" in line:
                self.sent.append(line["k"])
                self.said(line)
            elif line.get("answer") == "restarted":
                want(self.epoch + 1, line["epoch"], "the epoch")
                self.epoch += 1
            elif "client" in line and line["client"] in self.asked:
                self.answered(self.asked.pop(line["client"]), line)

    def said(self, line):
        """What a message says of a write: where it is to be prepared, and where it is."""
        if line["say"] == "prepare":
            stamp, places = self.prepares.get(line["from"], (line["stamp"], set()))
            places = places if stamp == line["stamp"] else set()
            self.prepares[line["from"]] = line["stamp"], places | {line["to"]}
        elif line["say"] == "prepared":
            self.prepared.add((line["stamp"], line["from"]))

    def answered(self, asked, line):
        self.answers.append(line)
        if line.get("answer") == "committed":
            self.is_done(line["stamp"], asked)

    def is_done(self, stamp, asked):
        self.done.append((stamp, asked))
        if asked["do"] == "add_picture":
            self.pictures.append(f"picture/{stamp}")

    def restarts(self):
        """What is in doubt is done where it is prepared throughout, and else it never is."""
        for client, asked in self.asked.items():
            stamp, places = self.prepares.get(f"c{client}", (None, ()))
            if stamp is not None and all((stamp, place) in self.prepared for place in places):
                self.is_done(stamp, asked)
                self.carried += 1
            elif stamp is not None:
                self.let_go += 1
        self.forget()
        self.event({"restart": True})

    def ask(self, client, asked):
        self.asked[client] = asked
        self.prepares.pop(f"c{client}", None)
        self.event({"ask": asked, "client": client, "who": "amy@users"})

    def deliver(self):
        """One of the messages on their way, mostly one of the oldest."""
        place = min(self.chance.randrange(len(self.sent)) for _ in range(2))
        self.event({"deliver": self.sent.pop(place)})

    def wish(self):
        of = self.chance.choice(self.pictures)
        text = f"t{self.chance.randrange(1_000_000)}"
        return self.chance.choice([
            {"do": "add_picture", "album": self.chance.choice(ALBUMS), "title": text, "content": ""},
            {"do": "retitle", "object": of, "title": text}, {"do": "retitle", "object": of, "title": text},
            {"do": "replace", "object": of, "content": text.encode().hex()},
            {"do": "move", "object": of, "to": self.chance.choice(ALBUMS)}, {"do": "delete", "object": of},
            {"do": "set_lists", "lists": [[of, [PLAIN]], [self.chance.choice(ALBUMS), [EVERYONE]]]},
            {"do": "list", "album": self.chance.choice(ALBUMS)},
        ])

    def goes_on(self):
        free = [client for client in CLIENTS if client not in self.asked]
        if free and (not self.sent or self.chance.random() < 0.3):
            self.ask(self.chance.choice(free), self.wish())
        elif self.sent:
            self.deliver()

    def settles(self):
        while self.sent:
            self.event({"deliver": self.sent.pop(0)})

    def answer_to(self, asked):
        """What a client is answered in the end that has asked nothing before."""
        self.ask(4, asked)
        self.settles()
        return self.answers[-1]

    def listed(self, number):
        answer = self.answer_to({"do": "list", "album": number})
        want("listed", answer["answer"], "the last answer")
        return sorted(answer["rows"])

    def stamps_of(self, of):
        """At which stamps a picture and its list are shown."""
        return tuple(self.answer_to({"do": how, "object": of})["stamp"] for how in ("read", "get_list"))

    def ends(self):
        self.run.stdin.close()
        want(0, self.run.wait(), "the status")
        self.run.stdout.close()


def done_in_order(done):
    """The albums with their pictures and titles, once what was committed is done in the order of the stamps; and of
    each picture the stamps at which it and its list were written last."""
    title, home = {"picture/0": "Sea", "picture/1": "Sky"}, {"picture/0": "album/0", "picture/1": "album/1"}
    stamps, lists = dict.fromkeys(title, 0), dict.fromkeys(title, 0)
    for stamp, asked in sorted(done, key=lambda row: row[0]):
        match asked["do"]:
            case "add_picture":
                made = f"picture/{stamp}"
                title[made], home[made] = asked["title"], asked["album"]
                stamps[made] = lists[made] = stamp
            case "retitle":
                title[asked["object"]] = asked["title"]
                stamps[asked["object"]] = stamp
            case "replace":
                stamps[asked["object"]] = stamp
            case "move":
                home[asked["object"]] = asked["to"]
                stamps[asked["object"]] = stamp
            case "set_lists":
                lists[asked["lists"][0][0]] = stamp
            case "delete":
                del home[asked["object"]]
    listed = {number: sorted([of, title[of]] for of in home if home[of] == number) for number in ALBUMS}
    return listed, {of: (stamps[of], lists[of]) for of in sorted(home)}


def script(program, is_checked, seed, restarts=0.0):
    """Runs one: how many were aborted, and how many that were in doubt were carried over a restart, and let go."""
    run = Script(program, is_checked, seed)
    for _ in range(STEPS):
        run.goes_on()
        if restarts and run.chance.random() < restarts:
            run.restarts()
    run.settles()
    wanted, stamps = done_in_order(run.done)
    got = {number: run.listed(number) for number in ALBUMS}
    some = random.Random(seed).sample(list(stamps), min(len(stamps), LOOKED_AT))
    shown = {of: run.stamps_of(of) for of in some} if wanted == got else {}
    aborted = sum(answer.get("answer") == "aborted" for answer in run.answers)
    run.ends()
    want(wanted, got, f"what is listed after script {seed}")
    want({of: stamps[of] for of in some}, shown, f"the stamps that are shown after script {seed}")
    return aborted, run.carried, run.let_go


def scripts(program, is_checked=True, count=SCRIPTS):
    """In a checked store none differs, and some of their writes are aborted; in another some do."""
    aborted = differ = 0
    for seed in range(count):
        try:
            aborted += script(program, is_checked, seed)[0]
        except (Differs, KeyError):
            if is_checked:
                raise
            differ += 1
    print_if_alone(f"{count} scripts, {aborted} writes aborted, {differ} scripts lost something")
    want((True, True), (aborted > 0 or not is_checked, differ > 0 or is_checked), "whether writes raced")


def restarted(program, count=SCRIPTS):
    """In a checked store that restarts none differs. Some writes that were in doubt are carried, and some let go."""
    carried = let_go = 0
    for seed in range(count):
        _, more, fewer = script(program, True, seed, restarts=0.04)
        carried, let_go = carried + more, let_go + fewer
    print_if_alone(f"{count} scripts, {carried} writes in doubt carried, {let_go} let go")
    want((True, True), (carried > 0, let_go > 0), "whether writes were in doubt")


def checks():
    """Each row: its name, how it is run on a program, and what it is."""
    yield "chances: random scripts of a checked store", lambda program, hold: wrong_of(hold, program), scripts
    yield "chances: random scripts of another store", lambda program, hold: wrong_of(hold, program, False), scripts
    yield "chances: random scripts with restarts", lambda program, hold: wrong_of(hold, program), restarted


def print_if_alone(text):
    if __name__ == "__main__":
        print(text, flush=True)


def main():
    program, *words = sys.argv[1:]
    counts = [int(word) for word in words if not word.startswith("--")]
    program = str(pathlib.Path(program).resolve())
    if "--restarts" in words:
        print(wrong_of(restarted, program, *counts) or "ok")
    else:
        print(wrong_of(scripts, program, "--plain" not in words, *counts) or "ok")


if __name__ == "__main__":
    main()
