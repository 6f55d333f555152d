#!/usr/bin/env python3
"""An application over a running service: amy shares an album with bo by a group, and takes it away from him again.

usage: examples/application.py PORT, or --opening, which prints the opening that the service has to begin with"""
import sys
import time
from concurrent.futures import ThreadPoolExecutor
from socket import SHUT_RDWR

from client import Client

# Every user may add an album to album/1 (4). It inherits the first entry (3), by which whoever made it may do all.
OPENING = """{"open":{"checked":true,"parts":3,"policy":3}}
{"item":"album/1","value":{"children":[],"group":0,"home":null,"list":1,"owner":"admin@users","title":"Albums"}}
{"item":"list/1","value":{"entries":[["allow","OWNER@",2032127,3],["allow","AUTHENTICATED@",4,0]]}}
{"begin":true}"""
ALL, SEE, RETITLE, INHERITED, GROUP = 2032127, 1 + 128, 256, 1 + 2, 64  # masks and flags, as in docs/FORMATS.md
RIGHTS = {1: "read or list", 2: "write or add pictures to", 4: "add albums to", 64: "delete from", 65536: "delete",
          128: "see the head of", 256: "retitle", 131072: "see the list of", 262144: "set the list of"}


class User:
    """A user, with a connection that is made anew after it was lost."""

    def __init__(self, port, name):
        self.port, self.name, self.client = port, name, None

    def ask(self, **ask):
        """The answer where it is done, or `aborted`. Else an error: a ConnectionError where it may be done or not."""
        try:
            self.client = self.client or Client(self.port, f"{self.name}@users")  # which says who it is
            answer = self.client.ask(**ask)
        except (OSError, ValueError) as error:  # also where it comes too late, or is cut
            self.client = None
            raise ConnectionError(f"{self.name} has no answer to {ask}: {error}") from error
        if answer.get("answer") in ("served", "listed", "committed", "aborted"):
            return answer
        if answer.get("answer") == "denied":
            rights = " or ".join(f"to {RIGHTS[mask]} {of}" for of, mask, _ in answer["reasons"])
            raise PermissionError(f"{self.name} can't {ask['do']} without the right {rights}")
        error = ConnectionError if answer.get("answer") == "unsettled" else RuntimeError
        raise error(f"{self.name} asked {ask} and was answered {answer}")

    def read(self, **ask):
        """What is served. A read changes nothing, so one without an answer is asked once more."""
        try:
            return self.ask(**ask)
        except ConnectionError:
            return self.ask(**ask)

    def write(self, **ask):
        """The stamp of a write. `aborted` says that another came first and nothing of it is made: it is asked again."""
        for _ in range(8):
            answer = self.ask(**ask)
            if answer["answer"] == "committed":
                return answer["stamp"]
        raise RuntimeError(f"{self.name} came too late 8 times to {ask['do']}")


def retitle(user, seen, title):
    """The stamp of another title for a picture whose head was seen, also where the connection is lost."""
    try:
        return user.write(do="retitle", object=seen["object"], title=title)
    except ConnectionError:
        # The service may have made it, be at it still, or never have heard of it. Asked again unseen it could undo what
        # another has written since. So after a moment it is looked for: each write of the picture changes its stamp.
        time.sleep(0.1)
        now = user.read(do="head", object=seen["object"])
        if now["stamp"] == seen["stamp"]:
            return user.write(do="retitle", object=seen["object"], title=title)
        if now["title"] == title:
            return now["stamp"]
        raise RuntimeError(f"{seen['object']} was given the title {now['title']} meanwhile") from None


def share(amy):
    """Makes an album with pictures, and a group that may see them. What is new has the number of its write's stamp."""
    album = f"album/{amy.write(do='add_album', album='album/1', title='Trips')}"
    add = {"do": "add_picture", "album": album, "content": b"jpeg".hex()}
    pictures = [f"picture/{amy.write(**add, title=title)}" for title in ("Sea", "Bay", "Hill")]
    print(f"amy made {album} with", *pictures)
    number = amy.write(do="add_group", album=album, members=["bo@users"])
    print(f"amy made group/{number} for {album}, with bo in it")
    entries = lambda flags: [["allow", "OWNER@", ALL, flags], ["allow", f"{number}@groups", SEE, GROUP + flags]]
    amy.write(do="set_lists", lists=[[album, entries(INHERITED)], *([picture, entries(0)] for picture in pictures)])
    print(f"amy lets group/{number} see {album} and its pictures")
    return album, pictures, f"group/{number}"


def look(bo, album, pictures):
    """What bo sees of an album that is shared with him."""
    rows, children = bo.read(do="list", album=album)["rows"], bo.read(do="children", album=album)["children"]
    assert [picture for picture, _ in rows] == children == pictures, f"bo sees {rows} of {children} in {album}"
    print(f"bo lists {album}:", *(title for _, title in rows))
    print(f"bo finds in {album}:", *children)
    print(f"bo reads {pictures[0]}:", bytes.fromhex(bo.read(do="read", object=pictures[0])["content"]).decode())
    print("bo sees that {object} is {title}, of {owner}, at {stamp}".format(**bo.read(do="head", object=pictures[0])))


def denied(user, **ask):
    """Prints why a user is denied."""
    try:
        sys.exit(f"application: {user.name} isn't denied: {user.ask(**ask)}")
    except PermissionError as why:
        print(why)


def lose_connection(amy, picture, title, is_made):
    """A connection that is lost with a title on its way, which the service has made by then, or never hears of."""
    seen = amy.read(do="head", object=picture)
    if is_made:
        amy.write(do="retitle", object=picture, title=title)
    amy.client.socket.shutdown(SHUT_RDWR)
    print(f"amy's connection was lost, and {picture} is {title} all the same, since", retitle(amy, seen, title))


def race(amy, cyd, picture):
    """Both retitle a picture ten times, at once. What was written last is there."""
    amy.write(do="set_lists", lists=[[picture, [["allow", "OWNER@", ALL, 0], ["allow", "cyd@users", RETITLE, 0]]]])
    titles = lambda user: [(user.write(do="retitle", object=picture, title=user.name), user.name) for _ in range(10)]
    of_amy, of_cyd = ThreadPoolExecutor().map(titles, (amy, cyd))
    head = amy.read(do="head", object=picture)
    assert (head["stamp"], head["title"]) == max(of_amy + of_cyd), f"another title than the last is there: {head}"
    print(f"amy and cyd retitled {picture} at once, and what was written last is there")


def main(word):
    """The steps, one after another, over the port that the word is; or the opening."""
    if word == "--opening":
        return print(OPENING)
    amy, bo, cyd = (User(int(word), name) for name in ("amy", "bo", "cyd"))
    album, pictures, group = share(amy)
    look(bo, album, pictures)
    denied(cyd, do="list", album=album)
    denied(cyd, do="delete", object=pictures[0])
    amy.write(do="set_members", object=group, members=[])
    print(f"amy took bo out of {group}")
    denied(bo, do="read", object=pictures[0])
    lose_connection(amy, pictures[0], "Cove", is_made=False)
    lose_connection(amy, pictures[0], "Dune", is_made=True)
    race(amy, cyd, pictures[1])


if __name__ == "__main__":
    if len(sys.argv) != 2:
        sys.exit(__doc__)
    try:
        main(sys.argv[1])
    except (AssertionError, OSError, RuntimeError, ValueError) as error:
        sys.exit(f"application: {error}")
