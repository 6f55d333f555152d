"""The store that bench/serve asks: 1,000 pictures in 50 albums, 20 groups, and a list of 8 entries for each of them. It
is made as the opening of a service, and as commands to Redis; so is each request.

Who asks is in the last group alone, which the first one lists; each list names the first, and three more beside the
head group. So a view of a picture has 8 items, and comes of four reads."""
import json

PICTURES, ALBUMS, GROUPS = 1000, 50, 20
EACH = PICTURES // ALBUMS
MEMBERS = 16
INNER = GROUPS - 1
CONTENT = "73" * 256
ASKERS = [f"asker{n}@users" for n in range(MEMBERS)]
USERS = [f"user{n}@users" for n in range(MEMBERS * INNER)]


def members(group):
    """The users and the groups that a group lists."""
    if group == INNER:
        return ASKERS, []
    users = USERS[MEMBERS * group:MEMBERS * (group + 1)]
    return (users[1:], [INNER]) if group == 0 else (users, [])


def owner(n):
    return USERS[n % len(USERS)]


def other_group(n, step):
    """One of the groups between the first and the last, another one for each of four steps."""
    return 1 + (n + 4 * step) % (INNER - 1)


def entries(n, bit=2, is_audited=False):
    """The list of a number. Who asks may read, title and set lists, by the last entry but one. Another may audit it."""
    return [["allow", "OWNER@", 2032127, 0], ["deny", "ANONYMOUS@", 2032127, 0],
            ["deny", f"{other_group(n, 0)}@groups", 65536, 64], ["allow", f"{other_group(n, 1)}@groups", bit, 64],
            ["allow", "GROUP@", 131, 0], ["deny", f"{other_group(n, 2)}@groups", 524288, 64],
            ["allow", "0@groups", 262401, 64], ["allow", "EVERYONE@", 128, 0],
            *([["audit", "EVERYONE@", 1, 16]] if is_audited else [])]


def heads():
    """Each picture, album and group with the fields of its head. Its list has a number of its own."""
    numbered = [("picture", n) for n in range(PICTURES)] + [("album", n) for n in range(ALBUMS)]
    for place, (kind, n) in enumerate(numbered + [("group", n) for n in range(GROUPS)]):
        yield kind, n, {"owner": owner(n), "group": other_group(place, 3), "list": place}


def line(made):
    return json.dumps(made, separators=(",", ":"), sort_keys=True) + "\n"


def items(is_audited=False):
    """Each item with its value; each picture that is read may be noted."""
    for kind, n, head in heads():
        if kind == "picture":
            head.update(title="Sea", content=CONTENT, home=n // EACH)
        elif kind == "album":
            head.update(title="Trip", home=None, children=[f"picture/{n * EACH + m}" for m in range(EACH)])
        else:
            users, groups = members(n)
            head.update(members=users + [f"{group}@groups" for group in groups])
        yield f"{kind}/{n}", head
        yield f"list/{head['list']}", {"entries": entries(head["list"], 2, is_audited)}


def opening_of(made, parts, is_checked=True):
    """The lines of the opening of a service with these items."""
    yield line({"open": {**({"checked": True} if is_checked else {}), "limit": 1000000, "parts": parts}})
    for item, value in made:
        yield line({"item": item, "value": value})
    yield line({"begin": True})


def opening(parts, is_audited=False, is_checked=True):
    """The lines of the opening of a service with this store."""
    return opening_of(items(is_audited), parts, is_checked)


def command(*words):
    """A command to Redis, as bytes."""
    made = b"*%d\r\n" % len(words)
    for word in words:
        text = str(word).encode()
        made += b"$%d\r\n%s\r\n" % (len(text), text)
    return made


def commands_of(made):
    """The same items in Redis: a hash for a head, a list for an album's children, a text for a list, and sets for the
    members of a group."""
    for item, value in made:
        key = item.replace("/", ":")
        if key.startswith("list:"):
            yield command("SET", key, line(value["entries"]))
            continue
        fields = [word for field in value.items() if field[0] not in ("children", "members") for word in field]
        yield command("HSET", key + ":head" if key.startswith("group:") else key, *fields)
        if value.get("children"):
            yield command("RPUSH", key + ":children", *[child.replace("/", ":") for child in value["children"]])
        users = [member for member in value.get("members", ()) if not member.endswith("@groups")]
        groups = [member.partition("@")[0] for member in value.get("members", ()) if member.endswith("@groups")]
        for name, members_of in ((key, users), (key + ":groups", groups)):
            if members_of:
                yield command("SADD", name, *members_of)


def commands():
    """This store in Redis."""
    return commands_of(items())


class Request:
    """What is asked of a picture; the title or the lists that it is given hang on `turn`."""

    def __init__(self, verb, picture, turn):
        self.verb, self.picture = verb, picture
        self.title = f"Sea {turn}"
        self.album = picture // EACH
        self.lists = [entries(picture, 2 + 2 * (turn % 2)), entries(PICTURES + self.album, 2 + 2 * (turn % 2))]

    def talk(self):
        """Its line for the service."""
        ask = {"do": self.verb}
        if self.verb == "set_lists":
            ask["lists"] = [[f"picture/{self.picture}", self.lists[0]], [f"album/{self.album}", self.lists[1]]]
        else:
            ask["object"] = f"picture/{self.picture}"
        if self.verb == "retitle":
            ask["title"] = self.title
        return line({"ask": ask}).encode()

    def script(self, sha, who):
        """Its command for Redis."""
        given = {"read": [], "retitle": [self.title], "set_lists": [line(made) for made in self.lists]}[self.verb]
        return command("EVALSHA", sha, 0, who, self.verb, self.picture, *given)

    def answer(self):
        """How its answer begins at both, without the sign before it."""
        return "served" if self.verb == "read" else "committed"
