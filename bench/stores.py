"""The stores that bench/growth asks. Of each series one thing grows, and nothing else: the entries of a picture's list,
how many pictures there are, the versions of a group, how many groups lie between a list and who asks, the children of
an album. An opening has at most 4,096 items, so there are fewer albums where each has more children."""
from pictures import ASKERS, CONTENT, GROUPS, INNER, MEMBERS, USERS, command, entries, line, members, other_group, owner

READS, READ_BIT, IS_GROUP = 200, 1, 64
ROOM = 4000  # items of an opening
HEAD_GROUP = 1000


class Store:
    """Items with their values; what is asked of which of them, and how that is answered, with how many rows; and asks
    that come before."""

    def __init__(self, name, verb, count, made, answer=None, before=(), rows=0):
        self.name, self.verb, self.asked, self.made = name, verb, range(count), made
        self.answer = answer or {"read": "served", "list": "listed"}[verb]
        self.before, self.rows = list(before), rows

    def items(self):
        return self.made

    def request(self, number):
        return Request(self.verb, number, self.answer)


class Request:
    """What is asked of a picture or an album: the same of the service and of Redis."""

    def __init__(self, verb, number, answer):
        self.verb, self.number, self.word = verb, number, answer

    def talk(self):
        """Its line for the service."""
        if self.verb == "read":
            return line({"ask": {"do": "read", "object": f"picture/{self.number}"}}).encode()
        return line({"ask": {"do": "list", "album": f"album/{self.number}"}}).encode()

    def script(self, sha, who):
        """Its command for Redis."""
        return command("EVALSHA", sha, 0, who, self.verb, self.number)

    def answer(self):
        """How its answer begins at both, without the sign before it."""
        return self.word


class Change:
    """A group gets other members, of which who asks is one still. Redis is asked nothing of the kind."""

    def __init__(self, group, turn):
        self.group, self.turn = group, turn

    def talk(self):
        users = [f"guest{self.turn}@users", *USERS[:MEMBERS - 2], f"{INNER}@groups"]
        return line({"ask": {"do": "set_members", "object": f"group/{self.group}", "members": users}}).encode()

    def answer(self):
        return "committed"


def picture(n, group, home=0):
    return f"picture/{n}", {"title": "Sea", "content": CONTENT, "owner": owner(n), "group": group, "home": home,
                            "list": n}


def album(n, number, children):
    """The album, whose list has a number of its own."""
    return f"album/{n}", {"title": "Trip", "owner": owner(n), "group": other_group(n, 3), "home": None, "list": number,
                          "children": children}


def a_list(n, made):
    return f"list/{n}", {"entries": made}


def group(n, users, groups=(), number=None):
    """The group; its list is one that isn't there, if no other is named."""
    listed = list(users) + [f"{inner}@groups" for inner in groups]
    return f"group/{n}", {"owner": USERS[0], "group": HEAD_GROUP, "list": 60_000 + n if number is None else number,
                          "members": listed}


def groups():
    """The groups of pictures.py: who asks is in the last one alone, which the first one lists."""
    return [group(n, *members(n)) for n in range(GROUPS)]


def allowed(n):
    """An entry that allows the members of a group to read."""
    return ["allow", f"{n}@groups", READ_BIT, IS_GROUP]


def by_entries(count):
    """Lists of so many entries, of which the last one decides. The others deny users, and each fourth a group."""
    denied = [["deny", "GROUP@" if n % 4 == 3 else f"guest{n}@users", READ_BIT, 0] for n in range(count - 1)]
    made = [group(0, USERS[:MEMBERS], [INNER]), group(INNER, ASKERS), group(HEAD_GROUP, USERS[:MEMBERS])]
    for n in range(READS):
        made += [picture(n, HEAD_GROUP), a_list(n, denied + [allowed(0)])]
    return Store(f"read: list of {count}", "read", READS, made)


def by_pictures(count):
    """So many pictures, each with a list of 8 entries, in albums of 100."""
    made = groups()
    for n in range(count):
        made += [picture(n, other_group(n, 3), n // 100), a_list(n, entries(n))]
    for n in range(count // 100):
        made.append(album(n, 50_000 + n, [f"picture/{m}" for m in range(100 * n, 100 * n + 100)]))
    return Store(f"read: {count} pictures", "read", count, made)


def by_versions(count):
    """A group with so many versions, which the lists of all pictures name."""
    may = [["allow", "EVERYONE@", READ_BIT + 1, 0]]
    made = [group(0, USERS[:MEMBERS], [INNER], READS), a_list(READS, may), group(INNER, ASKERS),
            group(HEAD_GROUP, USERS[:MEMBERS])]
    for n in range(READS):
        made += [picture(n, HEAD_GROUP), a_list(n, [allowed(0)])]
    changes = [Change(0, turn) for turn in range(count - 1)]
    return Store(f"read: {count} version{'s' * (count > 1)}", "read", READS, made, before=changes)


def by_chain(depth, named=(0,), answer=None):
    """A chain of so many groups, each listed by the one before. Who asks is in the last; a list names the first."""
    made = [group(HEAD_GROUP, USERS[:MEMBERS]), group(depth - 1, ASKERS)]
    made += [group(n, USERS[MEMBERS * n:MEMBERS * (n + 1)], [n + 1]) for n in range(depth - 1)]
    for n in range(READS):
        made += [picture(n, HEAD_GROUP), a_list(n, [allowed(it) for it in named])]
    more = f", {len(named)} named" if len(named) > 1 else ""
    return Store(f"read: chain of {depth}{more}", "read", READS, made, answer)


def by_children(count):
    """Albums of so many children, each with a list of 8 entries; who asks may see them all."""
    albums = min(READS, ROOM // (2 + 2 * count))
    made = groups()
    for n in range(albums):
        children = range(count * n, count * n + count)
        made += [album(n, 50_000 + n, [f"picture/{m}" for m in children]), a_list(50_000 + n, entries(n))]
        for m in children:
            made += [picture(m, other_group(m, 3), n), a_list(m, entries(m))]
    return Store(f"list: {count} children", "list", albums, made, rows=count)


def all_stores():
    """The stores by the name of their series. A chain of more than 6 groups takes more reads than an ask may have,
    unless lists name other groups of it too."""
    return {
        "entries": [by_entries(count) for count in (1, 8, 64, 128)],
        "pictures": [by_pictures(count) for count in (100, 1000, 2000)],
        "versions": [by_versions(count) for count in (1, 1000)],
        "chain": [by_chain(1), by_chain(4), by_chain(6), by_chain(16, answer="busy"), by_chain(16, (0, 4, 8, 12))],
        "children": [by_children(count) for count in (0, 4, 16, 64, 128)],
    }
