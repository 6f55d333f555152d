"""The PostgreSQL that bench/serve asks: a server of its own with the tables of serve.sql, and what is sent to it.

A message is a letter, the four bytes of its length, and the rest; only the first one of a connection has no letter. A
request is a statement that its connection has prepared, with its values, and a transaction of its own."""
import contextlib
import os
import pwd
import shutil
import struct
import subprocess
import sys
import tempfile

import pictures
from measure import HERE, free_port
from pictures import ASKERS, EACH, Request
from services import Peer, connect, split

PROGRAMS = ("initdb", "pg_ctl", "postgres", "psql")
LEVELS = ("read-committed", "repeatable-read", "serializable")
STATEMENTS = {"read": "SELECT read($1, $2)", "retitle": "SELECT retitle($1, $2, $3)",
              "set_lists": "SELECT set_lists($1, $2, $3, $4)"}
NAME = "postgres"  # of the user and of the database, which are there from the start
VERSION = 3 << 16  # of the protocol
WARMING = 8  # requests of each kind. A connection's first takes 5 ms, and five more are planned anew, in 1 ms each.
BEFORE_CLOCK = 2 + WARMING * len(STATEMENTS)


@contextlib.contextmanager
def postgres(connections, isolation, is_durable=False):
    """A PostgreSQL for so many connections that has the store, as a peer; None where there is no PostgreSQL. A durable
    one answers no write before it is on the disk."""
    if not all(map(shutil.which, PROGRAMS)):
        yield None
        return
    port = free_port()
    with tempfile.TemporaryDirectory() as folder:
        user = user_of(folder)
        run = lambda *words: subprocess.run(words, cwd=folder, stdout=subprocess.DEVNULL, check=True, **user)
        run("initdb", "--pgdata", folder, "--username", NAME, "--auth", "trust", "--encoding", "UTF8", "--no-locale",
            "--no-sync")
        with open(os.path.join(folder, "postgresql.conf"), "a") as file:
            for name, value in settings(port, connections, isolation, is_durable).items():
                file.write(f"{name} = '{value}'\n")
        run("pg_ctl", "--pgdata", folder, "start")
        try:
            with open(os.path.join(HERE, "serve.sql")) as tables:
                psql(port, tables.read())
            fill(port)
            yield Peer("postgres", port, lambda: fill(port), files, lambda: asking(port),
                       ("--postgres", str(BEFORE_CLOCK)))
        finally:
            run("pg_ctl", "--pgdata", folder, "--mode", "immediate", "stop")


def user_of(folder):
    """Whom the server runs as, who then owns the folder. PostgreSQL refuses to run as root, so from root it is the user
    that its package makes, or nobody."""
    if os.geteuid() != 0:
        return {}
    users = {user.pw_name: user for user in pwd.getpwall()}
    user = users.get("postgres") or users["nobody"]
    os.chown(folder, user.pw_uid, user.pw_gid)
    return {"user": user.pw_uid, "group": user.pw_gid, "extra_groups": []}


def settings(port, connections, isolation, is_durable):
    """The store is in memory, where each page costs the same. If PostgreSQL isn't told so, it goes over all users to
    find one, and a read takes longer by a quarter. Transactions that fail, and are sent again, aren't logged."""
    kept = "on" if is_durable else "off"
    return {"port": port, "listen_addresses": "127.0.0.1", "unix_socket_directories": "",
            "max_connections": connections + 10, "fsync": kept, "synchronous_commit": kept, "random_page_cost": 1.1,
            "default_transaction_isolation": isolation.replace("-", " "), "log_min_messages": "fatal"}


def psql(port, statements):
    """Has them carried out, all or up to one that fails."""
    words = ["psql", "--no-psqlrc", "--quiet", "--set", "ON_ERROR_STOP=1", "--host", "127.0.0.1", "--port", str(port),
             "--username", NAME, "--dbname", NAME]
    subprocess.run(words, input=statements.encode(), check=True)


def fill(port):
    """Puts the store into the tables, in place of what is there."""
    tables = rows()
    copies = [f"COPY {table} FROM STDIN;\n" + "".join("\t".join(row) + "\n" for row in rows_of) + "\\.\n"
              for table, rows_of in tables.items()]
    psql(port, f"TRUNCATE {', '.join(tables)};\n" + "".join(copies) + "VACUUM ANALYZE;\n")


def rows():
    """The rows of each table, as COPY takes them."""
    tables = {table: [] for table in ("lists", "groups", "members", "inner_groups", "albums", "pictures")}
    for item, value in pictures.items():
        kind, number = item.split("/")
        if kind == "list":
            tables["lists"].append([number, array(value["entries"])])
            continue
        named = ["title", "content", "home"] if kind == "picture" else ["title", "home"] if kind == "album" else []
        fields = [value[name] for name in named + ["owner", "group", "list"]]
        tables[kind + "s"].append([number] + ["\\N" if field is None else str(field) for field in fields])
        for member in value.get("members", ()):
            group, _, domain = member.partition("@")
            table, name = ("inner_groups", group) if domain == "groups" else ("members", member)
            tables[table].append([name, number])
    return tables


def array(entries):
    """A list's entries as PostgreSQL spells them. (No name has a character that wants a sign before it.)"""
    return "{" + ",".join('"(%s)"' % ",".join(map(str, entry)) for entry in entries) + "}"


def message(kind, *parts):
    rest = b"".join(parts)
    return kind + struct.pack("!I", 4 + len(rest)) + rest


def text(word):
    return word.encode() + b"\0"


def begun():
    """A connection's first message: who it is."""
    return message(b"", struct.pack("!I", VERSION), text("user"), text(NAME), text("database"), text(NAME), b"\0")


def prepared():
    """The messages that prepare each statement by its name: no types are given, so the functions' are taken."""
    made = [message(b"P", text(verb), text(statement), b"\0\0") for verb, statement in STATEMENTS.items()]
    return b"".join(made) + message(b"S")


def execution(request, who):
    """The messages that carry out a request by its prepared statement: values and answer are texts."""
    given = {"read": [], "retitle": [request.title], "set_lists": list(map(array, request.lists))}[request.verb]
    values = [str(value).encode() for value in (who, request.picture, *given)]
    counted = [struct.pack("!I", len(value)) + value for value in values]
    bound = message(b"B", b"\0", text(request.verb), b"\0\0", struct.pack("!H", len(values)), *counted, b"\0\0")
    return bound + message(b"E", b"\0", b"\0\0\0\0") + message(b"S")


def files(folder, requests, connections):
    return split(folder, requests, connections, greetings, execution, Request.answer)


def greetings(who):
    """What comes before the clock, since where connections stay each has long done it: it begins, prepares its
    statements, and asks some requests, each user about a picture in another album."""
    warming = [Request(verb, EACH * ASKERS.index(who), n) for n in range(WARMING) for verb in STATEMENTS]
    asked = [(request.answer(), execution(request, who)) for request in warming]
    return [("R", begun()), ("1", prepared())] + asked


@contextlib.contextmanager
def asking(port):
    """What asks a request by a connection, for a user, and gives its answer."""
    with connect(port) as talk:
        answer_to(talk, begun())
        answer_to(talk, prepared())
        yield lambda request, who: answer_to(talk, execution(request, who))


def answer_to(talk, sent):
    """The text of the row that answers these messages; none, where no row does."""
    talk.write(sent)
    talk.flush()
    row = None
    while True:
        kind, size = struct.unpack("!cI", talk.read(5))
        rest = talk.read(size - 4)
        if kind == b"E":
            sys.exit("bench: PostgreSQL answers %r" % rest)
        if kind == b"D":
            row = rest[6:]  # after the number of columns, and the length of the text
        if kind == b"Z":
            return row
