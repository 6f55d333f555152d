"""`album mask` and `album flags`: the number of each name, and the name of each number, which stand in two tables of
RFC 7530: sections 6.2.1.3 and 6.2.1.4."""
import json
import subprocess

from serving import SECONDS, want, wrong_of

MASKS = {
    "READ_DATA": 0x00000001, "LIST_DIRECTORY": 0x00000001, "WRITE_DATA": 0x00000002, "ADD_FILE": 0x00000002,
    "APPEND_DATA": 0x00000004, "ADD_SUBDIRECTORY": 0x00000004, "READ_NAMED_ATTRS": 0x00000008,
    "WRITE_NAMED_ATTRS": 0x00000010, "EXECUTE": 0x00000020, "DELETE_CHILD": 0x00000040, "READ_ATTRIBUTES": 0x00000080,
    "WRITE_ATTRIBUTES": 0x00000100, "DELETE": 0x00010000, "READ_ACL": 0x00020000, "WRITE_ACL": 0x00040000,
    "WRITE_OWNER": 0x00080000, "SYNCHRONIZE": 0x00100000}
FLAGS = {
    "FILE_INHERIT": 0x01, "DIRECTORY_INHERIT": 0x02, "NO_PROPAGATE_INHERIT": 0x04, "INHERIT_ONLY": 0x08,
    "SUCCESSFUL_ACCESS": 0x10, "FAILED_ACCESS": 0x20, "IDENTIFIER_GROUP": 0x40}


def printed(program, *words):
    """What a run prints, which ends well and says nothing."""
    done = subprocess.run([program, *words], stdin=subprocess.DEVNULL, capture_output=True, timeout=SECONDS)
    want((0, b""), (done.returncode, done.stderr), f"the end of {words}")
    return json.loads(done.stdout)


def names_and_numbers(program, subcommand, table):
    """Of two names of one bit the first is printed."""
    names = {}
    for name, number in table.items():
        names.setdefault(number, name)
        want({subcommand: number}, printed(program, subcommand, name), f"what is printed for {name}")
    for number, name in names.items():
        want({subcommand: number, "names": [name]}, printed(program, subcommand, str(number)),
             f"what is printed for {number}")


def names_row(program, row):
    """What is wrong with the names and numbers of a table, if anything is."""
    return wrong_of(names_and_numbers, program, *row)


def checks():
    """Each row: its name, how it is run on a program, and what it is."""
    yield "names: each bit of a mask", names_row, ("mask", MASKS)
    yield "names: each flag", names_row, ("flags", FLAGS)
