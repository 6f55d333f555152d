"""Files of short rows, parted by empty lines: of each a name after '# ', and its lines. The first part describes the
file."""


def blocks(path):
    """The name and the lines of each row of a file."""
    for block in path.read_bytes().decode().split("\n\n")[1:]:
        name, *lines = block.rstrip("\n").split("\n")
        yield f"{path.stem}: {name[2:]}", lines


def replay_of(lines):
    """What a short replay is given, and what it has to print."""
    given = "".join(f"{line}\n" for line in lines if not line.startswith("= "))
    printed = "".join(f"{line[2:]}\n" for line in lines if line.startswith("= "))
    return given.encode(), printed.encode()
