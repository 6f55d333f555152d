"""What the scripts know of the tree: its crates, what each depends on, a checksum of each, and copies of them."""
import fcntl
import functools
import hashlib
import os
import pathlib
import shutil
import subprocess

ROOT = pathlib.Path(__file__).resolve().parent
PARTS = ("src", "specs", "proofs")


def cited():
    """The crates of crates.txt, and of each those of the repository that it cites, lowest first."""
    lines = [line.split("#")[0].split(":") for line in (ROOT / "crates.txt").read_text().splitlines()]
    rows = {line[0].split()[0]: line[1].split() for line in lines if len(line) == 2}
    return {name: [below for below in rows[name] if below in rows] for name in rows}


def wanted(rows, *names):
    """These crates and all that they stand on, lowest first."""
    found = set(names)
    for name in reversed(list(rows)):
        if name in found:
            found.update(rows[name])
    return {name: rows[name] for name in rows if name in found}


def without_comments(path):
    """What is in this file but for empty lines and for those that are a comment: what a proof may rest on."""
    sign = {".rt": b"//", ".antt": b"--"}[path.suffix]
    lines = path.read_bytes().splitlines()
    return b"\n".join(line for line in lines if line.strip() and not line.strip().startswith(sign))


@functools.cache
def version():
    """The toolchain's."""
    return subprocess.run(["rt", "version"], stdout=subprocess.PIPE, check=True).stdout


def logic():
    """Of the toolchain's version the part that says what its logic is: a goal is false under each kit that has it."""
    return version().rpartition(b" logic ")[2]


def sums_of(rows, read=pathlib.Path.read_bytes):
    """Of each crate a checksum of its sources as they are read, of those that it cites, and of the toolchain."""
    sums = {}
    for name, below in rows.items():
        sum_ = hashlib.sha256(version())
        for part in PARTS:
            for file in sorted((ROOT / "crates" / name / part).rglob("*")):
                if file.is_file():
                    sum_.update(str(file.relative_to(ROOT)).encode() + b"\0" + read(file) + b"\0")
        for other in below:
            sum_.update(sums[other])
        sums[name] = sum_.digest()
    return sums


def link_or_copy(one, other):
    """Gives a file that `rt` writes once a second name. It copies any other, and across two disks."""
    try:
        if one.endswith(".oantt") or "/out/rlib/" in one:
            os.link(one, other)
            return
    except OSError:
        pass
    shutil.copy2(one, other)


def copy_sources(name, crates):
    """Copies a crate's sources into this folder of crates, in place of what is there."""
    for part in PARTS:
        shutil.rmtree(crates / name / part, ignore_errors=True)
        if (ROOT / "crates" / name / part).exists():
            shutil.copytree(ROOT / "crates" / name / part, crates / name / part)


def link_work(name, crates, *parts):
    """Takes over what `rt` has made of a crate, or these parts of it, into this folder of crates."""
    made = ROOT / "crates" / name / "out"
    for part in parts or [it.name for it in made.glob("*") if it.is_dir()]:
        if (made / part).exists():
            shutil.copytree(made / part, crates / name / "out" / part, copy_function=link_or_copy)


def copy_tree(top, rows):
    """Makes a tree of these crates in this folder: their sources, and no work that was kept."""
    lines = (ROOT / "crates.txt").read_text().splitlines()
    (top / "crates.txt").write_text("".join(f"{line}\n" for line in lines if line.split(":")[0] in rows))
    shutil.copy(ROOT / "HANDLES", top)
    for name in rows:
        copy_sources(name, top / "crates")


class Kept:
    """What tries of one kind of doubt/ came to: of each that was refused its name, and a checksum of all that it rests
    on. It is not tried again until something of that changes. The lines of `doubt/refused` are committed, so a run that
    was ended goes on, also in another clone."""
    FILE = ROOT / "doubt" / "refused"

    def __init__(self, kind):
        self.kind = kind

    def line(self, name, parts):
        """The line of a try that rests on these parts."""
        key = hashlib.sha256(b"\0".join(part if isinstance(part, bytes) else part.encode() for part in parts))
        return f"{self.kind} {name} {key.hexdigest()[:32]}"

    def lines(self):
        """All that is kept, of each kind."""
        return self.FILE.read_text().splitlines() if self.FILE.exists() else []

    def has(self, name, *parts):
        """Whether it was refused on these parts."""
        return self.line(name, parts) in self.lines()

    def keep(self, name, *parts):
        """Takes the place of what was kept under the name before. The file is renamed to its place, so that one who is
        ended in the middle leaves it as it was."""
        with open(self.FILE.parent / ".lock", "w") as lock:
            fcntl.flock(lock, fcntl.LOCK_EX)
            others = [line for line in self.lines() if not line.startswith(f"{self.kind} {name} ")]
            new = self.FILE.with_name(".refused")
            new.write_text("".join(f"{line}\n" for line in sorted([*others, self.line(name, parts)])))
            os.replace(new, self.FILE)
