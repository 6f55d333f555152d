"""What the scripts read of the repository: crates.txt, edits and patches, each by one reader; and copies of the sources
for a try, which proves nothing. Checksums, and the copies that proofs are made in, are those of tree.py.

An edit is a file of lines `WORD: TEXT`. `file:` names a file of the crate; `old:` has a text that is there once, on one
line; `new:` has what takes its place. Further words say what is to come of it: `false:`, `error:`, `says:`. A patch is
one of `diff`, below such lines: `law:`, `test:`, `memory:`."""
from __future__ import annotations

import pathlib
import re
import shutil
import subprocess
from typing import NamedTuple

ROOT = pathlib.Path(__file__).resolve().parent.parent
LINE = re.compile(r"(\w+): ?(.*)")
DIFF = re.compile(r"^(?:diff --git |--- )", re.MULTILINE)  # where the first change of a patch begins
CHANGED = re.compile(r"^(?:--- a|\+\+\+ b)/(\S+)", re.MULTILINE)
NOT_TRIED = ("out", "proofs", "must-fail")  # what a try reads nothing of


# ---- crates.txt

def uses_in(text: str) -> dict[str, list[str]]:
    """Of each crate that a crates.txt has, in its order, what the crate uses: crates of the repository and of the
    toolchain. Words after a name, as `staticlib`, are left out."""
    lines = [line.partition("#")[0] for line in text.splitlines()]
    uses = {}
    for line in filter(str.strip, lines):
        head, colon, tail = line.partition(":")
        if not colon or not head.split():
            raise ValueError(f"crates.txt has a line without a name and a colon: {line!r}")
        uses[head.split()[0]] = tail.split()
    return uses


def uses(root: pathlib.Path = ROOT) -> dict[str, list[str]]:
    """What each crate of the repository uses."""
    return uses_in((root / "crates.txt").read_text())


def of_toolchain(uses: dict[str, list[str]]) -> set[str]:
    """The toolchain's crates among those that are used."""
    return {name for names in uses.values() for name in names}.difference(uses)


# ---- edits

class Pair(NamedTuple):
    """A text that stands once in a file, and what takes its place. The file is None where no line names it."""
    file: str | None
    old: str
    new: str


class Edit(NamedTuple):
    """The texts that an edit replaces, in order, and its further lines by their words."""
    pairs: list[Pair]
    further: dict[str, list[str]]


def edit_in(text: str) -> Edit:
    """What the text of an edit says. A text that replaces nothing, or that nothing takes the place of, is refused."""
    pairs, further = [], {}
    file = old = None
    for word, rest in lines_of(text):
        if word == "file":
            file = rest
        elif word == "old":
            if old is not None:
                raise ValueError(f"nothing takes the place of {old!r}")
            old = rest
        elif word == "new":
            if old is None:
                raise ValueError(f"{rest!r} takes the place of nothing")
            pairs.append(Pair(file, old, rest))
            old = None
        else:
            further.setdefault(word, []).append(rest)
    if old is not None:
        raise ValueError(f"nothing takes the place of {old!r}")
    if not pairs:
        raise ValueError("it replaces nothing")
    return Edit(pairs, further)


def lines_of(text: str) -> list[tuple[str, str]]:
    """The lines `WORD: TEXT`, each as its word and its text. One space parts them; further ones are the text's."""
    return [(found[1], found[2]) for found in map(LINE.fullmatch, text.splitlines()) if found]


def edited(text: str, pairs: list[Pair]) -> str:
    """The text with each of these replaced, one after another. Each has to be there once when its turn comes."""
    for _, old, new in pairs:
        if text.count(old) != 1:
            raise ValueError(f"{old!r} is there {text.count(old)} times, and not once")
        text = text.replace(old, new)
    return text


def edited_files(folder: pathlib.Path, pairs: list[Pair]) -> dict[pathlib.Path, str]:
    """What the files of these pairs, in the folder of their crate, become. Nothing is written."""
    texts = {}
    for pair in pairs:
        if pair.file is None:
            raise ValueError(f"no file is named for {pair.old!r}")
        path = folder / pair.file
        if path not in texts and not path.is_file():
            raise ValueError(f"there is no file {pair.file}")
        try:
            texts[path] = edited(texts.get(path) or path.read_text(), [pair])
        except ValueError as error:
            raise ValueError(f"{pair.file}: {error}") from None
    return texts


# ---- patches

class Patch(NamedTuple):
    """The lines above a patch's first change, by their words, and the files that it changes."""
    head: dict[str, list[str]]
    files: list[str]

    def crates(self) -> set[str]:
        """The crates that it changes."""
        return {file.split("/")[1] for file in self.files if file.startswith("crates/")}


def patch_in(text: str) -> Patch:
    """What the text of a patch says of itself."""
    head = {}
    for word, rest in lines_of(DIFF.split(text, maxsplit=1)[0]):
        head.setdefault(word, []).append(rest)
    return Patch(head, list(dict.fromkeys(CHANGED.findall(text))))


def patched(folder: pathlib.Path, patch: pathlib.Path, is_tried: bool = False) -> str | None:
    """Applies a patch to a tree, where all of its lines are as it has them, those around a change too. Gives what is
    wrong where it doesn't apply. Where it is only tried, nothing is written."""
    words = ["patch", "-p1", "-F0", "-s", "-f", "--no-backup-if-mismatch", *(["--dry-run"] if is_tried else [])]
    done = subprocess.run([*words, "-i", patch.resolve()], cwd=folder, capture_output=True, text=True)
    return None if done.returncode == 0 else done.stdout.strip() or "it doesn't apply"


# ---- copies

def copy_crate(name: str, crates: pathlib.Path) -> None:
    """Copies what a try reads of a crate into this folder of crates."""
    shutil.copytree(ROOT / "crates" / name, crates / name, ignore=shutil.ignore_patterns(*NOT_TRIED))


def copy_for_tries(top: pathlib.Path) -> None:
    """Makes a tree of all crates in this folder, as a try reads them: no proofs, and no work that was kept."""
    for name in ("crates.txt", "HANDLES"):
        shutil.copy(ROOT / name, top)
    shutil.copytree(ROOT / "crates", top / "crates", ignore=shutil.ignore_patterns(*NOT_TRIED))
