"""What the goals of a function can see: the definitions and types of its crate and of those below, the lemmas, and the
contracts of the functions that it calls. They see no body but its own, and no contract of a function that it doesn't
name. So a doubt has to be tried again only where some of that changes: what a checksum of `Seen` says."""
import functools
import hashlib
import re
from typing import NamedTuple

from tree import PARTS, ROOT, logic, wanted, without_comments

FUNCTION = re.compile(r"( *)(pub(?:\([^)]*\))? )?(?:\w+ )*fn (\w+)")
BLOCK = re.compile(r"(pub )?(impl|trait)\b")
IMPORT = re.compile(r"(?m)^ *(?:ghost )?use ([^{};]+)(?:\{([^{}]*)\})?;\n")
OF_ONE_FUNCTION = ("Answers.antt", "Invariants.antt")  # what only proves the function after which its folder is named
# A `Drop` without a contract, by hand or derived.
DROP = re.compile(r"(?m)^impl\b[^{;]* Drop for [^{;]*\{\n    fn drop\(self\) \{\n\}$|"
                  r"\bDrop, |, Drop\b|^#\[derive\(Drop\)\]$")
MODULE = re.compile(r"(?m)^(?:pub(?:\([^)]*\))? )?mod \w+;?\n?")  # (what it has is seen in its own file)
PASSED_ON = re.compile(r"(?m)^pub use ([^{};]+)(?:\{([^{}]*)\})?;\n?")
LEMMAS = re.compile(r"Rattle\.album_\w+\.proofs(?:\.\w+)+")
WORD = re.compile(r"\w+")


class Function(NamedTuple):
    """A function of a formatted source: its name, whether it is public, whether it is a trait's (which may be called
    without its name), the lines of its contract and those of its body."""
    name: str
    is_public: bool
    is_of_trait: bool
    contract: str
    body: str


def parts_of(text):
    """Takes a formatted source apart: its functions, and the texts between them. A function that has no body on lines
    of its own is part of the text."""
    lines, at, text, block = text.split("\n"), 0, [], ""
    while at < len(lines):
        block = lines[at] if BLOCK.match(lines[at]) else block
        head = FUNCTION.match(lines[at])
        opens = at
        while head and opens < len(lines) and not re.match(head[1] + r"(\S.*)?[{;}]$", lines[opens]):
            opens += 1
        if not head or opens == len(lines) or not lines[opens].endswith("{") or head[1] + "}" not in lines[opens:]:
            text.append(lines[at])
            at += 1
            continue
        ends = lines.index(head[1] + "}", opens)
        body = lines[opens + 1 : ends]
        while text and text[-1].lstrip().startswith("#[tactic("):
            body.append(text.pop())  # (it is for the function's proof alone)
        yield "\n".join(text)
        is_of_trait = head[1] != "" and bool(re.search(r"\btrait\b| for |[^{]$", block))
        yield Function(head[3], head[2] == "pub ", is_of_trait, "\n".join(lines[at : opens + 1]), "\n".join(body))
        text, at = [], ends + 1
    yield "\n".join(text)


def with_imports_used(text):
    """The source without the names that it imports and does not use."""
    rest = IMPORT.sub("", text)
    names = {start + name.strip() if names else start
             for start, names in IMPORT.findall(text) for name in names.split(",")}
    words = set(WORD.findall(rest))
    called = {name: re.split(r"[.:\s]", name.strip("◌"))[-1] for name in names}
    used = (name for name in names if called[name] in (words if WORD.fullmatch(called[name]) else rest))
    return "\n".join([*sorted(used), *filter(None, rest.split("\n"))])


def passed_on(text, words):
    """The source in which only names that are among these words are passed on, each in a line of its own."""
    def lines(match):
        start, names = match.groups()
        paths = [start + name.strip() for name in names.split(",") if name.strip()] if names else [start]
        return "".join(f"pub use {path};\n" for path in paths if WORD.findall(path)[-1] in words)

    return PASSED_ON.sub(lines, text)


@functools.cache
def text_of(path):
    return MODULE.sub("", without_comments(path).decode())


@functools.cache
def parts_in(path):
    return list(parts_of(text_of(path)))


@functools.cache
def words_in(path):
    return frozenset(WORD.findall(text_of(path)))


@functools.cache
def seen_in(path, words, is_above):
    """What is seen of this source by who says these words of it: of its functions their contracts, and where that is a
    crate above, those of the public ones alone."""
    kept = [part if isinstance(part, str) else part.contract for part in parts_in(path)
            if isinstance(part, str) or part.is_of_trait or part.name in words and (part.is_public or not is_above)]
    # (no goal sees how a value is let go)
    return with_imports_used(passed_on(DROP.sub("", "\n".join(kept)), words))


@functools.cache
def files_of(crate, part):
    return [path for path in sorted((ROOT / "crates" / crate / part).rglob("*")) if path.is_file()]


def module_of(path):
    """The name by which an import names a file of lemmas."""
    crate, _, *parts = path.relative_to(ROOT / "crates").with_suffix("").parts
    return ".".join(["Rattle", crate, "proofs", *parts])


@functools.cache
def lemmas_of_others():
    """The files of lemmas that another crate names, and those that these name."""
    crates = sorted(path.name for path in (ROOT / "crates").iterdir())
    named = {crate: {name for part in PARTS for path in files_of(crate, part)
                     for name in LEMMAS.findall(path.read_text())}
             for crate in crates}
    lemmas = {module_of(path): path for crate in crates for path in files_of(crate, "proofs")}
    found = {name for crate in crates for name in named[crate] if name.split(".")[1] != crate}
    while more := {name for one in found & set(lemmas) for name in LEMMAS.findall(lemmas[one].read_text())} - found:
        found |= more
    return {lemmas[name] for name in found & set(lemmas)}


def seen_of(path, words, is_above):
    """What is seen of this file by who says these words, if anything is: of what only proves a function nothing."""
    if path.name in OF_ONE_FUNCTION or is_above and "proofs" in path.parts and path not in lemmas_of_others():
        return ""
    return seen_in(path, words_in(path) & words, is_above) if path.suffix == ".rt" else text_of(path)


@functools.cache
def proofs_of(crate):
    """Of the crate's functions by their names the bodies, and what proves them."""
    found = {}
    for path in files_of(crate, "src"):
        for part in parts_of(without_comments(path).decode()):
            if isinstance(part, Function):
                found.setdefault(part.name, []).append(part.body)
    for path in files_of(crate, "proofs"):
        for name in path.relative_to(ROOT).parts if path.name in OF_ONE_FUNCTION else ():
            found.setdefault(name, []).append(without_comments(path).decode())
    return found


@functools.cache
def words_of_lemmas(crate):
    lemmas = (path for path in files_of(crate, "proofs") if path.name not in OF_ONE_FUNCTION)
    return {word for path in lemmas for word in WORD.findall(path.read_text())}


class Seen:
    """What the functions of all crates can see of those below."""

    def __init__(self, rows):
        self.rows = rows

    def by(self, crate, functions, text):
        """A checksum of what these functions of the crate see, and of this text, which stands for a part of them."""
        own = [name + body for name in sorted(functions) for body in proofs_of(crate).get(name, [])]
        named = words_of_lemmas(crate).union(functions, *map(WORD.findall, [*own, text]))
        sum_ = hashlib.sha256(logic() + "\0".join([*own, text]).encode())
        for other in wanted(self.rows, crate):
            for path in (path for part in PARTS for path in files_of(other, part)):
                if (seen := seen_of(path, named, other != crate)).strip():
                    sum_.update(f"{path.relative_to(ROOT)}\0{seen}\0".encode())
        return sum_.hexdigest()
