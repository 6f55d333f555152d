"""What pages and help texts show: each command of a `console` block, and of a help text, is run as it stands, and has
to print what is shown under it. `7070` is the port of a service that is there. The script that `album replay --help`
shows is replayed, and its first output is the one shown."""
import os
import pathlib
import re
import subprocess
import tempfile

from asking import OPENING
from serving import NOTHING_NOTED, SECONDS, Service, held, want, wrong_of

ROOT = pathlib.Path(__file__).resolve().parent.parent
PAGES = sorted([*ROOT.glob("*.md"), *ROOT.glob("docs/*.md"), *ROOT.glob("examples/*.md")])
HELPS = (["judge"], ["replay"], ["serve"], ["ask"], ["mask"], ["flags"], ["explain", "judge"], ["explain", "opening"],
         ["explain", "event"], ["explain", "talk"])
BLOCK = re.compile(r"(?ms)^ *```console\n(.*?)^ *```$")
COMMANDS = {"README.md": 4, "docs/FORMATS.md": 3}  # how many a page has at least


def shown(text):
    """The commands of a text, each with what is shown under it."""
    found = []
    for line in map(str.strip, text.splitlines()):
        if line.startswith("$ "):
            found.append([line[2:], ""])
        elif found and line:
            found[-1][1] += line + "\n"
        elif found:
            return found
    return found


def printed(program, command, folder):
    """What the command prints, where `./album` and `album` are this program."""
    album = pathlib.Path(folder) / "album"
    album.unlink(missing_ok=True)
    album.symlink_to(pathlib.Path(program).resolve())
    done = subprocess.run(["sh", "-c", command], cwd=folder, capture_output=True, text=True, timeout=SECONDS,
                          env={**os.environ, "PATH": f"{folder}:{os.environ['PATH']}"})
    return done.stdout + done.stderr


def run_all(program, commands):
    with tempfile.TemporaryDirectory() as folder:
        for command, output in commands:
            if " 7070" not in command:
                want(output, printed(program, command, folder), command)
                continue
            with Service(program, OPENING, 1) as service:
                want(output, printed(program, command.replace(" 7070", f" {service.port}"), folder), command)
                service.end(NOTHING_NOTED, [b""])


def page(program, path):
    """A page's commands, block by block."""
    commands = [one for block in BLOCK.findall(path.read_text()) for one in shown(block)]
    want(True, len(commands) >= COMMANDS.get(str(path.relative_to(ROOT)), 0), f"that there are commands in {path.name}")
    run_all(program, commands)


def page_row(program, path):
    """What is wrong with a page's commands, if anything is."""
    return wrong_of(page, program, path)


def help_of(program, words):
    return subprocess.run([program, *words, "--help"], capture_output=True, text=True, timeout=SECONDS).stdout


def commands_of_helps(program):
    """Masks and flags show two commands; no help shows one that isn't tried here."""
    texts = {" ".join(words): help_of(program, words) for words in HELPS}
    for name, text in texts.items():
        commands = shown(text[text.find("$ "):]) if "$ " in text else []
        want(2 if name in ("mask", "flags") else 0, len(commands), f"the commands of album {name} --help")
        run_all(program, commands)


def script_of_replay(program):
    """The opening and the events that the help shows bring about the output that it shows."""
    lines = re.findall(r"(?m)^  (\{.*\})$", help_of(program, ["replay"]))
    *script, served, refusal = lines
    want(f"{served}\n", replayed(program, script), "the outputs")
    want(f"{served}\n{refusal}\n", replayed(program, [*script, '{"deliver":99}']),
         "the outputs with a message that there isn't")


def replayed(program, lines):
    """What a replay of these lines prints."""
    done = subprocess.run([program, "replay"], input="\n".join(lines) + "\n", capture_output=True, text=True,
                          timeout=SECONDS)
    return done.stdout


def line_of_judge(program):
    """The line that the help shows is answered by the first of the answers that it shows."""
    line, granted, *_ = re.findall(r"(?m)^  (\{.*\})$", help_of(program, ["judge"]))
    done = subprocess.run([program, "judge"], input=line + "\n", capture_output=True, text=True, timeout=SECONDS)
    want(granted + "\n", done.stdout, "the answer")


def talk_of_serve(program):
    """The lines of a connection that the help shows are answered as it shows."""
    lines = re.findall(r"(?m)^  (\{.*\})$", help_of(program, ["serve"]))
    half = len(lines) // 2
    with Service(program, OPENING, 1) as service:
        done = subprocess.run([ROOT / "examples" / "client.py", str(service.port), "bo@users"], capture_output=True,
                              input="\n".join(lines[1:half]) + "\n", text=True, timeout=SECONDS)
        want("\n".join(lines[half + 1:]) + "\n", done.stdout, "the answers")
        service.end(NOTHING_NOTED, [b""])


def checks():
    """Each row: its name, how it is run on a program, and what it is."""
    for path in PAGES:
        yield f"the commands of {path.relative_to(ROOT)}", page_row, path
    yield "commands of help texts", held, commands_of_helps
    yield "the script of replay --help", held, script_of_replay
    yield "the line of judge --help", held, line_of_judge
    yield "the talk of serve --help", held, talk_of_serve
