"""Replays that a service is given again: what they have to give is next to them.

An opening that a replay refuses a service refuses by the same line; where a replay takes it, the service begins. And a
replay in which each ask has its answer before the next one comes is a talk: its clients are connections, its answers
are those of the talk, and what it notes is counted in the totals."""
import json
import pathlib
import re
import subprocess

import talks
from blocks import blocks, replay_of
from serving import SECONDS, Service, free_port, want, wrong_of

REPLAYS = pathlib.Path(__file__).resolve().parent / "replay"
OPENINGS = ("longest_header", "most_items", "opening_not_utf8", "too_long_header", "too_many_items")
TAKEN = b'{"name":"NoSuchMessage","refused":14}\n'  # the end of what a replay prints whose opening is taken


def replays():
    """Each replay: its name, its script, and what it prints."""
    for path in sorted(REPLAYS.glob("*.jsonl")):
        yield path.stem, path.read_bytes(), path.with_suffix(".out").read_bytes()
    for path in sorted(REPLAYS.glob("*.txt")):
        for name, lines in blocks(path):
            yield name, *replay_of(lines)


def begin(program, script, printed):
    """A service of the script's opening, which begins, or is refused."""
    if printed.endswith(TAKEN):
        with Service(program, script, 1):
            return
    words = [program, "serve", str(free_port()), "--conns", "1"]
    done = subprocess.run(words, input=script, capture_output=True, timeout=SECONDS)
    want((1, printed), (done.returncode, done.stdout), "the run")
    name = json.loads(printed)["name"]
    said = re.fullmatch(r"album: opening(?:, line (\d+))?: (\w+)\n", done.stderr.decode())
    want(name, said and said[2], "the refusal on standard error")
    most = script.count(b"\n") + 2
    want(True, said[1] is None or 1 <= int(said[1]) <= most, "that the line is one of the opening")


def begun(program, row):
    return wrong_of(begin, program, *row)


def turns_of(events):
    """Each ask of a replay, and whether its messages follow, all at once; None where anything else happens."""
    turns, sent = [], 0
    for event in events:
        span = event.get("deliver")
        if set(event) == {"ask", "client", "who"}:
            turns.append((event, False))
        elif isinstance(span, list) and span[0] == sent + 1 and turns and not turns[-1][1]:
            turns[-1] = (turns[-1][0], True)
            sent = span[1]
        else:
            return None
    return turns


def totals_of(notes):
    """The line of the totals of these notes."""
    totals = {"alarms": [0, 0], "audits": [0, 0]}
    for note in notes:
        totals["alarms" if note["alarm"] else "audits"][0 if note["success"] else 1] += 1
    return json.dumps(totals, separators=(",", ":"))


def talk_of(script, printed):
    """The lines of the talk that a replay is, or None where it is none."""
    opening, is_begun, rest = script.decode(errors="replace").partition('{"begin":true}\n')
    lines = printed.decode().splitlines()
    answers = [line for line in lines if '"audit":' not in line]
    try:
        turns = turns_of([json.loads(line) for line in rest.splitlines() if line.strip()])
    except (ValueError, AttributeError, RecursionError):
        return None
    if not turns or [is_sent for _, is_sent in turns] != [not line.startswith('{"name":') for line in answers]:
        return None
    whos = {event["client"]: event["who"] for event, _ in turns}
    if any(whos[event["client"]] != event["who"] for event, _ in turns):
        return None
    talk = [f"serve --conns {max(whos)}", *opening.splitlines(), is_begun.strip()]
    for client in range(1, max(whos) + 1):
        talk += [f"c{client}> " + json.dumps({"who": whos.get(client, "ANONYMOUS@")}),
                 f'c{client}< {{"answer":"hello","client":{client}}}']
    for (event, _), answer in zip(turns, answers):
        talk += [f"c{event['client']}> " + json.dumps({"ask": event["ask"]}), f"c{event['client']}< {answer}"]
    return talk + ["= " + totals_of(json.loads(line) for line in lines if '"audit":' in line)]


def checks():
    """Each row: its name, how it is run on a program, and what it is."""
    for name, script, printed in replays():
        talk = talk_of(script, printed)
        if name in OPENINGS or name.startswith("openings: "):
            yield f"serve, as in replay/{name}", begun, (script, printed)
        elif talk is not None:
            yield f"serve, as in replay/{name}", talks.held, (talks.Talk(talk, REPLAYS), talks.ONE_PIECE)
