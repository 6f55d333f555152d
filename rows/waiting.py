"""`album judge` over pipes, whose writer waits for each answer before it says more."""
import os
import select
import subprocess

from serving import SECONDS, held, want

# The entry lets amy read.
LINE = b'{"entries":[["allow","amy@users",1,0]],"group":0,"mask":1,"owner":"bo@users","who":"amy@users"}'
GRANTED = b'{"answer":"granted"}\n'

# How many lines come at once, each answered; and how many bytes with one line: the program reads by 4,096 bytes, and
# 65,536 ahead.
COUNTS = (1, 3, 200, 1)
SIZES = (4_095, 4_096, 4_097, 65_535, 65_536, 65_537)


def answers(run, count):
    """So many answers, once they have come."""
    got = b""
    while got.count(b"\n") < count:
        if not select.select([run.stdout], [], [], SECONDS)[0]:
            return got
        got += os.read(run.stdout.fileno(), 65_536)
    return got


def whoever_waits_is_answered(program):
    """No answer is held while the program waits for more, whatever came at once."""
    with subprocess.Popen([program, "judge"], stdin=subprocess.PIPE, stdout=subprocess.PIPE, bufsize=0) as run:
        for count in COUNTS:
            run.stdin.write((LINE + b"\n") * count)
            want(GRANTED * count, answers(run, count), f"what is answered to {count} lines")
        for size in SIZES:
            blanks = b" " * (size - len(LINE) - 2) + b"\n"
            run.stdin.write(blanks + LINE + b"\n")
            want(GRANTED, answers(run, 1), f"what is answered to a line in {size} bytes")
        run.stdin.close()
        want(b"", run.stdout.read(), "what is answered to nothing")
        want(0, run.wait(SECONDS), "the status")


def checks():
    """Each row: its name, how it is run on a program, and what it is."""
    yield "judge: whoever waits is answered", held, whoever_waits_is_answered
