#!/usr/bin/env python3
"""Says who it is to a running service, sends it each line of standard input, and prints what each is answered.

usage: examples/client.py PORT WHO < LINES

The lines are those of docs/FORMATS.md, "Connections". Nothing beyond Python's library is needed. As a module:

    with Client(7070, "amy@users") as amy:
        picture = amy.ask(do="read", object="picture/0")
"""
import json
import socket
import sys


class Client:
    """A connection that has said who it is; `number` is that of its session. A line that isn't answered, or a who that
    is none, is a ConnectionError."""

    def __init__(self, port, who, seconds=60):
        self.socket = socket.create_connection(("127.0.0.1", port), seconds)
        self.lines = self.socket.makefile("rwb")
        hello = self.say({"who": who})
        if "client" not in hello:
            self.__exit__()
            raise ConnectionError(hello["name"])
        self.number = hello["client"]

    def __enter__(self):
        return self

    def __exit__(self, *_):
        self.lines.close()
        self.socket.close()

    def send(self, line):
        """The line that a line is answered, both as bytes. A blank line has no answer, so it must not be sent."""
        self.lines.write(line.rstrip(b"\n") + b"\n")
        self.lines.flush()
        answer = self.lines.readline()
        if not answer.endswith(b"\n"):  # none at all, or the beginning of one
            raise ConnectionError("the service has closed the connection")
        return answer

    def say(self, line):
        """What a line is answered, both as values."""
        return json.loads(self.send(json.dumps(line).encode()))

    def ask(self, **ask):
        """What an ask is answered."""
        return self.say({"ask": ask})


def main(port, who):
    with Client(int(port), who) as client:
        for line in sys.stdin.buffer:
            if line.strip(b" \t\r\n"):
                sys.stdout.buffer.write(client.send(line))
                sys.stdout.buffer.flush()


if __name__ == "__main__":
    if len(sys.argv) != 3:
        sys.exit(__doc__)
    try:
        main(*sys.argv[1:])
    except (OSError, ValueError) as error:
        sys.exit(f"client: {error}")
