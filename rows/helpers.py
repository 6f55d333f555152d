"""The helpers of examples/: the client, an application, the script that writes deliveries, and drawings of a trace.

rows/script/NAME.jsonl is the example NAME with words that settle a client in the place of its deliveries, which have to
come out as the example has them. rows/drawn has traces, the script that each is of, and its three drawings."""
import json
import os
import pathlib
import socket
import subprocess
import sys
import threading

from options import ALLOWED, READ
from serving import NOTHING_NOTED, SECONDS, Service, free_port, joined, rows_of, want

ROWS = pathlib.Path(__file__).resolve().parent
EXAMPLES = ROWS.parent / "examples"
sys.path.append(str(EXAMPLES))

import application  # noqa: E402 (it is one of the examples)
import client  # noqa: E402 (so is it)

SERVED = {"answer": "served", "client": 1, "content": "", "object": "picture/0", "stamp": 0, "title": "Sea"}
COMMITTED = {"answer": "committed", "client": 2, "stamp": 65538}  # counter 1 of client 2
BAD_LINE = b'{"name":"BadLine","refused":2}\n'
HELLO = {"answer": "hello", "client": 2}
ABORTED = {"answer": "aborted", "client": 2, "stamp": 65538}
UNSETTLED = {"answer": "unsettled", "client": 2, "name": "Closed", "refused": 21, "stamp": 65538}


def ran(name, words, text, program="none"):
    """The status of a helper that is given the text, and what it wrote."""
    done = subprocess.run([EXAMPLES / name, *words], input=text, capture_output=True, timeout=SECONDS,
                          env={**os.environ, "ALBUM": program})
    return done.returncode, done.stdout, done.stderr


def compact(value):
    return json.dumps(value, separators=(",", ":")).encode() + b"\n"


def a_client(program):
    """It prints an answer to each line that isn't blank; as a module it gives values."""
    with Service(program, ALLOWED, 3) as service:
        port = str(service.port)
        wanted = compact(SERVED) + BAD_LINE
        want((0, wanted, b""), ran("client.py", [port, "bo@users"], compact(READ) + b"\n \t\r\nnothing"), "its run")
        with client.Client(service.port, "amy@users") as amy:
            want(2, amy.number, "the number of its session")
            want(COMMITTED, amy.ask(do="retitle", object="picture/0", title="Bay"), "an answer")
            want({"answer": "pending", "stamps": []}, amy.say({"pending": 0}), "an answer")
        want((1, b"", b"client: BadWho\n"), ran("client.py", [port, "bo"], b""), "the run of nobody")
        service.end(NOTHING_NOTED, [b""])
    want((1, b""), ran("client.py", ["7070"], b"")[:2], "a run with a word too few")


def an_application(program):
    """Over a service of its opening it prints what its section of the page shows. Else it says what is wrong."""
    section = (EXAMPLES / "README.md").read_text().partition("\n## application.py\n")[2]
    shown = section.partition("\n```text\n")[2].partition("```\n")[0].encode()
    status, opening, said = ran("application.py", ["--opening"], b"")
    want((0, b""), (status, said), "the run for its opening")
    with Service(program, opening, 5) as service:
        want((0, shown, b""), ran("application.py", [str(service.port)], b""), "its run")
        service.end(NOTHING_NOTED, [b""])
    with Service(program, ALLOWED, 1) as service:
        said = b"application: amy asked {'do': 'add_album', 'album': 'album/1', 'title': 'Trips'} and was answered " \
               b"{'answer': 'missing', 'client': 1, 'object': 'album/1'}\n"
        want((1, b"", said), ran("application.py", [str(service.port)], b""), "its run over another opening")
        service.end(NOTHING_NOTED, [b""])
    status, printed, said = ran("application.py", [str(free_port())], b"")
    want((1, b""), (status, printed), "its run without a service")
    want(True, said.startswith(b"application: amy has no answer to "), f"that {said!r} says so")


def titled(connections):
    """What comes of the application's title for a picture where one connection after another is answered so, each text
    as it is, and then closed; and what was said."""
    said = []

    def serve():
        for answers in connections:
            with listener.accept()[0] as connection, connection.makefile("rwb") as lines:
                for answer in answers:
                    said.append(json.loads(lines.readline()).get("ask", {"do": "who"})["do"])
                    lines.write(answer.encode() if isinstance(answer, str) else compact(answer))
                    lines.flush()

    with socket.create_server(("127.0.0.1", 0)) as listener:
        threading.Thread(target=serve, daemon=True).start()
        amy = application.User(listener.getsockname()[1], "amy")
        try:
            outcome = application.retitle(amy, SERVED, "Bay")
        except (RuntimeError, ConnectionError) as error:
            outcome = str(error)
    return outcome, " ".join(said)


def an_application_out_of_luck(_program):
    """A title is asked again where it was aborted, and where it has no answer and isn't there; else it isn't."""
    made, taken = {**SERVED, "stamp": 65538, "title": "Bay"}, {**SERVED, "stamp": 131073, "title": "Cove"}
    cut = '{"answer":"comm'
    for name, connections, outcome, said in (
            ("7 aborted", [[HELLO, *[ABORTED] * 7, COMMITTED]], 65538, "who" + " retitle" * 8),
            ("8 aborted", [[HELLO, *[ABORTED] * 8]], "amy came too late 8 times to retitle", "who" + " retitle" * 8),
            ("one lost that isn't made", [[HELLO, ""], [HELLO, SERVED, COMMITTED]], 65538,
             "who retitle who head retitle"),
            ("one lost that is made", [[HELLO, ""], [HELLO, made]], 65538, "who retitle who head"),
            ("one whose answer is cut", [[HELLO, cut], [HELLO, made]], 65538, "who retitle who head"),
            ("one lost, and another's made", [[HELLO, ""], [HELLO, taken]],
             "picture/0 was given the title Cove meanwhile", "who retitle who head"),
            ("one lost, and a head", [[HELLO, ""], [HELLO, cut], [HELLO, made]], 65538,
             "who retitle who head who head"),
            ("one unsettled", [[HELLO, UNSETTLED, SERVED, COMMITTED]], 65538, "who retitle head retitle")):
        want((outcome, said), titled(connections), name)


def settled_examples(program):
    """Words that settle a client become the deliveries that an example has."""
    for name in ("story", "second_policy", "restart"):
        text = (ROWS / "script" / f"{name}.jsonl").read_bytes()
        want((0, (EXAMPLES / f"{name}.jsonl").read_bytes(), b""), ran("script", [], text, program), name)


def clients_by_turns(program):
    """Client 2 is settled first. Each read of what is missing takes two rounds of a message and its reply, which are
    numbered as they are sent: 1 of client 1, 2 to 5 of client 2, and then 6 to 8 of client 1."""
    begun = ['{"open":{"parts":1}}', '{"begin":true}']
    asks = ['{"ask":{"do":"read","object":"picture/9"},"client":%d,"who":"bo@users"}' % number for number in (1, 2)]
    wanted = joined(begun + asks + ['{"deliver":[2,5]}', "", '{"deliver":1}', '{"deliver":[6,8]}'])
    given = joined(begun + asks + ['{"settle":2}', "", '{"settle":1}'])
    want((0, wanted, b""), ran("script", [], given, program), "the script")


def scripts_that_are_refused(program):
    """What can't be written out is named by its line; what comes before it is there."""
    header, begin = '{"open":{"parts":1}}', '{"begin":true}'
    ask = '{"ask":{"do":"read","object":"picture/9"},"client":1,"who":"bo@users"}'
    for lines, said in (
            ([header, begin, '{"settle":1}'], "line 3: client 1 has asked nothing that isn't answered"),
            ([header, begin, ask, '{"settle":1}', '{"settle":1}'],
             "line 5: client 1 has asked nothing that isn't answered"),
            ([header, begin, ask, '{"stop":1}', '{"settle":"all"}', '{"settle":1}'],
             "line 6: client 1 has no message under way, and no answer"),
            ([header, begin, "[]"], "line 3: it is no object"),
            (['{"open":{"parts":0}}', begin, ask], "the opening is refused: BadOpening"),
            ([header, '{"item":"list/0","value":{"entries":[["allow","OWNER@",0,0]]}}', begin],
             "the opening is refused: BadMask")):
        status, out, err = ran("script", [], joined(lines), program)
        want((1, f"script: {said}\n".encode()), (status, err), "the run")
        want(True, joined(lines).startswith(out[:out.find(b'{"deliver"')]), "that the lines before are printed")


def drawings(_program):
    """Traces as they are drawn in each form: of three messages, one of which is lost, and of an answer; and of two
    epochs, in each of which one message is lost."""
    for name in ("restart", "lost_commit"):
        trace = (ROWS / "drawn" / f"{name}.trace").read_bytes()
        script = str(ROWS / "drawn" / f"{name}.script")
        for form, words in (("mermaid", [script]), ("text", ["--text", script]), ("svg", [script, "--svg"])):
            wanted = (ROWS / "drawn" / f"{name}.{form}").read_bytes()
            want((0, wanted, b""), ran("trace2mermaid", words, trace), f"{name}.{form}")
    wanted = (ROWS / "drawn" / "lost_commit.text").read_bytes().replace(b"x|", b">|")
    want((0, wanted, b""), ran("trace2mermaid", ["--text"], trace), "a trace without its script")


def nobody_reads_on(_program):
    """A drawing whose reader has gone ends with nothing said."""
    trace = (ROWS / "drawn" / "lost_commit.trace").read_bytes() * 5000
    for form in ([], ["--text"], ["--svg"]):
        reads, writes = os.pipe()
        os.close(reads)
        with os.fdopen(writes, "wb") as pipe:
            done = subprocess.run([EXAMPLES / "trace2mermaid", *form], input=trace, stdout=pipe, stderr=subprocess.PIPE,
                                  timeout=SECONDS)
        want((0, b""), (done.returncode, done.stderr), "the run")


FACTS = {
    "the client": a_client,
    "the application": an_application,
    "an application out of luck": an_application_out_of_luck,
    "a script whose clients are settled": settled_examples,
    "clients that are settled by turns": clients_by_turns,
    "scripts that are refused": scripts_that_are_refused,
    "drawings": drawings,
    "a drawing that nobody reads": nobody_reads_on,
}


def checks():
    """Each row: its name, how it is run on a program, and what it is."""
    return rows_of("examples", FACTS)
