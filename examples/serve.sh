#!/bin/sh
# A service of one picture, and amy and bo who talk to it by turns: examples/serve.sh [PORT]
# Each line that is sent comes after >, and its answer after <. ALBUM can name another program.
here=$(cd "$(dirname "$0")" && pwd)
album=${ALBUM:-$here/../album}
port=${1:-7543}
"$album" --help > /dev/null || exit # this builds the program, where it isn't
answers=$(mktemp) || exit
trap 'kill $service 2> /dev/null; rm -f "$answers"' EXIT

"$album" serve "$port" --conns 2 > "$answers" << 'OPENING' &
{"open":{"checked":true,"parts":3,"policy":3}}
{"item":"picture/0","value":{"content":"736561","group":0,"home":0,"list":0,"owner":"amy@users","title":"Sea"}}
{"item":"list/0","value":{"entries":[["audit","EVERYONE@",1,48],["allow","OWNER@",2032127,0],["allow","EVERYONE@",1,0]]}}
{"begin":true}
OPENING
service=$!
while [ ! -s "$answers" ]; do
    kill -0 $service 2> /dev/null || exit 1 # it has said why on standard error
    sleep 0.1
done

# The client: for each who talks a connection, and for each line its answer.
python3 -c '
import socket, sys

talks = {}
for line in sys.stdin:
    who, said = line.split(" ", 1)
    if who not in talks:
        talks[who] = socket.create_connection(("127.0.0.1", int(sys.argv[1])), 60).makefile("rw")
    talks[who].write(said)
    talks[who].flush()
    print(f"{who} > {said}{who} < {talks[who].readline()}")
' "$port" << 'TALK' || exit
amy {"who":"amy@users"}
bo {"who":"bo@users"}
bo {"ask":{"do":"read","object":"picture/0"}}
amy {"ask":{"do":"set_lists","lists":[["picture/0",[["audit","EVERYONE@",1,48],["allow","OWNER@",2032127,0]]]]}}
bo {"ask":{"do":"read","object":"picture/0"}}
amy {"ask":{"do":"retitle","object":"picture/0","title":"Bay"}}
amy {"ask":{"do":"set_lists","lists":[["picture/0",[["allow","EVERYONE@",1,0]]]]}}
bo {"ask":{"do":"read","object":"picture/0"}}
TALK

# Both are gone, so the service ends. Its last line says what its lists have audited.
wait $service
service=
tail -n 1 "$answers"
