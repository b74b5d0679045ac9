#!/usr/bin/env bash
# A node that listens: an object is written over TCP, the node is killed, started again, and asked for the object.
#
#   examples/serve-and-kill.sh     runs the program that tools/program chooses, in a folder of its own, which it takes away at the end
set -eu
top=$(cd "$(dirname "${BASH_SOURCE[0]}")/.." && pwd)
port=${1:-6200}
program=$("$top/tools/program")
room=$(mktemp -d)
node=
trap '[ -z "$node" ] || kill -9 "$node" 2>/dev/null; rm -rf "$room"' EXIT
cd "$room"

start() {
    rm -f said  # that of an earlier start would tell that this one listens
    "$program" serve "$top/examples/two-devices.ring.json" --port "$port" --workers 1 --connections 100 --passes 0 > said &
    node=$!
    disown
    until grep -qs listening said; do kill -0 "$node"; sleep 0.1; done
    cat said
}

start
curl -sS -i -X PUT -H 'X-Timestamp: 1401224048.22541' -H 'Content-Type: text/plain' -d abc "http://127.0.0.1:$port/sda/0/a/c/o"
kill -9 "$node"
while kill -0 "$node" 2>/dev/null; do sleep 0.1; done
echo "killed; on the disk:"
find swc-data -type f
start
curl -sS -i "http://127.0.0.1:$port/sda/0/a/c/o"
echo
