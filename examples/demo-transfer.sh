#!/usr/bin/env bash
# Moves a file between the server and the put over loopback, in class 2, and compares what came with what was sent. Both
# programs run unproved.
# usage: examples/demo-transfer.sh OCTETS
set -euo pipefail
octets=$1
top=$(realpath "$(dirname "$0")/..")
work=$(mktemp -d)
serving=
putting=
leave() {
    if [ -n "$serving" ]; then kill "$serving" 2> /dev/null || true; fi
    if [ -n "$putting" ]; then kill "$putting" 2> /dev/null || true; fi
    rm -rf "$work"
}
trap leave EXIT

# tells TEXT: prints why the run failed, and ends it.
tells() {
    echo "$1"
    tail -n 20 "$work"/server.log "$work"/put.log 2> /dev/null || true
    exit 1
}

# says LINE..: sends lines to the server's control socket, and prints the replies.
says() {
    python3 - "$work/control" "$@" << 'CLIENT'
import socket, sys
with socket.socket(socket.AF_UNIX) as client:
    client.settimeout(20)
    client.connect(sys.argv[1])
    client.sendall("".join(line + "\n" for line in sys.argv[2:]).encode())
    client.shutdown(socket.SHUT_WR)
    for line in client.makefile():
        if line != ".\n":
            print(line, end="")
CLIENT
}

# runs PROGRAM WORDS..: runs a program of this repository, unproved.
runs() {
    cd "$top/crates/$1"
    exec rt try --steps 1000000000000 --seconds 240 -- "${@:2}"
}

read -r at_server at_put < <(python3 - << 'PORTS'
import socket
found = [socket.socket(socket.AF_INET, socket.SOCK_DGRAM) for _ in range(2)]
for one in found:
    one.bind(("127.0.0.1", 0))
print(*[one.getsockname()[1] for one in found])
PORTS
)
{
    printf '[station]\nbind = "127.0.0.1:%s"\n[store]\nfolder = "received"\n[control]\nsocket = "control"\n' "$at_server"
    sed "s/@PEER@/$at_put/" "$top/examples/transfer/ground.toml"
} > "$work/ground.toml"
# The put may be compiled first: it then repeats its EOF until the server is there.
sed "s/@PEER@/$at_server/; s/^ack_limit = .*/ack_limit = 255/" "$top/examples/transfer/spacecraft.toml" > "$work/spacecraft.toml"
head -c "$octets" /dev/urandom > "$work/image"

echo "A file of $octets octets goes from cfdp_put to cfdp_server over loopback, in class 2, with nothing proved."
echo "Compiling and starting both programs: one to two minutes."
(runs cfdp_server "$work/ground.toml" > "$work/server.log" 2>&1 < /dev/null) &
serving=$!
(runs cfdp_put --config "$work/spacecraft.toml" --bind "127.0.0.1:$at_put" --user alice --remote 2 --class 2 --rate 2000000 \
    "$work/image" image.received > "$work/put.log" 2>&1 < /dev/null) &
putting=$!
for _ in $(seq 2400); do
    [ -S "$work/control" ] && break
    kill -0 "$serving" 2> /dev/null || tells "The server ended."
    sleep 0.1
done
[ -S "$work/control" ] || tells "The server doesn't listen after four minutes."
echo "The server listens."
wait "$putting" || true
putting=
grep -q 'Transaction-Finished 0 complete retained' "$work/put.log" || tells "The put wasn't notified that the receiver has the whole file."
echo "What the sender's user received last:"
echo "    $(grep 'Transaction-Finished' "$work/put.log")"
echo "What the server shows of the transaction:"
says status | grep '"kind":"transaction"' | sed 's/^/    /'
says quit > "$work/quit"
wait "$serving" || tells "The server ended with status $?."
serving=
cmp "$work/image" "$work/received/image.received" || tells "The received file differs."
echo "The file arrived whole."
