#!/usr/bin/env bash
# Moves a file between two processes over loopback, and compares what came with what was sent.
# usage: examples/transfer.sh SERVER PUT CLASS OCTETS LOSE_EACH DOUBLE_EACH [--closure]
# A relay between them loses and doubles datagrams in a fixed pattern (0: none). Everything ends by itself.
set -euo pipefail
here=$(dirname "$(realpath "$0")")/transfer
server=$(realpath "$1") put=$(realpath "$2")
class=$3 octets=$4 lose=$5 double=$6
closure=("${@:7}")
# In class 1 nothing asks again for what a full buffer lost, so the rate is low enough that no buffer is ever full.
rate=$([ "$class" = 1 ] && echo 500000 || echo 4000000)
cd "$(mktemp -d)"
started=()
leave() {
    for one in "${started[@]}"; do kill "$one" 2> /dev/null || true; done
    rm -rf "$PWD"
}
trap leave EXIT

# tells TEXT: prints why the run failed, and ends it.
tells() {
    echo "transfer in class $class: $1"
    tail -n 5 relayed events printed told 2> /dev/null || true
    exit 1
}

# four free ports: for the server, the put, and both ends of the relay. The system gives none of these by itself, so no other
# program that asks for any port takes one before it is used
read -r at_server at_put to_put to_server < <(python3 - <<'PORTS'
import os, random, socket
first, last = map(int, os.environ.get("TEST_PORTS", "10000-32000").split("-"))
found = {}
while len(found) < 4:
    port, one = random.SystemRandom().randrange(first, last), socket.socket(socket.AF_INET, socket.SOCK_DGRAM)
    try:
        one.bind(("127.0.0.1", port))
        found[port] = one
    except OSError:
        pass
print(*found)
PORTS
)
{
    printf '[station]\nbind = "127.0.0.1:%s"\n[store]\nfolder = "received"\n[control]\nsocket = "control"\n' "$at_server"
    printf '[log]\nfile = "events"\nlevel = "info"\n'
    sed "s/@PEER@/$to_put/" "$here/ground.toml"
} > ground.toml
sed "s/@PEER@/$to_server/" "$here/spacecraft.toml" > spacecraft.toml
python3 -c 'import random, sys
sys.stdout.buffer.write(random.Random(7).randbytes(int(sys.argv[1])))' "$octets" > image
mkfifo ends

timeout 300 python3 "$here/relay.py" "$to_put" "$at_put" "$to_server" "$at_server" "$lose" "$double" < ends > relayed &
relay=$!
started+=("$relay")
exec 4> ends
timeout 300 "$server" ground.toml > served 2> faults < /dev/null &
serving=$!
started+=("$serving")

# says COMMAND: prints what the server replies
says() {
    python3 - "$1" <<'ASK'
import socket, sys
with socket.socket(socket.AF_UNIX) as client:
    client.settimeout(60)
    client.connect("control")
    client.sendall(sys.argv[1].encode() + b"\n")
    held = b""
    while not held.endswith(b".\n"):
        octets = client.recv(65_536)
        if not octets:
            break
        held += octets
print(held.decode(), end="")
ASK
}

# the relay listens, and the server
for _ in $(seq 600); do
    grep -qs ready relayed && break
    sleep 0.1
done
for _ in $(seq 600); do
    [ -S control ] && break
    sleep 0.1
done
[ -S control ] || tells "the server doesn't listen: $(cat faults)"

status=0
timeout 240 "$put" --config spacecraft.toml --bind "127.0.0.1:$at_put" --user alice --remote 2 --class "$class" \
    --rate "$rate" "${closure[@]}" image image.received > printed 2> told || status=$?

# the last event of the file at the server, and then the file itself
for _ in $(seq 600); do
    grep -qs 'Transaction-Finished' events && break
    sleep 0.1
done
says quit > served
wait "$serving" || tells "the server ended with status $?: $(cat faults)"
exec 4>&-
wait "$relay" || true
echo "class $class ${closure[*]}, $octets octets: $(tail -n 1 relayed)"
echo "the put ended with status $status: $(tail -n 1 printed)"
echo "the server reported: $(grep 'Transaction-Finished' events || echo no end)"
cmp image received/image.received || tells "the received file differs"
# a sender in class 1 learns what became of its file only if it asks for closure
[ "$status" = "$([ "$class${closure[*]}" = 1 ] && echo 2 || echo 0)" ] || tells "the put's status is $status"
echo "the file arrived whole"
