#!/usr/bin/env bash
# The library for C and Python: its own tests and the examples under the sanitizers, all scripts played through it, a file
# over a socket into the server, the same table of the Python bench twice, and fifty other tables.
# usage: tests/library.sh SERVER, after tools/lib.sh
set -euo pipefail
top=$(realpath "$(dirname "$0")/..")
server=$(realpath "$1")
cd "$top"
room=$(mktemp -d)
started=
trap '[ -z "$started" ] || kill "$started" 2> /dev/null || true; rm -rf "$room"' EXIT
flags=(-std=gnu11 -Wall -Wextra -Werror -Ibuild)
checked=(-g -O1 -fsanitize=address,undefined -fno-sanitize-recover=all)

# the header for C and C++, with and without its tests
for standard in "gcc -std=c99" "gcc -std=c11" "g++ -std=c++11" "g++ -std=c++17"; do
    for unchecked in "" -DCFDP_UNCHECKED; do
        kind=c; [ "${standard%% *}" = gcc ] || kind=c++
        # shellcheck disable=SC2086
        $standard -Wall -Wextra -Werror -Wpedantic -Wconversion $unchecked -fsyntax-only -x $kind include/cfdp.h
    done
done

gcc "${flags[@]}" "${checked[@]}" -Wl,--wrap=malloc,--wrap=realloc tests/handles.c build/libcfdp.a -o "$room/handles" -lpthread
timeout 300 "$room/handles"

gcc "${flags[@]}" "${checked[@]}" examples/c/loopback.c build/libcfdp.a -o "$room/loopback"
timeout 60 "$room/loopback" > "$room/looped"
diff "$room/looped" examples/c/loopback.printed

# without a heap: the library takes no memory but the program's, and says when it runs out
gcc "${flags[@]}" "${checked[@]}" examples/c/arena.c build/libcfdp.a -o "$room/arena"
timeout 60 "$room/arena" > "$room/looped"
diff "$room/looped" examples/c/arena.printed
if nm "$room/arena" | grep -E ' U (malloc|realloc)(@|$)'; then exit 1; fi

# every script, as cfdp_replay prints it
gcc "${flags[@]}" -O2 tests/script_player.c build/libcfdp.a -o "$room/player"
timeout 600 tests/scripts.py "$room/player"
gcc "${flags[@]}" "${checked[@]}" tests/script_player.c build/libcfdp.a -o "$room/careful"
for script in examples/*.script; do
    timeout 60 "$room/careful" < "$script" | diff - "${script%.script}.printed"
done

# a put over a socket into the server
gcc "${flags[@]}" "${checked[@]}" examples/c/udp_put.c build/libcfdp.a -o "$room/udp_put"
read -r at_server at_put < <(PYTHONPATH=tests python3 -c 'from support import free_port; print(free_port(), free_port())')
sed "s/@PEER@/$at_put/" examples/transfer/ground.toml > "$room/ground.toml"
sed "s/@PEER@/$at_server/" examples/transfer/spacecraft.toml > "$room/spacecraft.toml"
head -c 300000 /dev/urandom > "$room/image"
mkdir "$room/received"
mkfifo "$room/commands"
timeout 300 "$server" --config "$room/ground.toml" --bind "127.0.0.1:$at_server" --folder "$room/received" \
    < "$room/commands" > "$room/served" 2>&1 &
started=$!
exec 3> "$room/commands"
echo 'trace 2 1' >&3
for _ in $(seq 600); do [ -s "$room/served" ] && break; sleep 0.1; done
(cd "$room" && timeout 90 ./udp_put spacecraft.toml image image.received "$at_put" "$at_server" 2)
for _ in $(seq 300); do [ -f "$room/received/image.received" ] && break; sleep 0.1; done
cmp "$room/image" "$room/received/image.received"
echo quit >&3
exec 3>&-
wait "$started"
started=

# the bench in Python: a table that the seed decides
timeout 120 python3 examples/python/bench.py 3 > "$room/table"
timeout 120 python3 examples/python/bench.py 3 | diff - "$room/table"
diff "$room/table" examples/python/bench.printed

# and fifty more: where no datagram is damaged, a file that is stored is the one that was sent. The checksum can't find all damage
for seed in $(seq 101 150); do
    timeout 120 python3 examples/python/bench.py "$seed" > "$room/table" || true
    [ "$(wc -l < "$room/table")" = 7 ]
    if grep -v -e '^damages' -e '^all of it' "$room/table" | grep 'ANOTHER FILE'; then exit 1; fi
done
echo "the library: handles, examples, scripts, a socket and the bench are fine"
