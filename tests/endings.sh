#!/usr/bin/env bash
# How runs of the program end: what it prints on either stream, and its exit status.
# usage: tests/endings.sh PROGRAM
set -euo pipefail
program=$(realpath "$1")
cd "$(mktemp -d)"
trap 'rm -rf "$PWD"' EXIT

# ends TITLE STATUS PRINTED TOLD: the run that was made last ended so.
ends() {
    if [ "$status" != "$2" ] || [ "$(cat printed)" != "$3" ] || [ "$(cat told)" != "$4" ]; then
        echo "$program, $1: status $status, printed: $(cat printed), on standard error: $(cat told)"
        exit 1
    fi
}

# run: plays the standard input.
run() {
    status=0
    "$program" > printed 2> told || status=$?
}

run <<< 'take alice'
ends 'a script that ends well' 0 'none' ''
run <<< $'take alice\nno line'
ends 'a bad line' 1 $'none\nline 2: bad line' ''
run < .
ends 'a folder in place of a script' 1 '' 'read fault'
: > printed
status=0
"$program" <<< 'take alice' > /dev/full 2> told || status=$?
ends 'a full disk' 1 '' 'write fault'

# begins: plays the script that is written to descriptor 3, which stays open.
mkfifo script
begins() {
    timeout 60 "$program" < script > printed 2> told &
    playing=$!
    exec 3> script
}

# finishes: the run ends although its script may continue, or is ended after a minute.
finishes() {
    status=0
    wait "$playing" || status=$?
    exec 3>&-
}

begins
printf 'take alice\n%.0s' {1..20000} >&3
tries=300
until [ -s printed ] || [ $((tries -= 1)) = 0 ]; do sleep 0.1; done
if ! [ -s printed ]; then
    echo "$program, a script that goes on: no answer is printed after 20,000 lines"
    exit 1
fi
printf 'no line\n' >&3
finishes
printed=$(tail -n 1 printed)
echo "$printed" > printed
ends 'a bad line in a script that goes on' 1 'line 20001: bad line' ''
begins
printf 'a%.0s' {1..131201} >&3
finishes
ends 'too long a line in a script that goes on' 1 'line 1: bad line' ''
