#!/usr/bin/env bash
# Shows a script of `cfdp_replay` line by line, each line with its reply. The code runs unproved.
# usage: examples/demo.sh SCRIPT
set -euo pipefail
script=$(realpath "$1")
cd "$(dirname "$0")/../crates/cfdp_replay"
work=$(mktemp -d)
trap 'rm -rf "$work"' EXIT

echo "The code runs as it stands, with nothing proved: about half a minute. (make build proves it.)"
# After each line that gets a reply comes a mark: a datagram of one octet. Its refusal shows where the reply ends.
mark='refused 20 DecodeFault 1'
mkdir "$work/cases"
sed '/^$/b; /^#/b; /^set /b; a pdu 00' "$script" > "$work/cases/script"
if ! rt try --cases "$work/cases" > "$work/log" 2>&1; then
    cat "$work/log"
    exit 1
fi
sed '/^== script$/d; /^cases\?=/d' "$work/log" > "$work/answers"

echo "Each line of the script, and below it, indented, what the entity answers:"
echo
exec 3< "$work/answers"
while IFS= read -r line || [ -n "$line" ]; do
    echo "$line"
    case $line in '' | '#'* | 'set '*) continue ;; esac
    # The first line of a reply may look like the mark; the lines after it can't.
    IFS= read -r answer <&3
    case $answer in 'line '*': bad line')
        echo "This line, or a setting above it, is a bad line: the run ends here."
        exit 1 ;;
    esac
    echo "        $answer"
    while IFS= read -r answer <&3 && [ "$answer" != "$mark" ]; do
        echo "        $answer"
    done
done < "$script"
