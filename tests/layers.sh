#!/usr/bin/env bash
# Each line of crates.txt names only crates whose lines are above it.
set -euo pipefail
cd "$(dirname "$0")/.."
wrong=$(awk -F: '
    /^[a-z]/ {
        split($1, head, " ")
        name[++count] = head[1]
        below[count] = $2
        place[head[1]] = count
    }
    END {
        for (i = 1; i <= count; i++) {
            many = split(below[i], uses, " ")
            for (j = 1; j <= many; j++)
                if (place[uses[j]] > i) print name[i] " uses " uses[j] ", which stands below it"
        }
    }' crates.txt)
if [ -n "$wrong" ]; then
    printf 'crates.txt: %s\n' "$wrong" >&2
    exit 1
fi
echo "crates.txt: the crates are in layers"
