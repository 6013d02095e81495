#!/usr/bin/env bash
# The pages of the manual have the options that the programs' help has, and no others; and each program prints the newest version of
# CHANGELOG.md, which tests/version.sh compares with the code's.
# usage: tests/manual.sh PROGRAM..
set -euo pipefail
top=$(dirname "$(realpath "$0")")/..
manual=$top/docs/man
version=$(sed -nE 's/^## ([0-9.]+).*/\1/p' "$top/CHANGELOG.md" | head -n 1)
for program in "$@"; do
    name=$(basename "$program")
    if [ "$("$program" --version)" != "$name $version" ]; then
        echo "$name: prints $("$program" --version), and CHANGELOG.md begins with $version"
        exit 1
    fi
    helped=$("$program" --help | grep -oE -- '^  --[a-z]+(-[a-z]+)*' | tr -d ' ' | sort)
    told=$(sed -n '/^\.SH OPTIONS/,/^\.SH [^O]/s/^\.BI* \\-\\-\([a-z\\-]*\).*/--\1/p' "$manual/$name.1" | tr -d '\\' | sort)
    if [ -z "$helped" ] || [ "$helped" != "$told" ]; then
        echo "$name: its help has $(echo $helped), and its manual page $(echo $told)"
        exit 1
    fi
done
