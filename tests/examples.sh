#!/usr/bin/env bash
# Each script of the folder `examples` ends well, and prints the text in the file next to it.
# usage: tests/examples.sh PROGRAM
set -euo pipefail
program=$(realpath "$1")
cd "$(dirname "$0")/../examples"
for script in *.script; do
    timeout 60 "$program" < "$script" | diff "${script%.script}.printed" - \
        || { echo "examples/$script: this is not the expected text"; exit 1; }
done
