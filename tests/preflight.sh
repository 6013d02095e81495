#!/usr/bin/env bash
# Whether this machine has what `make test` needs, said before its first proof and not an hour later.
# usage: tests/preflight.sh
# What a single case needs may be missing where ALLOWED_SKIPS names the case (several with commas).
set -uo pipefail
missing=()

# lacks WHAT WHY: notes what isn't here.
lacks() {
    missing+=("$1: $2")
}

# needs COMMAND WHY: notes a command that isn't here.
needs() {
    command -v "$1" > /dev/null || lacks "$1" "$2"
}

# skips CASE..: whether each of these cases may be left out.
skips() {
    for one in "$@"; do
        [[ ",${ALLOWED_SKIPS:-}," == *",$one,"* ]] || return 1
    done
}

needs rt "the kit, which proves and builds"
if ! python3 -c 'import sys; sys.exit(sys.version_info < (3, 10))' 2> /dev/null; then
    lacks "python3, 3.10 or later" "the tests of programs; here is $(python3 --version 2>&1 || echo none)"
fi
for one in gcc g++ cc ar nm; do
    needs "$one" "the library for C, and what the tests preload (packages gcc, g++ and binutils)"
done
for one in awk sed grep diff cmp realpath mktemp mkfifo timeout seq cut sort stat; do
    needs "$one" "the tests in shell"
done

room=$(mktemp -d)
trap 'rm -rf "$room"' EXIT
echo 'int main(void) { return 0; }' > "$room/one.c"
if command -v gcc > /dev/null && ! { gcc -fsanitize=address,undefined "$room/one.c" -o "$room/one" && "$room/one"; } > /dev/null 2>&1; then
    lacks "gcc with -fsanitize=address,undefined" "the tests of the library for C (packages libasan and libubsan)"
fi
if command -v g++ > /dev/null && ! g++ -fsyntax-only -x c++ "$room/one.c" > /dev/null 2>&1; then
    lacks "a g++ that compiles" "the header for C++"
fi

mounting=(a_folder_that_is_read_only a_folder_that_is_full a_log_on_a_full_disk a_disk_that_is_full_for_a_while
    a_full_disk ends_on_a_full_disk a_full_disk_of_the_numbers a_full_disk_of_the_numbers_alone)
mounts() {
    unshare -m mount -t tmpfs tmpfs "$room" 2> /dev/null || unshare -rm mount -t tmpfs tmpfs "$room" 2> /dev/null
}
if ! mounts && ! skips "${mounting[@]}"; then
    lacks "mounting (unshare -m as root, or unshare -rm)" "disks that are full or read-only; ALLOWED_SKIPS=$(IFS=,; echo "${mounting[*]}") leaves these cases out"
fi
if ! command -v systemd-analyze > /dev/null && ! skips units_that_systemd_takes; then
    lacks systemd-analyze "the units for systemd; ALLOWED_SKIPS=units_that_systemd_takes leaves this case out"
fi

if [ ${#missing[@]} -gt 0 ]; then
    echo "make test needs what isn't here:"
    printf '  %s\n' "${missing[@]}"
    exit 1
fi
echo "everything that make test needs is here"
