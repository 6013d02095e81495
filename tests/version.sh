#!/usr/bin/env bash
# The version is written once in the code, in `release`, and pages that have it have the same one.
# usage: tests/version.sh
set -euo pipefail
cd "$(dirname "$0")/.."
version=$(sed -n 's/.*concat!(\$before, "\([^"]*\)", \$after).*/\1/p' crates/release/src/lib.rt)
if ! [[ $version =~ ^[0-9]+(\.[0-9]+)+$ ]]; then
    echo "crates/release/src/lib.rt: no version is found"
    exit 1
fi
status=0

# told FILE PATTERN: each place in a file where the pattern finds a version, which its first group is, has this one; there is one at least.
told() {
    local found one
    found=$(sed -nE "s/.*$2.*/\1/p" "$1")
    [ -n "$found" ] || { echo "$1: has no version"; status=1; }
    for one in $found; do
        [ "$one" = "$version" ] || { echo "$1: has version $one, and the programs $version"; status=1; }
    done
}

newest=$(sed -nE 's/^## ([0-9.]+).*/\1/p' CHANGELOG.md | head -n 1)
[ "$newest" = "$version" ] || { echo "CHANGELOG.md: begins with version ${newest:-none}, and the programs have $version"; status=1; }
told python/cfdp/__init__.py '^__version__ = "([0-9.]+)"'
told include/cfdp.h '^#define CFDP_VERSION_STRING "([0-9.]+)"'
grep -qx "#define CFDP_VERSION_MAJOR ${version%%.*}" include/cfdp.h && grep -qx "#define CFDP_VERSION_MINOR ${version#*.}" include/cfdp.h ||
    { echo "include/cfdp.h: the numbers aren't those of version $version"; status=1; }
told docs/man/cfdp_web.1 '^\.TH CFDP_WEB 1 "" "cfdp_web ([0-9.]+)"'
told docs/control-socket.md '"version":"([0-9.]+)"'
told docs/recorder.md '# cfdp_server ([0-9.]+),'

# no other file of a program has it
others=$(grep -rlF "$version\"" crates/*/src --include=*.rt | grep -v -e '^crates/release/' -e '_tests/' || true)
others+=$(grep -rlE "\"cfdp_[a-z]+ ${version//./\\.}" crates/*/src --include=*.rt | grep -v -e '^crates/release/' -e '_tests/' || true)
if [ -n "$others" ]; then
    echo "the version stands in files beside crates/release/src/lib.rt:" $others
    status=1
fi
[ $status = 0 ] && echo "version $version: the code has it once, and pages have the same"
exit $status
