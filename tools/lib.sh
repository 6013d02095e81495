#!/usr/bin/env bash
# Makes the library for C and Python from the proved archive, in build/: libcfdp.a, libcfdp.so.0 with its link, cfdp.h, cfdp.pc.
# usage: tools/lib.sh ARCHIVE [PREFIX]
# The archive is crates/cfdp_c/out/libcfdp_c.a, which `rt lib` builds there; the kit's few functions for the heap go with it.
set -euo pipefail
top=$(realpath "$(dirname "$0")/..")
archive=$(realpath "$1") prefix=${2:-/usr/local}
heap=$(dirname "$(rt doc)")/c/liblibc_c.a
room=$top/build
# the version that the programs have, too
version=$(sed -n 's/.*concat!(\$before, "\([^"]*\)", \$after).*/\1/p' "$top/crates/release/src/lib.rt")
[ -n "$version" ]
mkdir -p "$room"
rm -f "$room"/libcfdp.* "$room"/cfdp.*

# one archive of both. Memory comes from cfdp_malloc, cfdp_realloc and cfdp_free: a program's own, or those of tools/heap.c
objects=$(mktemp -d)
trap 'rm -rf "$objects"' EXIT
(cd "$objects" && ar x "$archive" && ar x "$heap")
for object in "$objects"/*.o; do
    objcopy --redefine-sym malloc=cfdp_malloc --redefine-sym realloc=cfdp_realloc --redefine-sym free=cfdp_free "$object"
done
cc -O2 -fPIC -Wall -Wextra -Werror -c "$top/tools/heap.c" -o "$objects/cfdp_heap.o"
ar rcs "$room/libcfdp.a" "$objects"/*.o

# a shared object that has the names of the header and no others
printf '{ global: cfdp_*; local: cfdp_malloc; cfdp_realloc; cfdp_free; *; };\n' > "$objects/names"
cc -shared -o "$room/libcfdp.so.0" -Wl,--whole-archive "$room/libcfdp.a" -Wl,--no-whole-archive \
    -Wl,-soname,libcfdp.so.0 -Wl,-z,defs -Wl,-z,relro -Wl,-z,now -Wl,--version-script,"$objects/names"
ln -s libcfdp.so.0 "$room/libcfdp.so"
cp "$top/include/cfdp.h" "$room/cfdp.h"
cat > "$room/cfdp.pc" << PC
prefix=$prefix
libdir=\${prefix}/lib
includedir=\${prefix}/include

Name: cfdp
Description: CCSDS File Delivery Protocol: an entity without input and output
Version: $version
Libs: -L\${libdir} -lcfdp
Cflags: -I\${includedir}
PC

# each name of the header is there, and no other
wanted=$(grep -oE '^(int32_t|uint32_t) cfdp_[a-z_]+\(' "$top/include/cfdp.h" | grep -oE 'cfdp_[a-z_]+' | sort)
given=$(nm -D --defined-only "$room/libcfdp.so.0" | cut -d ' ' -f 3 | sort)
[ "$wanted" = "$given" ] || { echo "the library and its header differ:"; diff <(echo "$wanted") <(echo "$given"); exit 1; }
echo "build/libcfdp.so.0: $(stat -c %s "$room/libcfdp.so.0") octets, $(echo "$given" | wc -l) functions"
