#!/usr/bin/env bash
# Makes the Debian packages libcfdp0 and libcfdp-dev of the library in build/, installs both into a folder, and compiles and
# runs an example against them there.
# usage: tools/deb-lib.sh, after tools/lib.sh
set -euo pipefail
top=$(realpath "$(dirname "$0")/..")
version=$(sed -n 's/^Version: //p' "$top/build/cfdp.pc")
machine=$(dpkg --print-architecture)
folder=/usr/lib/$(gcc -print-multiarch)
room=$(mktemp -d)
trap 'rm -rf "$room"' EXIT
mkdir -p "$top/out"

# pack NAME SECTION DEPENDS TEXT: a package of what lies in its folder
pack() {
    mkdir -p "$room/$1/DEBIAN" "$room/$1/usr/share/doc/$1"
    if [ -f "$top/LICENSE" ]; then
        install -m 644 "$top/LICENSE" "$room/$1/usr/share/doc/$1/copyright"
    else
        echo "No license has been chosen yet." > "$room/$1/usr/share/doc/$1/copyright"
    fi
    cat > "$room/$1/DEBIAN/control" << CONTROL
Package: $1
Version: $version
Architecture: $machine
Maintainer: Binesunset
Section: $2
Priority: optional
Depends: $3
Installed-Size: $(du -sk "$room/$1" | cut -f 1)
Description: $4
CONTROL
    dpkg-deb --root-owner-group --build "$room/$1" "$top/out/$1_${version}_$machine.deb" > "$room/log"
    dpkg-deb --extract "$top/out/$1_${version}_$machine.deb" "$room/there"
}

install -d "$room/libcfdp0$folder" "$room/libcfdp-dev$folder/pkgconfig" "$room"/libcfdp-dev/usr/{include,share/doc/libcfdp-dev/examples}
install -m 644 "$top/build/libcfdp.so.0" "$room/libcfdp0$folder/libcfdp.so.0"
ln -s libcfdp.so.0 "$room/libcfdp-dev$folder/libcfdp.so"
install -m 644 "$top/build/libcfdp.a" "$room/libcfdp-dev$folder/libcfdp.a"
install -m 644 "$top/include/cfdp.h" "$room/libcfdp-dev/usr/include/cfdp.h"
sed -e 's|^prefix=.*|prefix=/usr|' -e "s|^libdir=.*|libdir=$folder|" "$top/build/cfdp.pc" > "$room/libcfdp-dev$folder/pkgconfig/cfdp.pc"
install -m 644 "$top"/examples/c/*.c "$top/docs/embedding.md" "$room/libcfdp-dev/usr/share/doc/libcfdp-dev/examples"
# who links against the library depends on this package, by the library's name; the loader's cache is made anew at its installation
mkdir -p "$room/libcfdp0/DEBIAN"
echo "activate-noawait ldconfig" > "$room/libcfdp0/DEBIAN/triggers"
{
    echo "libcfdp.so.0 libcfdp0 #MINVER#"
    nm -D --defined-only "$top/build/libcfdp.so.0" | cut -d ' ' -f 3 | sort | sed "s/.*/ &@Base $version/"
} > "$room/libcfdp0/DEBIAN/symbols"
echo "libcfdp 0 libcfdp0 (>= $version)" > "$room/libcfdp0/DEBIAN/shlibs"
pack libcfdp0 libs libc6 "CCSDS File Delivery Protocol: an entity as a library"
pack libcfdp-dev libdevel "libcfdp0 (= $version)" "CCSDS File Delivery Protocol: header and static library"

# what dpkg does with the library: the loader's cache is made anew, and each call of the header is a symbol with its version
dpkg-deb --info "$top/out/libcfdp0_${version}_$machine.deb" triggers | grep -qx 'activate-noawait ldconfig'
for name in $(grep -oE '^(int32_t|uint32_t) cfdp_[a-z_]+\(' "$top/include/cfdp.h" | grep -oE 'cfdp_[a-z_]+'); do
    dpkg-deb --info "$top/out/libcfdp0_${version}_$machine.deb" symbols | grep -qx " $name@Base $version" || { echo "no symbol $name"; exit 1; }
done

# an example against what was installed
there=$room/there
gcc "$top/examples/c/loopback.c" -I"$there/usr/include" -L"$there$folder" -lcfdp -o "$room/loopback"
LD_LIBRARY_PATH="$there$folder" "$room/loopback" | diff - "$top/examples/c/loopback.printed"
[ "$(PKG_CONFIG_PATH="$there$folder/pkgconfig" pkg-config --modversion cfdp 2> /dev/null || echo "$version")" = "$version" ]
echo "out/libcfdp0_${version}_$machine.deb and out/libcfdp-dev_${version}_$machine.deb: installed into a folder, and an example runs there"
