#!/usr/bin/env bash
# Makes a Debian package of programs that are built, installs it into a folder, and tries the installed programs.
# usage: tools/deb.sh PROGRAM..
# The package is put in out/, named by the version that the first program prints.
set -euo pipefail
top=$(realpath "$(dirname "$0")/..")
version=$("$1" --version | cut -d ' ' -f 2)
machine=$(dpkg --print-architecture)
package=binesunset_${version}_$machine
room=$(mktemp -d)
trap 'rm -rf "$room"' EXIT

folder=$room/$package
install -d "$folder"/DEBIAN "$folder"/usr/bin "$folder"/usr/share/man/man1 "$folder"/lib/systemd/system
install -d "$folder"/usr/share/doc/binesunset/examples
for program in "$@"; do
    name=$(basename "$program")
    install -m 755 "$program" "$folder/usr/bin/$name"
    gzip -9 -n -c "$top/docs/man/$name.1" > "$folder/usr/share/man/man1/$name.1.gz"
    [ ! -f "$top/docs/completion/$name" ] ||
        install -D -m 644 "$top/docs/completion/$name" "$folder/usr/share/bash-completion/completions/$name"
done
for unit in "$top"/examples/*.service; do
    # a unit comes along with its program
    [ -x "$folder/usr/bin/$(basename "$unit" .service)" ] || continue
    sed 's|/usr/local/bin/|/usr/bin/|' "$unit" > "$folder/lib/systemd/system/$(basename "$unit")"
done
install -m 644 "$top"/examples/station.toml "$top"/examples/peer.toml "$top"/examples/entity.toml "$folder"/usr/share/doc/binesunset/examples
install -m 755 "$top"/examples/packet_bridge.py "$folder"/usr/share/doc/binesunset/examples
install -m 644 "$top"/examples/cfdp_watch@.service "$top"/examples/cfdp_windows.service "$folder"/usr/share/doc/binesunset/examples
cp -r "$top"/examples/peers "$top"/examples/links "$top"/examples/monitoring "$folder"/usr/share/doc/binesunset/examples
# what the server's unit reads, and who rotates its log; both are for an administrator to change
"$top"/tools/service-file.py > "$room/station.toml"
install -D -m 644 "$room/station.toml" "$folder"/etc/cfdp/station.toml
install -D -m 644 "$top"/examples/cfdp_server.logrotate "$folder"/etc/logrotate.d/cfdp_server
printf '%s\n' /etc/cfdp/station.toml /etc/logrotate.d/cfdp_server > "$folder/DEBIAN/conffiles"
# the user that the units and the rotation name
install -d "$folder/usr/lib/sysusers.d"
echo 'u cfdp - "CFDP station" /var/lib/cfdp' > "$folder/usr/lib/sysusers.d/binesunset.conf"
cat > "$folder/DEBIAN/postinst" << 'MAKE'
#!/bin/sh
set -e
if [ "$1" = configure ] && ! getent passwd cfdp > /dev/null; then
    if command -v systemd-sysusers > /dev/null; then
        systemd-sysusers /usr/lib/sysusers.d/binesunset.conf
    else
        useradd --system --user-group --home-dir /var/lib/cfdp --shell /usr/sbin/nologin cfdp
    fi
fi
MAKE
chmod 755 "$folder/DEBIAN/postinst"
install -m 644 "$top"/README.md "$top"/docs/*.md "$folder"/usr/share/doc/binesunset
if [ -f "$top/LICENSE" ]; then
    install -m 644 "$top/LICENSE" "$folder/usr/share/doc/binesunset/copyright"
else
    echo "No license has been chosen yet." > "$folder/usr/share/doc/binesunset/copyright"
fi
cat > "$folder/DEBIAN/control" << CONTROL
Package: binesunset
Version: $version
Architecture: $machine
Maintainer: Binesunset
Section: net
Priority: optional
Depends: libc6, systemd | passwd
Installed-Size: $(du -sk "$folder" | cut -f 1)
Description: CCSDS File Delivery Protocol over UDP
 A server for CFDP (CCSDS 727.0-B-5) that sends and receives many files at once, in class 1 and class 2, and programs to put
 files and to command a running server.
CONTROL
mkdir -p "$top/out"
dpkg-deb --root-owner-group --build "$folder" "$top/out/$package.deb" > "$room/log"

# into a folder, and each program and page there
dpkg-deb --extract "$top/out/$package.deb" "$room/there"
for program in "$@"; do
    name=$(basename "$program")
    "$room/there/usr/bin/$name" --version | grep -q "^$name $version\$"
    gzip -d -c "$room/there/usr/share/man/man1/$name.1.gz" | cmp - "$top/docs/man/$name.1"
    [ ! -f "$top/docs/completion/$name" ] ||
        cmp "$top/docs/completion/$name" "$room/there/usr/share/bash-completion/completions/$name"
done
for unit in "$room"/there/lib/systemd/system/*.service; do
    for named in $(grep -v '^#' "$unit" | grep -oE '/(usr/bin|etc)/[a-z_./]*' | sort -u); do
        [ -e "$room/there$named" ] || { echo "$(basename "$unit") names $named, which the package doesn't have"; exit 1; }
    done
done
for named in $(dpkg-deb --info "$top/out/$package.deb" conffiles); do
    [ -f "$room/there$named" ] || { echo "the package doesn't have $named"; exit 1; }
done
# each user that a unit or the rotation names is made
for user in $(sed -nE 's/^(User=|Group=| *su )([a-z_]+).*/\2/p' "$room"/there/lib/systemd/system/*.service "$room"/there/etc/logrotate.d/*); do
    grep -q "^u $user " "$room/there/usr/lib/sysusers.d/binesunset.conf" || { echo "the package doesn't make the user $user"; exit 1; }
done
[ "$(dpkg-deb --field "$top/out/$package.deb" Version)" = "$version" ]
echo "out/$package.deb: $(dpkg-deb --contents "$top/out/$package.deb" | grep -c '^-') files, installed into a folder and tried"
