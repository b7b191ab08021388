#!/usr/bin/env bash
# Writes a Debian package of what `make install` installs: make_deb.sh, from the top of the repository, behind `make build` and, for
# pap_author, `make author`. The package needs the C library alone; papledger and the tools in Python need Python 3.9.
set -eu
[ -x build/papcalc ] || { echo 'make_deb: there is no build/papcalc yet: make build makes it' >&2; exit 1; }
command -v dpkg-deb > /dev/null || { echo 'make_deb: there is no dpkg-deb on this machine: it is part of the package dpkg' >&2; exit 1; }
version=$(build/papcalc --version | cut -d ' ' -f 2)
room=$(mktemp -d)
trap 'rm -rf "$room"' EXIT
chmod 755 "$room"
make --no-print-directory install DESTDIR="$room" PREFIX=/usr > /dev/null
gzip -9n "$room/usr/share/man/man1/papcalc.1"
size=$(du -sk "$room/usr" | cut -f 1)
mkdir "$room/DEBIAN"
sed -e "s/@VERSION@/$version/" -e "s/@SIZE@/$size/" packaging/control > "$room/DEBIAN/control"
package=build/papcalc_${version}_amd64.deb
dpkg-deb --root-owner-group --build "$room" "$package" > /dev/null
echo "make_deb: $package, $size KB installed"
