#!/bin/sh
# package.sh [FOLDER]: makes a Debian package of the program, its manual page, completion, documents and examples, and puts it
# into FOLDER (out/ where there is none). It needs dpkg-deb and gzip.
set -e
cd "$(dirname "$0")/.."
folder=${1:-out}
version=0.1.0
mkdir -p "$folder"
place=$(mktemp -d)
trap 'rm -r "$place"' EXIT
DESTDIR=$place scripts/install.sh /usr >/dev/null
gzip -9n "$place/usr/share/man/man1/collector.1"
doc=$place/usr/share/doc/collector
mkdir -p "$doc" "$place/DEBIAN"
cp README.md docs/*.md "$doc/"
cp -R examples "$doc/examples"
cp LICENSE "$doc/copyright"
size=$(du -sk "$place/usr" | cut -f1)
cat >"$place/DEBIAN/control" <<END
Package: collector
Version: $version
Architecture: amd64
Maintainer: The authors of collector <collector@localhost>
Installed-Size: $size
Section: admin
Priority: optional
Description: rewrites OTLP logs in configured pipelines
 Reads OTLP logs payloads in JSON, one a line, rewrites them with OTTL
 statements in transform, filter, groupbyattrs and routing, and writes
 OTLP JSON lines, one file for each exporter, and a summary of counts.
END
chmod -R u=rwX,go=rX "$place"
dpkg-deb --root-owner-group --build "$place" "$folder/collector_${version}_amd64.deb"
