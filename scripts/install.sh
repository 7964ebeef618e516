#!/bin/sh
# install.sh [PREFIX]: builds the program where it isn't built, and installs it with its manual page and completion below PREFIX
# (/usr/local where there is none). DESTDIR, if set, stands before PREFIX.
set -e
cd "$(dirname "$0")/.."
place=${DESTDIR-}${1:-/usr/local}
./collector >/dev/null 2>&1 || [ $? -eq 2 ] || { echo "install.sh: ./collector gives no program" >&2; exit 1; }
install -D -m 755 out/collector "$place/bin/collector"
install -D -m 644 docs/collector.1 "$place/share/man/man1/collector.1"
install -D -m 644 scripts/collector.bash "$place/share/bash-completion/completions/collector"
install -D -m 644 docs/config.schema.json "$place/share/collector/config.schema.json"
echo "installed below $place"
