#!/bin/sh
# Runs the commands of docs/TUTORIAL.md (its blocks `sh`) in an empty folder, and compares what they print with the blocks `text`
# behind them.
root=$(CDPATH='' cd -- "$(dirname -- "$0")/.." && pwd) || exit 1
place=$(mktemp -d) || exit 1
mkdir "$place/bin" || exit 1
printf '#!/bin/sh\nexec "%s" "$@"\n' "$root/collector" >"$place/bin/collector" && chmod +x "$place/bin/collector" || exit 1
PATH=$place/bin:$PATH
awk -v place="$place" '
    /^```sh$/ { block += 1; into = place "/" block ".sh"; next }
    /^```text$/ { into = place "/" block ".want"; next }
    /^```/ { into = ""; next }
    into != "" { print > into }
' "$root/docs/TUTORIAL.md"
mkdir "$place/work" && cd "$place/work" || exit 1
status=0
block=1
while [ -e "$place/$block.sh" ]; do
    . "$place/$block.sh" >"$place/$block.got" 2>&1
    if [ -e "$place/$block.want" ] && ! diff "$place/$block.want" "$place/$block.got"; then
        echo "block $block of docs/TUTORIAL.md prints something else" >&2
        status=1
    fi
    block=$((block + 1))
done
[ $status -ne 0 ] || echo "docs/TUTORIAL.md: $((block - 1)) blocks as they stand there"
cd / && rm -r "$place"
exit $status
