#!/bin/sh
# Runs each example, and compares what it writes with what is wanted.
cd "$(dirname "$0")" || exit 1
collector=$PWD/../collector
status=0
for example in */; do
    example=${example%/}
    place=$(mktemp -d) || exit 1
    (cd "$place" && "$collector" run "$OLDPWD/$example/conf.json" "$OLDPWD/$example/in.jsonl" 0 >output)
    if diff -r "$example/want" "$place"; then
        echo "$example: as wanted"
    else
        status=1
    fi
    rm -r "$place"
done
exit $status
