#!/bin/sh
# Times `collector pass` on 10 MB and 100 MB of payloads of texts, beside `jq -c .` where jq is installed.
#
#   bench/pass.sh [SEED]
#
# Needs python3 and a program built by `rt run` in crates/collector. In the environment:
#   COLLECTOR  the program to time (crates/collector/out/collector)
#   SIZES      megabytes of each input (10 100)
#   ROUNDS     runs of which the best wall time counts (3); jq runs once
#
# MB/s is input bytes / 10^6 / wall time. Both outputs must be the input, byte for byte.
set -eu
here=$(cd "$(dirname "$0")" && pwd)
seed=${1:-7}
collector=${COLLECTOR:-$here/../crates/collector/out/collector}
sizes=${SIZES:-10 100}
rounds=${ROUNDS:-3}
if [ ! -x "$collector" ]; then
    echo "$collector isn't built: run 'rt run' in crates/collector" >&2
    exit 2
fi
work=$(mktemp -d)
trap 'rm -rf "$work"' EXIT
trap 'exit 1' HUP INT TERM

# Runs a command so many times, its output into a file; prints one row, of the round with the best wall time.
time_row() { # LABEL ROUNDS INPUT OUTPUT COMMAND..
    python3 - "$@" <<'PROGRAM'
import os
import sys
import threading
import time


# Notes the peak of the process's resident memory, in MB, until it ends. (That of wait4 counts this program's too.)
def watch(process, peak):
    while True:
        try:
            with open(f"/proc/{process}/status") as status:
                found = [line.split()[1] for line in status if line.startswith("VmHWM:")]
        except OSError:
            return
        if not found:
            return
        peak.append(int(found[0]) / 1e3)
        time.sleep(0.002)


label, rounds, source, target = sys.argv[1], int(sys.argv[2]), sys.argv[3], sys.argv[4]
command = sys.argv[5:]
best = None
for _ in range(rounds):
    begin = time.monotonic()
    child = os.fork()
    if child == 0:
        out = os.open(target, os.O_WRONLY | os.O_CREAT | os.O_TRUNC, 0o600)
        os.dup2(out, 1)
        os.execvp(command[0], command)
    peak = []
    watcher = threading.Thread(target=watch, args=(child, peak))
    watcher.start()
    _, status, used = os.wait4(child, 0)
    wall = time.monotonic() - begin
    watcher.join()
    if status != 0:
        sys.exit(f"{label}: status {os.waitstatus_to_exitcode(status)}")
    if best is None or wall < best[0]:
        best = wall, used, f"{peak[-1]:.1f}" if peak else "-"
wall, used, peak = best
size = os.path.getsize(source) / 1e6
print(f"| {label} | {size:.0f} | {wall:.2f} | {used.ru_utime:.2f} | {used.ru_stime:.2f} | {peak} | {size / wall:.1f} |")
PROGRAM
}

same() { # LABEL FILE FILE
    if ! cmp "$2" "$3"; then
        echo "$1: the output differs from the input" >&2
        exit 1
    fi
}

echo "| command | MB | wall s | user s | system s | peak MB | MB/s |"
echo "|---|---:|---:|---:|---:|---:|---:|"
for size in $sizes; do
    python3 "$here/make_lines.py" "$seed" "${size}000000" >"$work/in"
    time_row "collector pass" "$rounds" "$work/in" "$work/summary" "$collector" pass "$work/in" "$work/out"
    same "collector pass" "$work/in" "$work/out"
    if command -v jq >/dev/null; then
        time_row "jq -c ." 1 "$work/in" "$work/jq" jq -c . "$work/in"
        same "jq -c ." "$work/jq" "$work/out"
    fi
done
