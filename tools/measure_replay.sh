#!/bin/sh
# Measures `replay` along a journal: `measure_replay.sh [PROGRAM]`, by default ./bpgen. A tree of synthetic_modules.py
# is built with one worker and a journal, and replayed along it. It prints the lines of the journal, and for both
# commands the least processor time (user and system) of several runs and the greatest memory. It stops where they
# write different bytes.
#
#   MODULES  number of modules (100000)
#   RUNS     runs of each (3)
#
# It needs GNU time, Python 3 and awk, and is no part of the gate.
set -eu

top=$(cd "$(dirname "$0")/.." && pwd)
program=${1:-$top/bpgen}
modules=${MODULES:-100000}
runs=${RUNS:-3}
if [ ! -x "$program" ]; then
    echo "measure_replay: there is no program $program"
    exit 1
fi
program=$(cd "$(dirname "$program")" && pwd)/$(basename "$program")
# The first run of ./bpgen builds the program.
"$program" --version > /dev/null
work=$(mktemp -d)
trap 'rm -rf "$work"' EXIT

"$top/tools/synthetic_modules.py" "$work/tree" "$modules"
cd "$work/tree"
n=0
while [ "$n" -lt "$runs" ]; do
    /usr/bin/time -a -o "$work/build" -f "%U %S %M" \
        "$program" build -l list -o "$work/built" -j 1 --journal "$work/journal"
    /usr/bin/time -a -o "$work/replay" -f "%U %S %M" \
        "$program" replay -l list -o "$work/replayed" --order "$work/journal"
    cmp "$work/built" "$work/replayed"
    n=$((n + 1))
done
echo "lines of the journal: $(wc -l < "$work/journal")"
for command in build replay; do
    awk -v command="$command" '
        { used = $1 + $2; if (NR == 1 || used < least) least = used; if ($3 > memory) memory = $3 }
        END { printf "%s: %.2f s, %d MB\n", command, least, memory / 1000 }' "$work/$command"
done
