#!/bin/sh
# Measures `build` by workers on trees of synthetic_modules.py: `measure_build.sh [PROGRAM]`, by default
# ./bpgen. For each size and number of workers it prints a row of docs/PERFORMANCE.md: modules, workers, the least
# processor time (user and system) and the least time by the clock of several runs, the greatest memory, and the bytes
# written, which are the same for all workers or the script stops.
#
#   SIZES    numbers of modules (1000 10000 100000)
#   WORKERS  numbers of workers (1 2 4)
#   RUNS     runs of each (3)
#
# It needs GNU time, Python 3 and awk, and is no part of the gate.
set -eu

top=$(cd "$(dirname "$0")/.." && pwd)
program=${1:-$top/bpgen}
sizes=${SIZES:-1000 10000 100000}
workers=${WORKERS:-1 2 4}
runs=${RUNS:-3}
if [ ! -x "$program" ]; then
    echo "measure_build: there is no program $program"
    exit 1
fi
program=$(cd "$(dirname "$program")" && pwd)/$(basename "$program")
# The first run of ./bpgen builds the program.
"$program" --version > /dev/null
work=$(mktemp -d)
trap 'rm -rf "$work"' EXIT

echo "| Modules | Workers | Processor time | By the clock | Memory | Out |"
echo "|---|---|---|---|---|---|"
for modules in $sizes; do
    "$top/tools/synthetic_modules.py" "$work/tree" "$modules"
    cd "$work/tree"
    for count in $workers; do
        : > "$work/times"
        n=0
        while [ "$n" -lt "$runs" ]; do
            /usr/bin/time -a -o "$work/times" -f "%U %S %e %M" "$program" build -l list -o build.ninja -j "$count"
            n=$((n + 1))
        done
        if [ -f "$work/first" ] && ! cmp -s "$work/first" build.ninja; then
            echo "measure_build: $count workers write another text"
            exit 1
        fi
        cp build.ninja "$work/first"
        out=$(wc -c < build.ninja)
        awk '{ print $1 + $2, $3, $4 }' "$work/times" | sort -n |
            awk -v modules="$modules" -v count="$count" -v out="$out" '
                { if (NR == 1) used = $1; if (NR == 1 || $2 < clock) clock = $2; if ($3 > memory) memory = $3 }
                END {
                    printf "| %d | %d | %.2f s | %.2f s | %d MB | %.1f MB |\n", modules, count, used, clock,
                        memory / 1000, out / 1000000
                }'
    done
    cd "$work"
    rm -rf tree first
done
