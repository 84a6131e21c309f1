#!/bin/sh
# Measures `graph` after each mutator on trees of synthetic_modules.py: `measure_graph.sh [PROGRAM]`, by default
# ./bpgen. For each size and mutator it prints a row of docs/PERFORMANCE.md: modules, mutator, nodes of the graph,
# the least processor time (user and system) and the least time by the clock of several runs, and the greatest memory.
#
#   SIZES    numbers of modules (1000 10000 100000)
#   AFTER    mutators (all eleven)
#   RUNS     runs of each (3)
#   TARGETS  what follows -t (the default of `graph`)
#
# It needs GNU time, Python 3 and awk, and is no part of the gate.
set -eu

top=$(cd "$(dirname "$0")/.." && pwd)
program=${1:-$top/bpgen}
sizes=${SIZES:-1000 10000 100000}
after=${AFTER:-defaults_deps defaults arch image link deps plugins per_src sanitize sdk info}
runs=${RUNS:-3}
targets=${TARGETS:-}
if [ ! -x "$program" ]; then
    echo "measure_graph: there is no program $program"
    exit 1
fi
program=$(cd "$(dirname "$program")" && pwd)/$(basename "$program")
# The first run of ./bpgen builds the program.
"$program" --version > /dev/null
work=$(mktemp -d)
trap 'rm -rf "$work"' EXIT

echo "| Modules | After | Nodes | Processor time | By the clock | Memory |"
echo "|---|---|---|---|---|---|"
for modules in $sizes; do
    "$top/tools/synthetic_modules.py" "$work/tree" "$modules"
    cd "$work/tree"
    for mutator in $after; do
        : > "$work/times"
        n=0
        while [ "$n" -lt "$runs" ]; do
            /usr/bin/time -a -o "$work/times" -f "%U %S %e %M" \
                "$program" graph -l list ${targets:+-t "$targets"} -a "$mutator" > "$work/out"
            n=$((n + 1))
        done
        nodes=$(grep -c '^[0-9]' "$work/out")
        awk '{ print $1 + $2, $3, $4 }' "$work/times" | sort -n |
            awk -v modules="$modules" -v mutator="$mutator" -v nodes="$nodes" '
                { if (NR == 1) used = $1; if (NR == 1 || $2 < clock) clock = $2; if ($3 > memory) memory = $3 }
                END {
                    printf "| %d | `%s` | %d | %.2f s | %.2f s | %d MB |\n", modules, mutator, nodes, used, clock,
                        memory / 1000
                }'
    done
    cd "$work"
    rm -rf tree
done
