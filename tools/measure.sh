#!/bin/sh
# Measures `build` on trees of many_modules.sh: `measure.sh [PROGRAM]`, by default ./bpgen. For each
# size it prints a row of docs/PERFORMANCE.md: modules, files, bytes in and out, the least and the middle processor time (user
# and system) and the least time by the clock of several runs, the greatest memory, and a checksum of what was written.
#
#   SIZES    numbers of modules; 64 of them stand in a file (16384 32768 65536 131072)
#   RUNS     runs of each size (5)
#   PRELOAD  a library to put in front of the C library, as an allocator (none)
#
# It needs GNU time and awk, and is no part of the gate. Processor time is what counts on a machine with other work.
set -eu

top=$(cd "$(dirname "$0")/.." && pwd)
program=${1:-$top/bpgen}
sizes=${SIZES:-16384 32768 65536 131072}
runs=${RUNS:-5}
preload=${PRELOAD:-}
if [ ! -x "$program" ]; then
    echo "measure: there is no program $program"
    exit 1
fi
program=$(cd "$(dirname "$program")" && pwd)/$(basename "$program")
# The first run of ./bpgen builds the program.
"$program" --version > /dev/null
work=$(mktemp -d)
trap 'rm -rf "$work"' EXIT

echo "| Modules | Files | In | Out | Processor time: least, middle | By the clock | Memory | Checksum of OUT |"
echo "|---|---|---|---|---|---|---|---|"
for modules in $sizes; do
    files=$(((modules + 63) / 64))
    "$top/tools/many_modules.sh" "$work/tree" "$modules" "$files"
    cd "$work/tree"
    : > "$work/times"
    n=0
    while [ "$n" -lt "$runs" ]; do
        /usr/bin/time -a -o "$work/times" -f "%U %S %e %M" \
            env ${preload:+LD_PRELOAD="$preload"} "$program" build -l list -o "$work/out" -t android_arm64
        n=$((n + 1))
    done
    in=$(cat list $(cat list) | wc -c)
    out=$(wc -c < "$work/out")
    sum=$(sha256sum "$work/out" | cut -c1-16)
    awk '{ print $1 + $2, $3, $4 }' "$work/times" | sort -n |
        awk -v modules="$modules" -v files="$files" -v in_="$in" -v out="$out" -v sum="$sum" '
            { used[NR] = $1; if (NR == 1 || $2 < clock) clock = $2; if ($3 > memory) memory = $3 }
            END {
                printf "| %d | %d | %.1f MB | %.1f MB | %.2f s, %.2f s | %.2f s | %d MB | `%s` |\n", modules, files,
                    in_ / 1e6, out / 1e6, used[1], used[int((NR + 1) / 2)], clock, memory / 1000, sum
            }'
    cd "$work"
    rm -rf tree out
done
