#!/bin/sh
# Counts the instructions of each stage of `build` at n, 2n and 4n modules: `measure_stages.sh [PROGRAM]`, by default the
# program that ./bpgen builds. It runs the program with one worker under valgrind's callgrind, which counts the same on any
# machine, and prints a row of docs/PERFORMANCE.md for each stage: what the stage and all that it calls took, in millions of
# instructions, and the ratios. A stage is a function of the program; one that the compiler put into its caller has no row.
#
#   MODULES  n (2500); 64 modules stand in a file
#   STAGES   what is looked for, a line each: a name, = and the function as an extended regular expression
#
# It needs valgrind, and is no part of the gate.
set -eu

top=$(cd "$(dirname "$0")/.." && pwd)
program=${1:-$top/crates/bpgen/out/bpgen}
first=${MODULES:-2500}
stages=${STAGES:-"reading the files=bp_run::.*::read_file
tokens=bp_lexer::.*::tokens
trees=bp_parser::.*::parse
values=bp_load::.*::evaluate_files
records=bp_load::.*::type_by
loading in all=bp_run::.*::load_files
requests and cycles=bp_pipeline::.*::with_asked
mutators in all=bp_pipeline::.*::step
actions of a node=build_actions::.*::visit
the file for Ninja=build_actions::.*::build_file
written text: escapes=ninja_write::.*::put_escaped
written text in all=bp_pipeline::.*::text_of
modules to text in all=bp_pipeline::.*::generate
malloc=malloc
realloc=realloc
free=free"}
if [ ! -x "$program" ] || ! command -v valgrind > /dev/null; then
    echo "measure_stages: skipped, since there is no program $program or no valgrind"
    exit 0
fi
program=$(cd "$(dirname "$program")" && pwd)/$(basename "$program")
work=$(mktemp -d)
trap 'rm -rf "$work"' EXIT

for factor in 1 2 4; do
    modules=$((first * factor))
    "$top/tools/many_modules.sh" "$work/tree" "$modules" $(((modules + 63) / 64))
    (
        cd "$work/tree"
        valgrind -q --tool=callgrind --callgrind-out-file="$work/calls.$factor" \
            "$program" build -l list -o out -t android_arm64 -j 1
    )
    callgrind_annotate --inclusive=yes --threshold=100 "$work/calls.$factor" > "$work/table.$factor"
    rm -rf "$work/tree"
done

# The row of a stage: the instructions of its topmost function, with all that it calls, in each of the three runs.
row_of() {
    for factor in 1 2 4; do
        awk -v stage="[ :]$1(::<#[0-9a-f]*>)?( |\$)" '
            $0 ~ stage && !/\x27[0-9]/ { gsub(",", "", $1); print $1; exit }' "$work/table.$factor"
    done | awk -v stage="$2" '
        { count[NR] = $1 / 1e6 }
        END {
            if (NR == 3)
                printf "| %s | %.1f M | %.1f M | %.1f M | %.2f, %.2f |\n", stage, count[1], count[2], count[3],
                    count[2] / count[1], count[3] / count[2]
        }'
}

echo "| Stage | $first modules | $((first * 2)) | $((first * 4)) | Ratios |"
echo "|---|---|---|---|---|"
echo "$stages" | while IFS= read -r stage; do
    row_of "${stage#*=}" "${stage%%=*}"
done
row_of "PROGRAM TOTALS" "the whole run"
