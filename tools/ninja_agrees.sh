#!/bin/sh
# The real Ninja reads what the writer writes: its targets, queries and commands have the names and words that
# `ninja_trials sample` puts in, spaces, dollars and colons included; and it loads what the program (BPGEN, by default the
# one that ./bpgen builds) writes of examples/demo_tree. It needs rt and ninja, and is no part of the gate.
set -eu

top=$(cd "$(dirname "$0")/.." && pwd)
if ! command -v ninja > /dev/null; then
    echo "ninja_agrees: skipped, since there is no ninja on this machine"
    exit 0
fi

work=$(mktemp -d)
trap 'rm -rf "$work"' EXIT
if ! (cd "$top/crates/ninja_trials" && rt run -- sample) > "$work/log" 2>&1; then
    cat "$work/log"
    exit 1
fi
cd "$work"
"$top/crates/ninja_trials/out/ninja_trials" sample > build.ninja

# What Ninja reports, beside what went in.
same() {
    if ! diff wanted got; then
        echo "ninja_agrees: $1 differ"
        exit 1
    fi
    echo "ninja_agrees: $1 agree"
}

cat > wanted << 'END'
out/a b: say_1
out/c:d$: say_1
$out: e: say_1
out/long: say_1
out/all of it: phony
END
ninja -t targets all > got
same "the targets"

cat > wanted << 'END'
out/a b:
  input: say_1
    a b:$.c
     leading
    trailing 
    $$$ $:$ :
    =#ü
    | in c/i j.h
    | :
    || $in
    || d:e f
  outputs:
    out/all of it
END
ninja -t query 'out/a b' > got
same "the ins of a statement"

cat > wanted << 'END'
out/all of it:
  input: phony
    out/a b
    out/long
  outputs:
END
ninja -t query 'out/all of it' > got
same "the ins of the default"

# Ninja puts a path that the shell would split between single quotes.
cat > wanted << 'END'
  say $5: '$$'   -X:  two $HOME ${in} $:# | || a=b $'a b:$.c' ' leading' 'trailing ' '$$$ $:$ :' '=#ü' > 'out/a b' 'out/c:d$' '$out: e'
END
ninja -t commands 'out/a b' > got
same "a command and its words"

{
    printf "  say \$5: '\$\$' \$"
    n=0
    while [ "$n" -lt 500 ]; do
        printf "'src %d/file:\$%d.c' " "$n" "$n"
        n=$((n + 1))
    done
    printf '> out/long\n'
} > wanted
ninja -t commands out/long > got
same "the ins of a long statement"

# The text of examples/demo_tree for three targets: Ninja loads it, and its targets are the outs of the statements, in order.
program=${BPGEN:-$top/crates/bpgen/out/bpgen}
if [ ! -x "$program" ]; then
    echo "ninja_agrees: there is no program $program; ./bpgen builds it"
    exit 1
fi
(cd "$top/examples/demo_tree" && "$program" build -l list -o "$work/build.ninja")
sed -n 's/^build \([^ :]*\): \([a-z]*\).*/\1: \2/p' build.ninja > wanted
ninja -t targets all > got
same "the targets of demo_tree"
