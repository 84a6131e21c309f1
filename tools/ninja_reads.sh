#!/bin/sh
# The real Ninja and the reader agree on the texts that both take: Ninja lists the same outs, ins, rules and commands for a
# text as for what `read` and `write` make of it. It needs rt and ninja, and is no part of the gate.
set -eu

top=$(cd "$(dirname "$0")/.." && pwd)
if ! command -v ninja > /dev/null; then
    echo "ninja_reads: skipped, since there is no ninja on this machine"
    exit 0
fi

work=$(mktemp -d)
trap 'rm -rf "$work"' EXIT
if ! (cd "$top/crates/ninja_trials" && rt run -- sample) > "$work/log" 2>&1; then
    cat "$work/log"
    exit 1
fi
trials="$top/crates/ninja_trials/out/ninja_trials"
mkdir "$work/a" "$work/b"

# What Ninja says of the file in a folder.
said() {
    (
        cd "$1"
        ninja -t targets all
        ninja -t targets all | sed 's/: [^:]*$//' | while IFS= read -r out; do
            ninja -t query "$out"
            ninja -t commands "$out"
        done
    ) 2>&1
}

compared=0
compare() {
    cat > "$work/a/build.ninja"
    "$trials" again < "$work/a/build.ninja" > "$work/b/build.ninja"
    said "$work/a" > "$work/said_a" || true
    said "$work/b" > "$work/said_b" || true
    if grep -q '^ninja: error\|is refused' "$work/said_a" "$work/b/build.ninja" || ! diff "$work/said_a" "$work/said_b"; then
        echo "ninja_reads: they differ at"
        cat "$work/a/build.ninja" "$work/b/build.ninja" "$work/said_a"
        exit 1
    fi
    compared=$((compared + 1))
}

compare << 'END'
rule cat
  command = cat $in > $out

build result: cat in_1.cc in-2.O
END
compare << 'END'
# a comment
  # indented
rule link
  command = foo bar $
      baz ${in}$out$$
  # between bindings
  description = $ L $out
  depfile = ${out}.d

build a: link c $
 d e f
END
compare << 'END'
rule r
  command   =   x $$$in  
build foo$ bar: r $$one two$$$ three a$:b
build   b  c : r   foo$ bar  | d  e || f  a
build d e f: phony
END
compare << 'END'
rule build
  command = x $k $k_2
rule rule
  command = y
build default: build include
  k = v = w
  k_2 =x|:y
build rule: rule subninja
build a: phony $
    default $

default default rule
END
compare << 'END'
rule r
  command = ${a}-$b_1$$c${d}e $$
build ü: r € | 😀
  a =  
  b_1 = $ $ lead
  d = d$:e$ f$$
build x: r ü
default x
default ü
END
"$trials" sample > "$work/sample"
compare < "$work/sample"
echo "ninja_reads: $compared texts agree"
