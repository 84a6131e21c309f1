#!/bin/sh
# Formats the Android.bp files of a list in place, and prints those that it changed:
# `format_list.sh [--check] LIST [PROGRAM]`. With --check it changes nothing, prints the files that aren't formatted, and ends
# with 1 where there is one. LIST is a list as for `bpgen build`, and PROGRAM by default the one that ./bpgen builds. A file
# with a fault stays as it is: its fault is printed, the others are formatted all the same, and the script ends with 1. It
# ends with 2 where it can't begin.
set -eu

usage() {
    echo "usage: format_list.sh [--check] LIST [PROGRAM]" >&2
    exit 2
}

check=
if [ "${1:-}" = --check ]; then
    check=1
    shift
fi
{ [ $# -eq 1 ] || [ $# -eq 2 ]; } || usage
list=$1
program=${2:-$(cd "$(dirname "$0")/.." && pwd)/crates/bpgen/out/bpgen}
if [ ! -r "$list" ] || [ -d "$list" ]; then
    echo "format_list: cannot read $list" >&2
    exit 2
fi
if ! command -v "$program" > /dev/null || [ -d "$program" ]; then
    echo "format_list: there is no program $program; ./bpgen builds it" >&2
    exit 2
fi

work=$(mktemp -d)
trap 'rm -rf "$work"' EXIT
cr=$(printf '\r')
files=0
changed=0
faulty=0

# Formats a file beside it, and only then in place, so that a file that is formatted isn't written.
format() {
    files=$((files + 1))
    # No value of an option begins with `-`.
    case $1 in
        -*) set -- "./$1" ;;
    esac
    if ! "$program" fmt -i "$1" -o "$work/laid"; then
        faulty=$((faulty + 1))
    elif ! cmp -s "$1" "$work/laid"; then
        changed=$((changed + 1))
        if [ -n "$check" ]; then
            echo "not formatted: $1"
        elif "$program" fmt -i "$1" -o "$1"; then
            echo "formatted: $1"
        else
            faulty=$((faulty + 1))
        fi
    fi
}

while IFS= read -r line || [ -n "$line" ]; do
    path=${line%"$cr"}
    case $path in
        *[!"$(printf ' \t')"]*) ;;
        *) continue ;;
    esac
    while [ "$path" != "${path#./}" ]; do
        path=${path#./}
    done
    format "$path"
done < "$list"

if [ -n "$check" ]; then
    echo "format_list: of $files files $changed aren't formatted, and $faulty can't be"
    [ "$changed" -eq 0 ] && [ "$faulty" -eq 0 ]
else
    echo "format_list: of $files files $changed were formatted, and $faulty can't be"
    [ "$faulty" -eq 0 ]
fi
