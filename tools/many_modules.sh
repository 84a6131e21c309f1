#!/bin/sh
# Writes a tree of many modules into a directory: `many_modules.sh DIRECTORY [COUNT [FILES]]`, 2,000 modules in one file
# where no numbers are given. They stand in blocks of 64, a binary and then 63 libraries of one C source each, and each
# names the next two of its block. With more than one file they stand in directories of sixteen, two levels deep, in turn.
# It needs awk, and is no part of the gate.
set -eu

directory=$1
count=${2:-2000}
files=${3:-1}
mkdir -p "$directory"
awk -v top="$directory" -v count="$count" -v files="$files" '
function path_of(file) {
    return files == 1 ? "" : "d" int(file / 16) "/e" file % 16 "/"
}
BEGIN {
    for (file = 0; file < files; file++) {
        print path_of(file) "Android.bp" > (top "/list")
        if (files > 1)
            print path_of(file) | ("cd \"" top "\" && xargs mkdir -p")
    }
    close("cd \"" top "\" && xargs mkdir -p")
    for (n = 0; n < count; n++) {
        out = top "/" path_of(int(n * files / count)) "Android.bp"
        if (out != last && last != "")
            close(last)
        last = out
        type = n % 64 == 0 ? "cc_binary" : "cc_library_static"
        libs = ""
        for (k = n + 1; k <= n + 2 && k < count && int(k / 64) == int(n / 64); k++)
            libs = libs "\"m" k "\", "
        printf "%s {\n    name: \"m%d\",\n    srcs: [\"m%d.c\"],\n    static_libs: [%s],\n}\n", type, n, n, libs > out
    }
}'
