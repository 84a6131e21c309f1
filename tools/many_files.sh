#!/bin/sh
# Writes a tree of many files into a directory, with its list: `many_files.sh DIRECTORY [SHAPE] [FILES] [MODULES]`.
# SHAPE is `wide` (a root, directories below it in blocks of 128), `flat` (all below the root) or `deep` (a chain, of at most
# 2,000 files). Without numbers it has 16,384 files with 100,000 modules. The modules are shared out evenly; each names three
# others and adds to flags of the root's file. It needs awk, and is no part of the gate.
set -eu

directory=$1
shape=${2:-wide}
files=${3:-16384}
modules=${4:-100000}
mkdir -p "$directory"
cd "$directory"
awk -v shape="$shape" -v files="$files" 'BEGIN {
    path = ""
    for (n = 0; n < files; n++) {
        if (n == 0) path = ""
        else if (shape == "wide") path = n % 128 == 0 ? "d" int(n / 128) "/" : "d" int(n / 128) "/e" n % 128 "/"
        else if (shape == "flat") path = "d" n "/"
        else path = path "a/"
        print "./" path "Android.bp"
    }
}' > list
sed 's,/Android.bp$,,' list | xargs mkdir -p
awk -v files="$files" -v modules="$modules" '{
    n = NR - 1
    if (n == 0) print "flags = [\"-Wall\", \"-Werror\"]\nlevel = \"29\"\n" > $0
    print "// The libraries of directory " n ".\nhere" n " = flags + [\"-DHERE=" n "\"]\n" > $0
    for (m = int(n * modules / files); m < int((n + 1) * modules / files); m++)
        print "cc_library {\n    name: \"libm" m "\",\n    srcs: [\"a.c\", \"b.cpp\"],\n    cflags: here" n " + [\"-O2\"],\n    static_libs: [\"libm" m + 1 "\", \"libm" m + 2 "\"],\n    shared_libs: [\"libm" m + 3 "\"],\n    min_sdk_version: level,\n    vendor_available: true,\n}\n" > $0
    close($0)
}' list
