#!/bin/sh
# Measures the program on the worst inputs within its limits: `measure_worst.sh [PROGRAM [CASE ..]]`, by default
# ./bpgen and all cases. For each it prints a row of docs/PERFORMANCE.md: the case, bytes in and out, the exit status, and
# the least processor time, the least time by the clock and the greatest memory of RUNS runs (3). TARGETS follows -t
# (android_arm64). The cases `group_flags` and `one_list` are run only by name: they take what memory there is, so a limit
# (ulimit -v) should stand. It needs GNU time and awk, and is no part of the gate.
set -eu

top=$(cd "$(dirname "$0")/.." && pwd)
program=${1:-$top/bpgen}
[ $# -eq 0 ] || shift
cases=${*:-references maps shared_keys extensions nested_keys assignments inheritors heirs random_heirs random_references long_paths link_lines chain cycle wide modules empty_lines
    components tokens doubling groups sources edges dots one_line order names key_modules key_variables flags many_sources}
runs=${RUNS:-3}
if [ ! -x "$program" ]; then
    echo "measure_worst: there is no program $program"
    exit 1
fi
program=$(cd "$(dirname "$program")" && pwd)/$(basename "$program")
# The first run of ./bpgen builds the program.
"$program" --version > /dev/null
work=$(mktemp -d)
trap 'rm -rf "$work"' EXIT

# A file of one directory.
alone() {
    echo Android.bp > list
    cat > Android.bp
}

# Libraries in files of 5,000: `libraries COUNT LENGTH CLOSED`, in chains of LENGTH, each closed to a cycle where CLOSED is 1.
libraries() {
    awk -v count="$1" -v length_="$2" -v closed="$3" 'BEGIN {
        for (n = 0; n < count; n++) {
            file = "d" int(n / 5000) "/Android.bp"
            if (n % 5000 == 0) {
                print file > "list"
                system("mkdir -p d" int(n / 5000))
            }
            last = n % length_ == length_ - 1 || n == count - 1
            next_ = last ? (closed ? "\"m" n - n % length_ "\"" : "") : "\"m" n + 1 "\""
            print "cc_library_static{name:\"m" n "\",static_libs:[" next_ "]}" > file
        }
    }'
}

# A chain of directories: `chain_of COUNT`, each of whose files sets a variable of its own.
chain_of() {
    awk -v count="$1" 'BEGIN {
        path = ""
        for (n = 0; n < count; n++) { print path "Android.bp"; path = path "a/" }
    }' > list
    mkdir -p "$(tail -n 1 list | sed 's,/Android.bp$,,')"
    awk '{ print "v" NR " = \"x\"" > $0; close($0) }' list
}

# A sum of a map with 10,000 entries and of 20,000 maps with one of its keys each, every map between two texts: `keys BEFORE BEHIND`.
keys() {
    awk -v before="$1" -v behind="$2" 'BEGIN {
        printf "x = %s{", before
        for (n = 0; n < 10000; n++) printf "a%d:1,", n
        printf "}%s", behind
        for (n = 0; n < 20000; n++) printf "+%s{a%d:1}%s", before, n % 10000, behind
        print ""
    }' | alone
}

# 60 more files side by side, which set 100,000 variables each.
variables() {
    awk 'BEGIN {
        for (file = 0; file < 60; file++) {
            path = "d" file "/Android.bp"
            print path >> "list"
            system("mkdir -p d" file)
            for (n = 0; n < 100000; n++) print "a" n "=1" > path
            close(path)
        }
    }'
}

# Names that have one key: each is made of COUNT parts of 12 letters, which are one of two that a key can't tell apart, whatever
# stands before and behind them. `names_of FIRST SECOND COUNT FILES LINE` makes files below one another of 2^COUNT lines, each by
# the awk program LINE of a name and the one before it.
names_of() {
    awk -v first="$1" -v second="$2" -v count="$3" -v files="$4" 'BEGIN {
        path = before = ""
        for (n = 0; n < 2 ^ count; n++) {
            if (n % (2 ^ count / files) == 0) {
                if (n > 0) path = path "d/"
                print path "Android.bp" > "list"
                if (n > 0) system("mkdir -p " path)
            }
            name = ""
            left = n
            for (part = 0; part < count; part++) { name = name (left % 2 ? second : first); left = int(left / 2) }
            print name, before > (path "Android.bp")
            before = name
        }
    }'
    while read -r file; do
        awk "$5" "$file" > made
        mv made "$file"
    done < list
}

# What each case is, and its tree.
tree_of() {
    case $1 in
        references)
            echo "references to the variable of the nearest file, below a chain of 2,000 directories that set one each"
            chain_of 2000
            awk 'BEGIN {
                print "z = \"x\""
                for (list = 0; list < 8; list++) {
                    printf "l%d = [", list
                    for (n = 0; n < 64990; n++) printf "z,"
                    print "]"
                }
            }' > "$(tail -n 1 list)" ;;
        maps)
            echo "a sum of 20,000 maps with one entry each"
            awk 'BEGIN { printf "x = {a:1}"; for (n = 1; n < 20000; n++) printf "+{a%d:1}", n; print "" }' | alone ;;
        shared_keys)
            echo "a sum of a map with 10,000 entries and of 20,000 maps with one of its keys each"
            keys "" "" ;;
        extensions)
            echo "a map with one entry, and 20,000 times \`+=\` of another"
            awk 'BEGIN { print "x = {a:1}"; for (n = 1; n < 20000; n++) printf "x += {a%d:1}\n", n }' | alone ;;
        nested_keys)
            echo "a sum of a map in which a map with 10,000 entries stands, and of 20,000 that have one of its keys there"
            keys "{m:" "}" ;;
        assignments)
            echo "60 files side by side with 100,000 variables each"
            variables ;;
        inheritors)
            echo "the same below a directory that sets a variable"
            echo b=1 | alone
            variables ;;
        heirs)
            echo "62 files one below the other with 86,000 variables each, whose names are in no order"
            awk 'BEGIN {
                path = ""
                for (file = 0; file < 62; file++) {
                    print path "Android.bp" > "list"
                    if (file > 0) system("mkdir -p " path)
                    for (n = 0; n < 86000; n++) {
                        printf "a%08x=1\n", ((file * 86000 + n) * 40503) % 16777213 > path "Android.bp"
                    }
                    close(path "Android.bp")
                    path = path "d/"
                }
            }' ;;
        random_heirs)
            echo "109 files one below the other with 87,000 variables each, whose names are of four letters, in random order"
            awk 'function letter(place) { return substr(letters, place + 1, 1) }
            BEGIN {
                # The first letter is one of 53. Each number below 53 * 63^3 comes once, by a generator of that period.
                letters = "abcdefghijklmnopqrstuvwxyzABCDEFGHIJKLMNOPQRSTUVWXYZ_0123456789"
                number = 1
                path = ""
                for (file = 0; file < 109; file++) {
                    print path "Android.bp" > "list"
                    if (file > 0) system("mkdir -p " path)
                    for (n = 0; n < 87000; n++) {
                        do {
                            number = (number * 5935630 + 12345677) % 13252491
                            name = letter(int(number / 250047)) letter(int(number / 3969) % 63)
                            name = name letter(int(number / 63) % 63) letter(number % 63)
                        } while (name == "true")
                        print name "=1" > path "Android.bp"
                    }
                    close(path "Android.bp")
                    path = path "d/"
                }
            }' ;;
        random_references)
            echo "9.1 million references in random order, in 70 files below 30 that set 87,000 variables of four letters each"
            awk 'function letter(place) { return substr(letters, place + 1, 1) }
            function name_of(number) {
                number = number * 7654321 % 13252491
                name = letter(int(number / 250047)) letter(int(number / 3969) % 63)
                name = name letter(int(number / 63) % 63) letter(number % 63)
                return name == "true" ? "true_" : name
            }
            BEGIN {
                letters = "abcdefghijklmnopqrstuvwxyzABCDEFGHIJKLMNOPQRSTUVWXYZ_0123456789"
                srand(5)
                path = ""
                for (file = 0; file < 100; file++) {
                    print path "Android.bp" > "list"
                    if (file > 0) system("mkdir -p " path)
                    if (file < 30) {
                        for (n = 0; n < 87000; n++) print name_of(file * 87000 + n) "=\"\"" > path "Android.bp"
                    } else {
                        for (n = 0; n < 2; n++) {
                            printf "list%d_%d=[", file, n > path "Android.bp"
                            for (m = 0; m < 65000; m++) printf "%s,", name_of(int(rand() * 2610000)) > path "Android.bp"
                            print "]" > path "Android.bp"
                        }
                    }
                    close(path "Android.bp")
                    path = path "d/"
                }
            }' ;;
        long_paths)
            echo "100,000 modules in a chain of 1,000 directories, whose paths have 1,000 bytes on average"
            chain_of 1000
            awk '{
                for (n = 0; n < 100; n++) print "cc_library_static{name:\"m" NR "_" n "\",srcs:[\"a.c\"]}" > $0
                close($0)
            }' list ;;
        link_lines)
            echo "100,000 libraries in chains of 1,000: 50 million entries in all link lines"
            libraries 100000 1000 0 ;;
        chain)
            echo "100,000 libraries in one chain: *link line is too long*"
            libraries 100000 100000 0 ;;
        cycle)
            echo "100,000 libraries in one cycle, and its line"
            libraries 100000 100000 1 ;;
        wide)
            echo "380 libraries over 380, each over all: 144,400 items"
            awk 'BEGIN {
                for (n = 0; n < 380; n++) print "cc_library_static{name:\"b" n "\"}"
                for (n = 0; n < 380; n++) {
                    printf "cc_library_static{name:\"a%d\",static_libs:[", n
                    for (k = 0; k < 380; k++) printf "\"b%d\",", k
                    print "]}"
                }
            }' | alone ;;
        modules)
            echo "131,072 libraries without sources"
            libraries 131072 1 0 ;;
        empty_lines)
            echo "a list of 4,194,304 empty lines"
            head -c 4194304 /dev/zero | tr '\0' '\n' > list ;;
        components)
            echo "a list of one path of 2,097,146 components, which is too long to open"
            awk 'BEGIN { for (n = 0; n < 2097145; n++) printf "a/"; print "Android.bp" }' > list ;;
        tokens)
            echo "a file of 1 MiB of commas: *unexpected token*"
            head -c 1048576 /dev/zero | tr '\0' ',' | alone ;;
        doubling)
            echo "a map of which each level holds the one below twice, 18 levels deep"
            awk 'BEGIN {
                print "m0 = {x:1}"
                for (n = 1; n <= 18; n++) printf "m%d = {a:m%d,b:m%d}\n", n, n - 1, n - 1
            }' | alone ;;
        groups)
            echo "5,000 modules that set 22 groups each"
            awk 'BEGIN {
                for (n = 0; n < 5000; n++) {
                    if (n % 500 == 0) { file = "d" n / 500 "/Android.bp"; print file > "list"; system("mkdir -p d" n / 500) }
                    printf "cc_library{name:\"m%d\",srcs:[\"a.c\"],", n > file
                    g = "{cflags:[\"-a\",\"-b\"],asflags:[\"-c\"]}"
                    printf "arch:{arm:%s,arm64:%s,riscv64:%s,x86:%s,x86_64:%s},", g, g, g, g, g > file
                    printf "multilib:{lib32:%s,lib64:%s},target:{android:%s,host:%s,linux:%s,", g, g, g, g, g > file
                    printf "linux_glibc:%s,not_windows:%s,darwin:%s,windows:%s,", g, g, g, g > file
                    printf "android_arm64:%s,android_arm:%s,android_x86_64:%s,android_x86:%s,", g, g, g, g > file
                    printf "linux_glibc_x86_64:%s,linux_glibc_x86:%s},static:%s,shared:%s}\n", g, g, g, g > file
                }
            }' ;;
        sources)
            echo "a test by source with 65,536 sources"
            awk 'BEGIN {
                printf "s = ["; for (n = 0; n < 65536; n++) printf "\"%d.c\",", n
                print "]\ncc_test{name:\"t\",test_per_src:true,srcs:s}"
            }' | alone ;;
        flags | group_flags)
            groups=
            if [ "$1" = group_flags ]; then
                own='{cflags:["-a"]}'
                groups="arch:{arm64:$own,arm:$own,x86_64:$own,x86:$own},"
            fi
            echo "340 libraries with 65,000 flags each${groups:+, and one more by architecture}"
            awk -v groups="$groups" 'BEGIN {
                flags = "\"\""; for (n = 1; n < 65000; n++) flags = flags ",\"\""
                for (n = 0; n < 340; n++) {
                    file = "d" int(n / 5) "/Android.bp"
                    if (n % 5 == 0) { print file > "list"; system("mkdir -p d" int(n / 5)) }
                    print "cc_library{name:\"m" n "\",srcs:[\"a.c\"]," groups "cflags:[" flags "]}" > file
                }
            }' ;;
        many_sources)
            echo "66 libraries with 58,000 sources each"
            awk 'BEGIN {
                for (n = 0; n < 58000; n++) sources = sources sprintf("\"%04x.c\",", n)
                for (n = 0; n < 66; n++) {
                    file = "d" n "/Android.bp"
                    print file > "list"
                    system("mkdir -p d" n)
                    print "cc_library_static{name:\"m" n "\",srcs:[" sources "]}" > file
                    close(file)
                }
            }' ;;
        one_list)
            echo "10,000 libraries that name one list of 65,536 sources"
            awk 'BEGIN {
                printf "s = ["; for (n = 0; n < 65536; n++) printf "\"%d.c\",", n
                print "]"; for (n = 0; n < 10000; n++) print "cc_library_static{name:\"m" n "\",srcs:s}"
            }' | alone ;;
        edges)
            echo "a library that names one library 65,536 times in each of four lists"
            awk 'BEGIN {
                printf "s = ["; for (n = 0; n < 65536; n++) printf "\"z\","
                print "]\ncc_library_shared{name:\"a\",static_libs:s,whole_static_libs:s,shared_libs:s,header_libs:[\"h\"]}"
                print "cc_library{name:\"z\"}\ncc_library_headers{name:\"h\"}"
            }' | alone ;;
        dots)
            echo "a list of one path of 2,097,145 times ./"
            awk 'BEGIN { for (n = 0; n < 2097145; n++) printf "./"; print "Android.bp" }' > list
            : > Android.bp ;;
        one_line)
            echo "a file of one line of 1 MiB"
            awk 'BEGIN { printf "s = ["; for (n = 0; n < 47600; n++) printf "\"%014d\" + \"\",", n; printf "]" }' | alone ;;
        order)
            echo "an order file of 64 MiB, which is illegal in its second line"
            echo 'filegroup{name:"a"}' | alone
            awk 'BEGIN { print "1 0"; for (n = 0; n < 16777214; n++) print "1 0" }' > order.txt ;;
        names)
            echo "131,072 modules whose names differ in their last characters, 63 before them the same"
            awk 'BEGIN {
                for (n = 0; n < 131072; n++) {
                    d = int(n / 8192)
                    if (n % 8192 == 0) { file = "d" d "/Android.bp"; print file > "list"; system("mkdir -p d" d) }
                    printf "filegroup{name:\"%063d%06d\"}\n", 0, n > file
                }
            }' ;;
        key_modules)
            echo "65,536 libraries whose names have one key, each over the one before it in its 64"
            names_of biaaaaocsnar aacekgaaaapa 16 32 \
                '{ print "cc_library_static{name:\"" $1 "\",static_libs:[" (NR % 64 == 1 ? "" : "\"" $2 "\"") "]}" }' ;;
        key_variables)
            echo "131,072 variables whose names have one key, in 64 files one below the other, each of the one before it"
            names_of vaekaqehaqsj ajaadaaahaaa 17 64 '{ print $1 " = " ($2 == "" ? 1 : $2) }' ;;
        *)
            echo "measure_worst: no case $1" >&2
            exit 1 ;;
    esac
}

echo "| Case | In | Out | Status | Processor time | By the clock | Memory |"
echo "|---|---|---|---|---|---|---|"
for case in $cases; do
    mkdir "$work/tree"
    cd "$work/tree"
    what=$(tree_of "$case")
    : > "$work/times"
    rm -f "$work/out"
    n=0
    words=build
    [ ! -f order.txt ] || words="replay --order order.txt"
    while [ "$n" -lt "$runs" ]; do
        status=0
        /usr/bin/time -q -a -o "$work/times" -f "%U %S %e %M" \
            "$program" $words -l list -o "$work/out" -t "${TARGETS:-android_arm64}" 2> /dev/null || status=$?
        n=$((n + 1))
    done
    in=$(find . -type f -exec cat {} + | wc -c)
    out=$(cat "$work/out" 2> /dev/null | wc -c)
    awk '{ print $1 + $2, $3, $4 }' "$work/times" | sort -n |
        awk -v what="$what" -v in_="$in" -v out="$out" -v status="$status" '
            { if (NR == 1) used = $1; if (NR == 1 || $2 < clock) clock = $2; if ($3 > memory) memory = $3 }
            END {
                printf "| %s | %.1f MB | %.1f MB | %d | %.2f s | %.2f s | %d MB |\n", what, in_ / 1e6, out / 1e6, status,
                    used, clock, memory / 1000
            }'
    cd "$work"
    rm -rf tree
done
