# Made by tools/words.py from the help text of bpgen. Change it there.

_bpgen() {
    local command=${COMP_WORDS[1]} current=${COMP_WORDS[COMP_CWORD]} before=${COMP_WORDS[COMP_CWORD-1]}
    COMPREPLY=()
    if [ "$COMP_CWORD" -eq 1 ]; then
        COMPREPLY=($(compgen -W "build replay graph synth fmt edit help --help --version" -- "$current"))
        return
    fi
    if [ "$COMP_CWORD" -eq 2 ] && [ "$command" = help ]; then
        COMPREPLY=($(compgen -W "build replay graph synth fmt edit" -- "$current"))
        return
    fi
    # Readline takes `--out=x` for three words.
    if [ "$current" = = ]; then
        current=
    elif [ "$before" = = ]; then
        before=${COMP_WORDS[COMP_CWORD-2]}
    fi
    case "$command $before" in
    "build -l" | "build --list" | "build -o" | "build --out" | "build --journal" | "replay -l" | "replay --list" | "replay -o" | "replay --out" | "replay --order" | "graph -l" | "graph --list" | "fmt -i" | "fmt --in" | "fmt -o" | "fmt --out" | "edit -i" | "edit --in" | "edit -o" | "edit --out")
        COMPREPLY=($(compgen -f -- "$current"))
        compopt -o filenames ;;
    "build -t" | "build --targets" | "replay -t" | "replay --targets" | "graph -t" | "graph --targets")
        # Names are joined by commas: the last one is completed.
        local front=
        case "$current" in *,*) front=${current%,*}, ;; esac
        COMPREPLY=($(compgen -P "$front" -W "android_arm64 android_arm android_x86_64 android_x86 linux_glibc_x86_64 linux_glibc_x86" -- "${current##*,}"))
        compopt -o nospace ;;
    "graph -a" | "graph --after")
        COMPREPLY=($(compgen -W "defaults_deps defaults arch image link deps plugins per_src sanitize sdk info" -- "$current")) ;;
    "build -j" | "build --jobs" | "graph -j" | "graph --jobs" | "synth --seed" | "synth --modules" | "synth -j" | "synth --jobs" | "edit -m" | "edit --module" | "edit -p" | "edit --property" | "edit --items") ;;
    "build "*)
        COMPREPLY=($(compgen -W "-l --list -o --out -j --jobs -t --targets --journal" -- "$current")) ;;
    "replay "*)
        COMPREPLY=($(compgen -W "-l --list -o --out --order -t --targets" -- "$current")) ;;
    "graph "*)
        COMPREPLY=($(compgen -W "-l --list -a --after -j --jobs -t --targets" -- "$current")) ;;
    "synth "*)
        COMPREPLY=($(compgen -W "--seed --modules -j --jobs" -- "$current")) ;;
    "fmt "*)
        COMPREPLY=($(compgen -W "-i --in -o --out" -- "$current")) ;;
    "edit "*)
        COMPREPLY=($(compgen -W "-i --in -o --out -m --module -p --property --items" -- "$current")) ;;
    esac
}

complete -F _bpgen bpgen
