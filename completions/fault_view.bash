# Made by tools/words.py from the help text of fault_view. Change it there.

_fault_view() {
    local current=${COMP_WORDS[COMP_CWORD]} before=${COMP_WORDS[COMP_CWORD-1]}
    COMPREPLY=()
    if [ "$before" = -l ]; then
        COMPREPLY=($(compgen -f -- "$current"))
        compopt -o filenames
        return
    fi
    if [ "$COMP_CWORD" -eq 1 ]; then
        COMPREPLY=($(compgen -W "-l --help --version" -- "$current"))
    fi
}

complete -F _fault_view fault_view
