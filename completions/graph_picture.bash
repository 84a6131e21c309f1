# Made by tools/words.py from the help text of graph_picture. Change it there.

_graph_picture() {
    local current=${COMP_WORDS[COMP_CWORD]} before=${COMP_WORDS[COMP_CWORD-1]}
    COMPREPLY=()
    if [ "$COMP_CWORD" -eq 1 ]; then
        COMPREPLY=($(compgen -W "--help --version" -- "$current"))
    fi
}

complete -F _graph_picture graph_picture
