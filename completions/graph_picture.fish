# Made by tools/words.py from the help text of graph_picture. Change it there.

complete -c graph_picture -f
complete -c graph_picture -l help -d 'print a help text'
complete -c graph_picture -l version -d 'print the version'
