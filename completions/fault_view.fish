# Made by tools/words.py from the help text of fault_view. Change it there.

complete -c fault_view -f
complete -c fault_view -l help -d 'print a help text'
complete -c fault_view -l version -d 'print the version'
complete -c fault_view -s l -r -F -d 'the files whose modules are known, one path a line; default the file of the fault'
