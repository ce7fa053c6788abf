# Completion of undorc-machine for fish: that of undorc, and the commands of the machine.
complete -c undorc-machine -w undorc
complete -c undorc-machine -n __undorc_is -a 'apply init boot shutdown drift lint'
