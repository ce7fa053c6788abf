# Standard input at a terminal: a command says what it reads whole, and a session prints its lines if a line asks for help.
# program.sh reads this file.
mkdir terminal
cd terminal
printf '%b' "$none" > base

# typed OUTPUT ANNOUNCED INPUT WORDS..: a run that succeeds, at a terminal where the input and then ^D are typed.
typed() {
    wants "$1" "$2"
    printf '%b' "$3" > in
    shift 3
    echo 0 > status
    timeout "$patience" "$top/tests/lib/terminal.py" in "$program" "$@" > out 2> err || echo $? > status
    judge "undorc $* at a terminal" 0
}

# announces WHAT: the line that announces what is read
announces() {
    printf '%s\\n' "undorc: reading $1 from the terminal; end it with ^D"
}

typed '' "$(announces 'the database')" "$none" db check
typed '' '' '' db -b base check
typed '' "$(announces 'the database and the services that are up')" "$none" plan -D
typed '' "$(announces 'the services that are up')" '' plan -b base -D
typed 'live\nat 0 of 1\n' "$(announces 'the database and the script')" "$none" replay
typed 'live\nat 0 of 1\n' "$(announces 'the script')" '' replay -b base
typed 'live\nok\n' "undorc: live does not exist: nothing is up\n$(announces 'the database')" "$none" live -l live
typed 'live\nok\n' "$(announces "the database and the session's lines")" "${none}live\n" session -x none
typed 'live\nok\n' '' 'live\n' session -b base -x none
help='undorc: end the session with ^D; its lines are change, undo, redo, live, journal and more\n'
for word in help '?' quit exit; do
    typed 'refused BadLine\nlive\nok\n' "$help" "$word\nlive\n" session -b base -x none
done
cd ..
