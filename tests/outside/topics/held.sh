# Memory that is given back: where a command ends, it holds no block. program.sh reads this file;
# tests/lib/held.c counts. Of more workers than one the C library keeps what it made for their threads.
works_in held
printf '%b' "$sample" > base
preloads held

# gives_back STATUS INPUT WORDS..: the command ends with that status, and holds nothing then.
gives_back() {
    wanted=$1
    printf '%b' "$2" > in
    shift 2
    echo 0 > status
    HELD=out LD_PRELOAD="$preload" "$program" "$@" < in > whole 2> told || echo $? > status
    wants '0\n' ''
    : > err
    judge "undorc $*, and what it holds where it ends" "$wanted"
}

gives_back 0 '' compile "$samples/source"
gives_back 111 '' compile base
gives_back 0 '' db -b base check
gives_back 0 '' db -b base all-dependencies web
gives_back 1 'no database\n' db check
gives_back 0 'root\n' plan -b base -u site
gives_back 1 'nothing\n' plan -b base -u site
gives_back 0 'change site\nundo\njournal\nredo\nadd x web\ndelete x\nundo 2\nlive\n' session -w 1 -b base -x down:log
gives_back 0 'change site\nundo\n' session -w 1 -b base -r true -c true -l live
gives_back 0 '' change -w 1 -b base -x none -l live site
gives_back 0 '' undo -w 1 -b base -x none -l live
gives_back 0 '' redo -w 1 -b base -x none -l live
gives_back 0 '' update -w 1 -b base -B base -x none -l live
gives_back 0 '' restart -w 1 -b base -x none -l live net
gives_back 0 '' status -b base -l live
gives_back 0 '' seal -b base -l live
gives_back 0 '' live -b base -l live
gives_back 0 '' journal -b base -l live
gives_back 100 '' change -b
worked_in
