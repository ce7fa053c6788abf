# What the calls are to write where growths are refused, beside what was written. Read are, in
# this order, growths.txt, what is written where nothing is refused, and the run. way: GROWTHS, this
# growth `n` of each call and all that follow; GROWTH, this one alone, where all goes on if growths.txt
# lists it as one that is asked for again, for less; THREAD, this start of a thread. It prints the lines
# that are wrong.
# A thread's start takes memory too, and more where none has ended before: where that is refused the call
# is out of threads.
FNR == 1 { part++ }

# How often each call of a line grows, and how many threads it starts.
part == 1 { counts[FNR] = $0 }

part == 2 { whole[FNR] = $0; lines = FNR }

# Sets `before`, what is written of a line before the first call that is refused, with its name, and
# `threads`, how many that starts; `over`, by how many growths it is before its end; `answers`, how
# many of the last are for the answer to what is done by then; and `again`, whether it goes on.
# 0: none is refused.
function is_refused(line,    calls, numbers, many, i, name, pair) {
    many = split(whole[line], calls, "; ")
    split(counts[line], numbers, "; ")
    before = ""
    for (i = 1; i <= many; i++) {
        name = calls[i]
        sub(/: [^:]*$/, "", name)
        split(substr(numbers[i], length(name) + 3), pair, /,? /)
        threads = numbers[i] ~ / threads/ ? pair[2] : 0
        answers = 0
        if (match(numbers[i], /, the last [0-9]+ for its answer$/))
            answers = substr(numbers[i], RSTART + length(", the last ")) + 0
        again = 0
        if (match(numbers[i], /, [0-9 ]+ again/))
            again = way == "GROWTH" && index(substr(numbers[i], RSTART + 1, RLENGTH - 1), " " n " ") > 0
        over = (way == "THREAD" ? threads : pair[1]) - n
        if (over >= 0) {
            before = before name
            return 1
        }
        if (i < many) before = before calls[i] "; "
    }
    before = before name
    return 0
}

function is_right(line, text,    refused, ended) {
    refused = is_refused(line)
    if (refused && way != "THREAD" && over < answers) {
        ended = substr(whole[line], length(before) + 1)
        sub(/^: done/, ": out of memory", ended)
        return text == before ended
    }
    if (text == whole[line]) return !refused || again
    if (text == before ": out of memory, as before") return refused && !again && way != "THREAD"
    if (text == before ": out of threads, as before")
        return threads > 0 && (refused || (way != "THREAD" && over >= -2 * threads))
    return 0
}

part == 3 {
    told = FNR
    if (!is_right(FNR, $0)) print "wanted: " whole[FNR] "\ntold:   " $0
}

END { if (part != 3 || told != lines) print "wanted " lines " lines, and told were " told + 0 }
