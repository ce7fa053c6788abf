# Draws sessions, the same for the same seed, and says by plain rules what `undorc replay` makes of
# them: sets are texts of 0 and 1, a digit for each service, and the line is a list of whole states.
# Of each session N it writes the database (N.base), its first K commands with the events of their
# runs (N.K), for each K, and what these come to, one K after the other (N.wanted). It prints in
# how many sessions an undo or a redo failed in part.
#   awk -v seed=NUMBER -v sessions=NUMBER -v commands=NUMBER -f tests/outside/drawn.awk
# With -v bounded=1 each command is a run of `undorc session` of its own, on a line of 3 to 5 states at
# most that a file keeps from run to run. Of each it writes the words for it (N.K.words) and its lines,
# after which what is live and the journal are looked at (N.K), and what all of them come to
# (N.wanted). It prints in how many sessions a full line lost its oldest state, and in how many its last.

function below(bound) {
    seed = seed * 16807 % 2147483647
    return int(seed / 2147483647 * bound)
}

# Sets.
function has(set, s) { return substr(set, s, 1) == "1" }
function put(set, s, digit) { return substr(set, 1, s - 1) digit substr(set, s + 1) }
function either(one, other,  s) {
    for (s = 1; s <= services; s++) if (has(other, s)) one = put(one, s, 1)
    return one
}
function less(one, other,  s) {
    for (s = 1; s <= services; s++) if (has(other, s)) one = put(one, s, 0)
    return one
}
function both(one, other) { return less(one, less(one, other)) }
function up(set,  round, s, t) {
    for (round = 1; round <= services; round++)
        for (s = 1; s <= services; s++)
            for (t = 1; t <= services; t++) if (needs[s, t] && has(set, s)) set = put(set, t, 1)
    return set
}
function down(set,  round, s, t) {
    for (round = 1; round <= services; round++)
        for (s = 1; s <= services; s++)
            for (t = 1; t <= services; t++) if (needs[s, t] && has(set, t)) set = put(set, s, 1)
    return set
}
function some(one_in,  s, set) {
    set = nothing
    for (s = 1; s <= services; s++) if (below(one_in) == 0) set = put(set, s, 1)
    return set
}

# Texts.
function name(s) { return substr("abcdefghi", s, 1) }
function bundle(b) { return substr("xyz", b, 1) }
function names(set, sign,  s, text) {
    for (s = 1; s <= services; s++) if (has(set, s)) text = text sign name(s)
    return text
}
function told(word, set) { return set == nothing ? "" : word names(set, " ") "\n" }
function value(set) { return set == "" ? "none" : "[" substr(names(set, ","), 2) "]" }

# The states of the line: what is live, and the set of each bundle, which is empty text where there
# is none.
function copy(from, to,  b) {
    live[to] = live[from]
    for (b = 1; b <= 3; b++) bundles[to, b] = bundles[from, b]
}
function same(one, other,  b) {
    for (b = 1; b <= 3; b++) if (bundles[one, b] != bundles[other, b]) return 0
    return live[one] == live[other]
}
# A change or an edit ends in the state 0: another one cuts what came after, and is added.
function go() {
    if (same(0, cursor)) return
    cursor++
    copy(0, cursor)
    count = cursor
    fit()
}
# Of more states than there may be one goes: the oldest, unless it stands beside the new one, else
# the last.
function fit(  i) {
    if (!bound || count <= bound) return
    if (cursor > 2) {
        for (i = 1; i < count; i++) copy(i + 1, i)
        cursor--
        oldest_gone = 1
    } else last_gone = 1
    count--
}
# An undo (-1) or a redo (1) ends with these services live.
function step(way, end,  place, i) {
    if (end == live[cursor + way]) cursor += way
    else if (end != live[cursor]) {
        place = way < 0 ? cursor : cursor + 1
        copy(cursor, 0)
        live[0] = end
        for (i = count; i >= place; i--) copy(i, i + 1)
        copy(0, place)
        count++
        cursor = place
        split_one = 1
        fit()
    }
}
function journal(  text, i, s, b) {
    text = "at " (cursor - 1) " of " count "\n"
    for (i = 1; i < count; i++) {
        text = text (i - 1)
        for (s = 1; s <= services; s++)
            if (has(live[i], s) != has(live[i + 1], s))
                text = text (has(live[i], s) ? " -" : " +") name(s)
        for (b = 1; b <= 3; b++)
            if (bundles[i, b] != bundles[i + 1, b])
                text = text " " bundle(b) ":" value(bundles[i, b]) ">" value(bundles[i + 1, b])
        text = text "\n"
    }
    return text
}

# Runs: drawn workers bring about a target while drawn services fail, until nothing may be taken and
# nothing is held.
function may_move(s,  t) {
    if (has(taken, s) || has(from, s) == has(to, s)) return 0
    for (t = 1; t <= services; t++) {
        if (has(from, s) && needs[t, s] && (has(after, t) || moving[t])) return 0
        if (has(to, s) && needs[s, t] && (!has(after, t) || moving[t])) return 0
    }
    return 1
}
function drawn_job(  s, many, jobs) {
    for (s = 1; s <= services; s++) if (may_move(s)) jobs[++many] = s
    return many ? jobs[1 + below(many)] : 0
}
function outcome(s) {
    if (!has(fails, s)) {
        after = put(after, s, has(after, s) ? 0 : 1)
        return "ok"
    }
    failed = put(failed, s, 1)
    s = below(3)
    return s == 0 ? "timeout" : s == 1 ? "nostart" : "failed " (1 + below(255))
}
function carry_out(target, limit,  workers, w, s, holding, held) {
    from = after = live[cursor]
    to = target
    taken = failed = nothing
    fails = bounded ? either(both(falls, from), less(rises, from)) : some(6)
    events = stopped = 0
    for (s = 1; s <= services; s++) moving[s] = 0
    workers = 1 + below(4)
    for (;;) {
        w = 1 + 21 * below(workers)
        if (held[w]) {
            s = held[w]
            held[w] = moving[s] = 0
            holding--
            event[++events] = "done " w " " name(s) " " outcome(s)
        } else if (limit && !stopped && below(8) == 0) {
            stopped = 1
            event[++events] = "stop " w " " (limit + below(3))
        } else if (!stopped && (s = drawn_job())) {
            held[w] = s
            moving[s] = 1
            taken = put(taken, s, 1)
            holding++
            event[++events] = "take " w " " name(s)
        } else if (!holding) return
    }
}
# The refusal of the events, which are spoiled sometimes: the last is gone, or one is put in that is
# never legal.
function spoiled(limit,  drawn, place, i) {
    if (bounded) return ""
    drawn = below(10)
    if (drawn == 0 && !limit && events) {
        events--
        return "NotSettled " events
    }
    if (drawn == 1) {
        place = below(20)
        if (place > events) place = events
        for (i = events; i > place; i--) event[i + 1] = event[i]
        event[place + 1] = "take 0 a"
        events++
        return "BadEvent " place
    }
    return ""
}
function script_of(command,  i) {
    if (bounded) return command "\n"
    for (i = 1; i <= events; i++) command = command "\n" event[i]
    return command "\n"
}
function report(kept,  left) {
    left = less(either(less(from, to), less(to, from)), taken)
    return told("lowered", less(from, after)) told("raised", less(after, from)) \
        told("failed", failed) told(stopped ? "untried" : "blocked", left) told("kept", kept) "ok\n"
}

# Words of a command: some services, some bundles, seldom one that there is not. They stand for
# `wanted`.
function drawn_words(  set, b, words) {
    wanted = some(6)
    unknown = ""
    words = names(wanted, " ")
    for (b = 1; b <= 3; b++) {
        set = bundles[cursor, b]
        if (below(set == "" ? 20 : 4)) continue
        words = words " " bundle(b)
        if (set != "") wanted = either(wanted, set)
        else if (unknown == "") unknown = bundle(b)
    }
    return words
}
function change(  words, mode, prune, all, limit, now, keep, target, kept, refusal) {
    words = drawn_words()
    mode = substr("uudD", 1 + below(4), 1)
    prune = below(4) == 0
    all = below(8) == 0
    limit = !bounded && below(4) == 0 ? 5 : 0
    now = live[cursor]
    if (all) wanted = either(wanted, now)
    keep = up(both(essential, now))
    kept = nothing
    if (mode == "u" && prune) {
        target = either(up(wanted), keep)
        kept = less(both(essential, now), up(wanted))
    } else if (mode == "u") target = either(now, up(wanted))
    else if (mode == "d") {
        target = less(now, less(down(wanted), keep))
        kept = both(both(essential, now), down(wanted))
    } else target = less(now, down(wanted))
    carry_out(target, limit)
    refusal = spoiled(limit)
    if (prune && mode != "u") refusal = "PruneNeedsUp"
    else if (unknown != "") refusal = "Unknown " unknown
    mode = "-" mode (prune ? "p" : "") (all ? "a" : "")
    script = script_of((limit ? "-t 5 " : "") mode " change" words)
    if (refusal != "") return "refused " refusal "\n"
    copy(cursor, 0)
    live[0] = after
    go()
    return report(kept)
}
function move(way,  limit, refusal) {
    limit = !bounded && below(4) == 0 ? 5 : 0
    script = way < 0 ? "undo" : "redo"
    if (cursor + way < 1 || cursor + way > count) {
        script = script "\n"
        return "refused NothingTo" (way < 0 ? "Undo" : "Redo") "\n"
    }
    if (live[cursor + way] == live[cursor]) limit = 0
    carry_out(live[cursor + way], limit)
    refusal = spoiled(limit)
    script = script_of((limit ? "-t 5 " : "") script)
    if (refusal != "") return "refused " refusal "\n"
    step(way, after)
    return report(nothing)
}
function add(  b, words, force, is_service) {
    b = 1 + below(3)
    words = drawn_words()
    force = below(2)
    is_service = below(16) == 0
    script = "add " (force ? "-f " : "") (is_service ? "a" : bundle(b)) words "\n"
    if (is_service) return "refused IsAtomic a\n"
    if (bundles[cursor, b] != "" && !force) return "refused Exists " bundle(b) "\n"
    if (unknown != "") return "refused Unknown " unknown "\n"
    copy(cursor, 0)
    bundles[0, b] = wanted
    go()
    return "ok\n"
}
function remove(  b, words, force, missing, is_service) {
    force = below(2)
    copy(cursor, 0)
    for (b = 1; b <= 3; b++) {
        if (below(2) && (b < 3 || words != "")) continue
        words = words " " bundle(b)
        if (bundles[0, b] == "" && missing == "") missing = bundle(b)
        bundles[0, b] = ""
    }
    is_service = below(8) == 0
    script = "delete" (force ? " -f" : "") words (is_service ? " a" : "") "\n"
    if (is_service) return "refused IsAtomic a\n"
    if (missing != "" && !force) return "refused Missing " missing "\n"
    go()
    return "ok\n"
}

# A database of two to nine services, some of them essential, whose needs make no cycle, and no
# bundles.
function database(  turned, s, t, flag, text) {
    services = 2 + below(8)
    nothing = substr("000000000", 1, services)
    essential = some(5)
    turned = below(2)
    for (s = 1; s <= services; s++)
        for (t = 1; t <= services; t++) needs[s, t] = (turned ? t > s : t < s) && below(3) == 0
    text = "undorc-db 1\nservices " services "\n"
    for (s = 1; s <= services; s++) {
        flag = has(essential, s) ? "essential" : "plain"
        text = text "service " name(s) " longrun " flag " 0 0\nneeds"
        for (t = 1; t <= services; t++) if (needs[s, t]) text = text " " name(t)
        text = text "\nproducer -\n"
    }
    return text "bundles 0\nend\n"
}

function command(  drawn) {
    # With a bound some changes are followed by some undos, so that full lines are walked back.
    drawn = bounded && int(k / 6) % 2 ? 5 + below(4) : below(13)
    if (drawn < 5) return change()
    if (drawn < 8) return move(-1)
    if (drawn < 10) return move(1)
    return drawn < 12 ? add() : remove()
}

# The words of a run on a bounded line: services fail on their way up or down.
function bounded_words(  s, list) {
    rises = some(5)
    falls = some(3)
    for (s = 1; s <= services; s++) {
        if (has(rises, s)) list = list ",up:" name(s)
        if (has(falls, s)) list = list ",down:" name(s)
    }
    return "-x " (list == "" ? "none" : substr(list, 2))
}

BEGIN {
    for (session = 1; session <= sessions; session++) {
        printf "%s", database() > (session ".base")
        close(session ".base")
        bound = bounded ? 3 + below(3) : 0
        oldest_gone = last_gone = 0
        count = cursor = 1
        live[1] = nothing
        for (b = 1; b <= 3; b++) bundles[1, b] = ""
        scripts = answers = ""
        split_one = 0
        for (k = 1; k <= commands; k++) {
            if (bounded) {
                printf "%s\n", (k == 1 ? "-n " bound " " : "") bounded_words() > (session "." k ".words")
                close(session "." k ".words")
            }
            answers = (bounded ? "" : answers) command()
            scripts = bounded ? script "live\njournal\n" : scripts script
            printf "%s", scripts > (session "." k)
            close(session "." k)
            printf "%slive%s\n", answers, names(live[cursor], " ") (bounded ? "\nok" : "") > (session ".wanted")
            printf "%s", journal() (bounded ? "ok\n" : "") > (session ".wanted")
        }
        close(session ".wanted")
        splits += split_one
        oldest += oldest_gone
        newest += last_gone
    }
    print bounded ? (oldest + 0) " " (newest + 0) : splits + 0
}
