# shellcheck shell=bash
# Completion of undorc and undorc-machine for bash, which reads it by `.`; it needs no other package.
# Commands, options and queries are those that the program's help has, names those of the database
# that -b or UNDORC_DB names, or that undorc-machine knows.

# Splits the line up to the cursor as the shell does, without expanding anything: the array `words`,
# of which the last is the one that is completed, and `quote`, the quote that is open there.
_undorc_split() {
    local text=$1 char='' word='' begun='' i
    words=() quote=''
    for ((i = 0; i < ${#text}; i++)); do
        char=${text:i:1}
        if [[ $quote ]]; then
            if [[ $char == "$quote" ]]; then quote=''; else word+=$char; fi
        elif [[ $char == [\'\"] ]]; then
            quote=$char begun=yes
        elif [[ $char == \\ ]]; then
            i=$((i + 1))
            word+=${text:i:1} begun=yes
        elif [[ $char == [[:space:]] ]]; then
            [[ ! $begun ]] || words+=("$word")
            word='' begun=''
        else
            word+=$char begun=yes
        fi
    done
    words+=("$word")
}

# Runs the program of the line with these words.
_undorc_run() {
    local program=${words[0]}
    # shellcheck disable=SC2088
    [[ $program != '~/'* ]] || program=$HOME/${program#'~/'}
    command "$program" "$@" < /dev/null
}

# Reads what the help of a command has: its options into `options`, what a value of each is called
# into `values`, and the queries, which `db` alone has, into `queries`.
_undorc_read() {
    local line flag='^  (-[[:alpha:]])  ' value='^ +(-[[:alpha:]]|--[[:alpha:]]+) <([A-Z]+)>'
    options=() values=() queries=()
    while IFS= read -r line; do
        if [[ $line =~ $value ]]; then
            options+=("${BASH_REMATCH[1]}")
            values[${BASH_REMATCH[1]}]=${BASH_REMATCH[2]}
        elif [[ $line =~ $flag ]]; then
            options+=("${BASH_REMATCH[1]}")
        elif [[ $line == *'<QUERY>'*': '* ]]; then
            line=${line##*: }
            line=${line//,/ }
            read -ra queries <<< "${line/ or / }"
        fi
    done < <(_undorc_run "$1" -h 2>&1)
    options+=(-h --help)
}

# The names of a kind, as `undorc db list` has them.
_undorc_names() {
    local base=${UNDORC_DB-} i
    for ((i = 2; i < ${#words[@]} - 1; i++)); do
        case ${words[i]} in
            -b) [[ $((i + 1)) -eq $((${#words[@]} - 1)) ]] || base=${words[i + 1]} ;;
            -b?*) base=${words[i]#-b} ;;
        esac
    done
    # shellcheck disable=SC2088
    [[ $base != '~/'* ]] || base=$HOME/${base#'~/'}
    _undorc_run db ${base:+-b "$base"} list "$1" 2> /dev/null
}

# Puts into `quoted` how a word is to stand on the line.
_undorc_quote() {
    quoted=$1
    [[ $quote ]] || printf -v quoted %q "$1"
    quoted=${quoted//\\,/,}
}

# Offers those lines of the input that begin with the word, each with this in front.
_undorc_offer() {
    local front=${1-} word=${words[-1]} name quoted
    while IFS= read -r name; do
        name=$front$name
        [[ $name != "$word"* ]] || {
            _undorc_quote "$name"
            COMPREPLY+=("$quoted")
        }
    done
}

# The words that may stand behind a query: any name, where it is none of these.
_undorc_query_words() {
    case $1 in
        check | dot) ;;
        list) printf '%s\n' all services oneshots longruns bundles ;;
        timeout | flags) _undorc_names services ;;
        contents) _undorc_names bundles ;;
        pipeline) _undorc_names longruns ;;
        script) _undorc_names oneshots ;;
        *) _undorc_names all ;;
    esac
}

# Offers transitions that fail, joined by commas.
_undorc_failing() {
    local word=${words[-1]} front='' way
    [[ $word != *,* ]] || front=${word%,*},
    [[ $front ]] || _undorc_offer < <(echo none)
    for way in up: down:; do
        if [[ $word == "$front$way"* ]]; then
            _undorc_offer "$front$way" < <(_undorc_names services)
        else
            _undorc_offer "$front" < <(echo "$way")
            compopt -o nospace 2> /dev/null
        fi
    done
}

# Offers the value of an option.
_undorc_value() {
    case ${values[$1]}$1 in
        FILE*)
            compopt -o filenames 2> /dev/null
            mapfile -t COMPREPLY < <(compgen -f -- "${words[-1]}")
            ;;
        TEXT*) mapfile -t COMPREPLY < <(compgen -c -- "${words[-1]}") ;;
        LIST*) _undorc_failing ;;
        NAME*) _undorc_offer < <(_undorc_names services) ;;
        N-w) _undorc_offer < <(printf '%s\n' 1 2 4 8 16 32 64) ;;
    esac
}

# Whether a word is an option that has a value.
_undorc_has_value() {
    [[ $1 && ${values[$1]-} ]]
}

# Offers words that are no options.
_undorc_words() {
    local command=$1 found=() i
    for ((i = 2; i < ${#words[@]} - 1; i++)); do
        if _undorc_has_value "${words[i]}"; then
            i=$((i + 1))
        elif [[ ${words[i]} != -* ]]; then
            found+=("${words[i]}")
        fi
    done
    case $command in
        compile)
            compopt -o filenames 2> /dev/null
            mapfile -t COMPREPLY < <(compgen -d -- "${words[-1]}")
            ;;
        db)
            if [[ ${#found[@]} -eq 0 ]]; then
                _undorc_offer < <(printf '%s\n' "${queries[@]}")
            else
                case ${#found[@]}:${found[0]} in
                    1:* | *:atomics | *:dependencies | *:all-dependencies)
                        _undorc_offer < <(_undorc_query_words "${found[0]}")
                        ;;
                esac
            fi
            ;;
        plan | change | add | restart | status | boot) _undorc_offer < <(_undorc_names all) ;;
        delete) _undorc_offer < <(_undorc_names bundles) ;;
        help) [[ ${#found[@]} -gt 0 ]] || _undorc_commands ;;
    esac
}

_undorc_commands() {
    _undorc_offer < <(_undorc_run -h 2>&1 | sed -n '/^Commands:/,/^$/s/^  \([a-z][a-z]*\)  .*/\1/p')
}

# Takes from the front what bash does not count to the word: up to the last character at which it
# breaks words.
_undorc_cut() {
    local word=${words[-1]} break='' front='' most='' quoted
    [[ ! $quote ]] || return
    for break in : = @; do
        [[ $word == *"$break"* && $COMP_WORDBREAKS == *"$break"* ]] || continue
        front=${word%"$break"*}$break
        [[ ${#front} -le ${#most} ]] || most=$front
    done
    [[ $most ]] || return
    _undorc_quote "$most"
    COMPREPLY=("${COMPREPLY[@]#"$quoted"}")
}

_undorc() {
    local words quote options queries
    local -A values
    COMPREPLY=()
    _undorc_split "${COMP_LINE:0:COMP_POINT}"
    local count=${#words[@]} word=${words[-1]} command=${words[1]-}
    if [[ $count -eq 2 ]]; then
        if [[ $word == -* ]]; then
            _undorc_offer < <(printf '%s\n' -h --help)
        else
            _undorc_commands
        fi
    else
        _undorc_read "$command"
        if [[ $count -gt 3 ]] && _undorc_has_value "${words[count - 2]}"; then
            _undorc_value "${words[count - 2]}"
        elif [[ $word == -* ]]; then
            _undorc_offer < <(printf '%s\n' "${options[@]}")
        else
            _undorc_words "$command"
        fi
    fi
    _undorc_cut
}

complete -F _undorc undorc undorc-machine
