# Completion of undorc for fish, which reads it by `source`. Commands, options and queries are those
# that the program's help has, names those of the database that -b or UNDORC_DB names.

# Whether the command of the line is one of these; with none, whether there is no command yet.
function __undorc_is
    set -l words (commandline -opc)
    if test (count $argv) -eq 0
        test (count $words) -eq 1
    else
        set -q words[2]; and contains -- $words[2] $argv
    end
end

# The words of the line that are neither the command nor options and their values.
function __undorc_words
    set -l words (commandline -opc)
    set -l skip
    for word in $words[3..-1]
        if set -q skip[1]
            set -e skip[1]
        else if contains -- $words[2]$word $__undorc_valued
            set skip yes
        else if not string match -q -- '-*' $word
            echo -- $word
        end
    end
end

# The names of these kinds, as `undorc db list` has them.
function __undorc_names
    set -l base $UNDORC_DB
    set -l words (commandline -opc)
    for i in (seq 3 (count $words))
        if test $words[$i] = -b; and set -q words[(math $i + 1)]
            set base $words[(math $i + 1)]
        else if string match -q -- '-b?*' $words[$i]
            set base (string sub -s 3 -- $words[$i])
        end
    end
    set base (string replace -r -- '^~/' $HOME/ $base)
    set -l from
    test -n "$base"; and set from -b $base
    command $words[1] db $from list $argv[1] 2>/dev/null </dev/null
end

# The words that may stand behind a query, any name where it is none that is listed here; the query
# itself where there is none yet.
function __undorc_query
    set -l words (__undorc_words)
    switch "$words[1]"
        case ''
            string split ' ' -- $__undorc_queries
        case atomics dependencies all-dependencies
            __undorc_names all
    end
    test (count $words) -eq 1; or return
    switch $words[1]
        case check dot atomics dependencies all-dependencies
        case list
            string split ' ' -- 'all services oneshots longruns bundles'
        case timeout flags
            __undorc_names services
        case contents
            __undorc_names bundles
        case pipeline
            __undorc_names longruns
        case script
            __undorc_names oneshots
        case '*'
            __undorc_names all
    end
end

# Transitions that fail, joined by commas.
function __undorc_failing
    set -l front (string match -r -- '^.*,' (commandline -ct))
    test -n "$front"; or echo none
    for name in (__undorc_names services)
        echo -- "$front"up:$name
        echo -- "$front"down:$name
    end
end

# Offers an option of a command, with what its value is called, if it has one.
function __undorc_option -a command letter value about
    set -l takes
    switch "$value$letter"
        case ''$letter
        case 'FILE*'
            set takes -r -F
        case 'TEXT*'
            set takes -x -a '(__fish_complete_command)'
        case 'LIST*'
            set takes -x -a '(__undorc_failing)'
        case 'NAME*'
            set takes -x -a '(__undorc_names services)'
        case Nw
            set takes -x -a '1 2 4 8 16 32 64'
        case '*'
            set takes -x
    end
    test -n "$value"; and set -g -a __undorc_valued $command-$letter $command--$letter
    set -l is -s
    test (string length -- $letter) -eq 1; or set is -l
    complete -c undorc -n "__undorc_is $command" $is $letter $takes -d $about
end

# Offers what the help of a command has.
function __undorc_offer -a command
    for line in (undorc $command -h 2>&1 </dev/null)
        set -l option
        if set option (string match -r -- '^  -([A-Za-z]) <([A-Z]+)> +(.*)$' $line)
            __undorc_option $command $option[2] $option[3] $option[4]
        else if set option (string match -r -- '^ +--([a-z]+) <([A-Z]+)> +(.*)$' $line)
            __undorc_option $command $option[2] $option[3] $option[4]
        else if set option (string match -r -- '^  -([A-Za-z])  +(.*)$' $line)
            __undorc_option $command $option[2] '' $option[3]
        else if set option (string match -r -- '<QUERY>.*: (.*)$' $line)
            set -g __undorc_queries (string replace ' or ' ' ' -- (string replace -a ',' '' -- $option[2]))
        end
    end
end

# Offers what the help of the program has.
function __undorc_offers
    for line in (undorc -h 2>&1 </dev/null)
        if set -l command (string match -r -- '^  ([a-z]+)  +(.*)$' $line)
            complete -c undorc -n __undorc_is -a $command[2] -d $command[3]
            test $command[2] = help; or __undorc_offer $command[2]
        end
    end
end

complete -c undorc -f
complete -c undorc -s h -l help -d 'Print help'
__undorc_offers
complete -c undorc -n '__undorc_is plan change add restart status' -a '(__undorc_names all)' -d 'Name'
complete -c undorc -n '__undorc_is delete' -a '(__undorc_names bundles)' -d 'Name'
complete -c undorc -n '__undorc_is compile' -a '(__fish_complete_directories)' -d 'Source directory'
complete -c undorc -n '__undorc_is db' -a '(__undorc_query)'
