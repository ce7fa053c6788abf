# shellcheck shell=sh
# Services of a machine, in the working directory.

# entry KIND NAME [NEED..]
entry() {
    mkdir -p "$2"
    echo "$1" > "$2/type"
    made=$2
    shift 2
    for need; do echo "$need"; done > "$made/dependencies"
}
# oneshot NAME UP DOWN [NEED..]
oneshot() {
    up=$2 down=$3 name=$1
    shift 3
    entry oneshot "$name" "$@"
    echo "$up" > "$name/up"
    [ -z "$down" ] || echo "$down" > "$name/down"
}
# longrun NAME RUN [NEED..]
longrun() {
    run=$2 name=$1
    shift 2
    entry longrun "$name" "$@"
    printf '#!/bin/sh\n%s\n' "$run" > "$name/run"
    chmod +x "$name/run"
}
# bundle NAME MEMBER..
bundle() {
    mkdir -p "$1"
    echo bundle > "$1/type"
    contents=$1/contents
    shift
    for member; do echo "$member"; done > "$contents"
}
# timeout_of MS NAME..: on the way down
timeout_of() {
    ms=$1
    shift
    for name; do echo "$ms" > "$name/timeout-down"; done
}
# pipe PRODUCER CONSUMER
pipe() {
    echo "$2" > "$1/producer-for"
    echo "$1" >> "$2/consumer-for"
}
