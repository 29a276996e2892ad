# How a script that works in a folder of its own, `room`, ends: with what it started, the folder, and a file `half` that is not whole.

room=
guard=
group=
half=

# Makes the folder, and starts a guard, which ends the rest where this script is killed and can end nothing any more. A process that has
# ended and is not yet waited for has no file that it runs.
open_room() {
    trap finish EXIT
    trap 'exit 130' INT
    trap 'exit 143' TERM
    trap 'exit 129' HUP
    room=$(mktemp -d 2>/dev/null) || { room=; return 1; }
    setsid sh -c '
        while [ -e "/proc/$1/exe" ]; do sleep 1; done
        [ ! -s "$2/group" ] || kill -s KILL -- "-$(cat -- "$2/group")"
        rm -rf -- "$2"' sh $$ "$room" >/dev/null 2>&1 </dev/null 9<&- &
    guard=$!
}

# Runs a command in a folder, in the background and in a group of its own: start FOLDER COMMAND ..
start() {
    setsid sh -c '
        echo $$ >"$1/group"
        cd -- "$2" || exit 1
        shift 2
        exec "$@"' sh "$room" "$@" </dev/null &
    group=$!
}

# Ends all that was started.
stop_group() {
    [ -z "$group" ] || kill -s KILL -- "-$group" 2>/dev/null
    group=
}

finish() {
    trap - EXIT INT TERM HUP
    stop_group
    [ -z "$guard" ] || kill -s KILL -- "-$guard" 2>/dev/null
    [ -z "$half" ] || rm -f -- "$half"
    [ -z "$room" ] || rm -rf -- "$room"
    guard=
    room=
}
