# What the measuring scripts share; they source it. `work` is a folder of their own, removed at the
# end, and `program` the program `room` that is measured: ROOM_PROGRAM, or the proved one.
export LC_ALL=C
top="$(cd "$(dirname "${BASH_SOURCE[0]}")/.." && pwd)"
work="$(mktemp -d)"
# What very many calls write stands in memory where the system has a folder there.
in_memory="$work"
[ ! -w /dev/shm ] || in_memory="$(mktemp -d -p /dev/shm)"
trap 'rm -rf "$work" "$in_memory"' EXIT
program="${ROOM_PROGRAM:-$top/crates/room/out/room}"

# Proves and builds the program where none is named, and tells how busy the machine is.
begin_measuring() {
    [ -n "${ROOM_PROGRAM:-}" ] || "$top/room" --prove
    tell_load
}

tell_load() {
    echo "processors $(nproc), load $(cut -d ' ' -f 1-3 /proc/loadavg)"
}

# The least of five times of a command in microseconds, whatever its status.
best() {
    local least=999999999 begin took
    for _ in 1 2 3 4 5; do
        begin="${EPOCHREALTIME/./}"
        "$@" >/dev/null 2>&1 || true
        took=$((${EPOCHREALTIME/./} - begin))
        [ "$took" -ge "$least" ] || least="$took"
    done
    echo "$((least > 0 ? least : 1))"
}

# The least of five times in microseconds until a command writes its first byte.
best_first_byte() {
    local least=999999999 begin took
    for _ in 1 2 3 4 5; do
        begin="${EPOCHREALTIME/./}"
        exec 3< <("$@" 2>/dev/null)
        read -r -N 1 -u 3 _ || true
        took=$((${EPOCHREALTIME/./} - begin))
        exec 3<&-
        wait "$!" || true
        [ "$took" -ge "$least" ] || least="$took"
    done
    echo "$((least > 0 ? least : 1))"
}

# How many instructions the program takes on some words, whatever its status, as valgrind counts
# them, so that no load of the machine changes them. Its answer is left in `$work/answer`.
instructions() {
    valgrind --tool=callgrind --callgrind-out-file="$work/calls" "$program" "$@" 2>&1 >"$work/answer" |
        awk '/Collected/ { print $4 }'
}

# How many of the instructions counted last were spent in a function and in what it calls: that
# of the most among those whose names fit a regular expression; 0 where none does. (Optimisation
# may have put a function into its caller; the callers' names stand for it then.)
instructions_in() {
    callgrind_annotate --inclusive=yes --threshold=100 "$work/calls" 2>/dev/null |
        awk -v name="$1" '/^ *[0-9]/ && $0 ~ name { gsub(",", "", $1); print $1; found = 1; exit }
            END { if (!found) print 0 }'
}

# The least of five times that a peer program tells for its run, in microseconds.
peer_best() {
    for _ in 1 2 3 4 5; do "$@"; done | sed -n 's/.* run \([0-9]*\) us.*/\1/p' | sort -n | head -n 1
}

# The functions of the run, and of the text of its journals, of which the outermost is counted.
the_run='[ :]model_run::'
the_text='[ :](tied_journals|journal)::'

# The first number divided by the second, with so many places behind the point (2 without); `-`
# where the second is 0.
ratio() {
    awk -v a="$1" -v b="$2" -v places="${3:-2}" 'BEGIN {
        if (b + 0 == 0) print "-"; else printf "%.*f\n", places, a / b
    }'
}

# Microseconds as milliseconds.
milliseconds() {
    ratio "$1" 1000 "${2:-1}"
}

# A model of one actor, `top`, whose chart this is. It receives `kick` with a number at its port
# `go`, and has the attribute `n`.
one_actor() {
    cat <<MODEL
RoomModel One {
LogicalSystem L { SubSystemRef s: S }
SubSystemClass S { ActorRef top: T }
ProtocolClass G { incoming { Message kick(int32) } outgoing { } }
ActorClass T { Structure { Port go: G Attribute n: int32 } Behavior { StateMachine {
$1
} } }
}
MODEL
}

# So many lines of injections, each a `kick` of the one actor.
kicks() {
    awk -v count="$1" 'BEGIN { for (i = 1; i <= count; i++) print "top.go kick", i }'
}
