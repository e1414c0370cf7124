#!/usr/bin/env bash
# What a timer costs that expires, beside a message that is injected. Each of N actors arms a timer at
# its start, and takes a timeout, or a kick from outside, in the same way. Told are, in microseconds
# for each of the N:
#   lines     kicks, all in one part
#   settled   kicks, each in a part of its own
#   one by one  timeouts, each due at a moment of its own, within one advance
#   at once   timeouts that are all due at one moment
# They are differences of times until the first byte of the answer, which comes when the run is over,
# each the least of five; what it takes to read the lines is left out. A run without lines, in which
# the timers are armed and nothing more, is `start`, in milliseconds. Behind the times stand the
# instructions of the same, of whole runs, where valgrind is installed; here lines are read too.
#
# What a timer costs grows with the armed timers by their logarithm: so the numbers of a column are to
# stay much the same from row to row. A timeout that is alone at its moment has a part of its own, so it
# is to cost no more than a message that has one; and a timeout among those of one moment no more than a
# line among others. The last lines say so, `!` where it is more than a tenth above that.
set -eu
. "$(dirname "${BASH_SOURCE[0]}")/timing.sh"

# So many actors, each of which arms its timer with this delay. `self` is 1,048,576 times the number
# of the actor's slot, and 1, so a delay of `self / 1048576` is due at a moment of its own.
waiting() {
    awk -v actors="$1" -v delay="$2" 'BEGIN {
        print "RoomModel Waiting {\nLogicalSystem L { SubSystemRef s: S }"
        print "ProtocolClass Go { incoming { Message kick() } }"
        print "ProtocolClass PTimer { incoming { Message startTimer(int32) Message killTimer() } outgoing { Message timeout() } }"
        print "ActorClass TimingService { Interface { SPP timer: PTimer } }"
        print "ActorClass W { Structure { Port go: Go SAP clock: PTimer } Behavior { StateMachine {"
        print "Transition i: initial -> A { action { \"clock.startTimer(" delay ");\" } } State A"
        print "Transition k: A -> A { triggers { <kick: go> } }"
        print "Transition t: A -> A { triggers { <timeout: clock> } } } } }"
        print "SubSystemClass S {\nActorRef service: TimingService"
        for (k = 0; k < actors; k++) print "ActorRef r" k ": W"
        for (k = 0; k < actors; k++) print "LayerConnection ref r" k " satisfied_by service.timer"
        print "}\n}"
    }'
}

# Hands over the words of a run of a model over some injections, with as much fuel as there is.
waiting_run() {
    "$1" "$program" run "$work/$2.room" "$work/$3" --fuel 100000
}

# The instructions of such a run.
counted() {
    instructions run "$work/$1.room" "$work/$2" --fuel 100000
}

# Microseconds for each of the actors.
for_each() {
    ratio "$1" "$actors" 2
}

# Writes the models and the injections for so many actors.
write_all() {
    waiting "$1" 'self / 1048576' >"$work/apart.room"
    waiting "$1" 1 >"$work/together.room"
    awk -v actors="$1" 'BEGIN { for (k = 0; k < actors; k++) print "r" k ".go kick" }' >"$work/lines"
    awk '{ print $0 "\nsettle" }' "$work/lines" >"$work/settled"
    # A last line that is refused: all lines are read, and nothing runs.
    (cat "$work/lines" && echo nothing) >"$work/lines_faulty"
    (cat "$work/settled" && echo nothing) >"$work/settled_faulty"
    echo 'advance 5000' >"$work/advance"
    : >"$work/empty"
}

# What the run over some injections takes beyond the start and beyond reading them.
beyond() {
    echo $(($(waiting_run best_first_byte apart "$1") - start - ($(waiting_run best apart "$1_faulty") - model)))
}

# Measures the times of so many actors, and keeps them.
measure() {
    actors="$1"
    write_all "$actors"
    model="$(best "$program" check "$work/apart.room")"
    start="$(waiting_run best_first_byte apart empty)"
    lines="$(beyond lines)"
    settled="$(beyond settled)"
    apart=$(($(waiting_run best_first_byte apart advance) - start))
    at_once=$(($(waiting_run best_first_byte together advance) - $(waiting_run best_first_byte together empty)))
    printf '%6s %9s %8s %9s %11s %8s\n' "$actors" "$(milliseconds "$((start - model))")" "$(for_each "$lines")" \
        "$(for_each "$settled")" "$(for_each "$apart")" "$(for_each "$at_once")"
}

# The same in instructions.
count() {
    local none together_none
    actors="$1"
    write_all "$actors"
    none="$(counted apart empty)"
    together_none="$(counted together empty)"
    printf '%6s %9s %8s %9s %11s %8s\n' "$actors" "$none" \
        "$(for_each "$(($(counted apart lines) - none))")" \
        "$(for_each "$(($(counted apart settled) - none))")" \
        "$(for_each "$(($(counted apart advance) - none))")" \
        "$(for_each "$(($(counted together advance) - together_none))")"
}

# Tells how one time compares with another, and whether it is within so many times that.
tell_ratio() {
    awk -v a="$1" -v b="$2" -v most="$3" -v what="$4" 'BEGIN {
        printf "%s %s: %.2f times\n", (a <= most * b ? " " : "!"), what, (b > 0 ? a / b : 0)
    }'
}

begin_measuring
printf '%6s %9s %8s %9s %11s %8s\n' actors start lines settled 'one by one' 'at once'
for actors in 1000 2000 4000; do measure "$actors"; done
tell_ratio "$apart" "$settled" 1.1 'timeouts one by one, beside messages in parts of their own'
tell_ratio "$at_once" "$lines" 1.1 'timeouts at one moment, beside lines in one part'
if command -v valgrind >/dev/null; then
    echo 'instructions'
    for actors in 500 1000 4000; do count "$actors"; done
fi
tell_load
