#!/usr/bin/env bash
# What a round of a run costs: its mailboxes are set up, a thread is started for each controller, each
# looks for messages until it has found none 64 times, and all are joined. Models with one to 32
# controllers (the most that there may be) get 500 lines from outside, each followed by `settle`, so
# that each has a round of its own. Told are the time of the whole `room run`, least of five, for each
# line, less that without lines, in microseconds; the instructions for each line (from 50 lines to
# 100), and of these those by which the mailboxes are set up.
set -eu
. "$(dirname "${BASH_SOURCE[0]}")/timing.sh"

# A model with an actor on each of so many controllers.
actors_model() {
    awk -v controllers="$1" 'BEGIN {
        print "RoomModel Rounds {\nLogicalSystem L { SubSystemRef s: S }"
        print "ProtocolClass G { incoming { Message kick() } }"
        print "ActorClass A { Structure { Port go: G } Behavior { StateMachine { Transition i: initial -> N State N"
        print "Transition k: N -> N { triggers { <kick: go> } } } } }"
        print "SubSystemClass S {"
        for (t = 0; t < controllers; t++) print "LogicalThread t" t " ActorRef a" t ": A ActorInstanceMapping a" t " -> t" t
        print "}\n}"
    }'
}

# Hands over the words of a run of so many lines, each followed by `settle`.
with_lines() {
    awk -v count="$2" 'BEGIN { for (i = 0; i < count; i++) print "a0.go kick\nsettle" }' >"$work/inject.txt"
    "$1" "${@:3}" run "$work/rounds.room" "$work/inject.txt"
}

the_set_up='[ :]model_run::run_loop::rounds::open'

begin_measuring
printf '%11s %13s %13s %10s\n' controllers microseconds instructions its_set_up
for controllers in 1 2 4 8 32; do
    actors_model "$controllers" >"$work/rounds.room"
    took=$(($(with_lines best 500 "$program") - $(with_lines best 0 "$program")))
    all="$(with_lines instructions 50)"
    set_up="$(instructions_in "$the_set_up")"
    all=$(($(with_lines instructions 100) - all))
    set_up=$(($(instructions_in "$the_set_up") - set_up))
    printf '%11s %13s %13s %10s\n' "$controllers" "$(ratio "$took" 500 1)" "$((all / 50))" "$((set_up / 50))"
done
