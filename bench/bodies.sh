#!/usr/bin/env bash
# How long actors take to be made and ended: an actor has a body of 10, 100 or 1,000 slots (itself
# and fixed actors inside it) created, then destroyed, and so on in a chain. Told are the time of the
# run and that of the text of its journals, in which a note stands for each actor that comes up or
# goes down, in milliseconds, least of five; the instructions of both for a creation with its
# destruction (from 20 of them to 40), and of these the duties of the run: the frame service, with the
# machines that start and end. The duties of a slot should cost the same whatever the body's size. Last
# stands the time of the duties alone, which is their part of the run's instructions times its time.
#
# Where rustc is installed, the same work in plain Rust (peers/bodies.rs) is told beside it: its run in
# milliseconds, its instructions a slot, and how many times the run here takes of both. It keeps the
# same tables and the same journal, and writes no text. `boxed` gives each actor memory of its own.
set -eu
. "$(dirname "${BASH_SOURCE[0]}")/timing.sh"

# The references to so many actors inside a body, of which one reference has 250 at most.
limbs() {
    local left="$1" number=0 some
    while [ "$left" -gt 0 ]; do
        some=$((left < 250 ? left : 250))
        echo "ActorRef limb${number}[$some]: Limb"
        left=$((left - some)) number=$((number + 1))
    done
}

# A model whose actor has a body of so many slots created and destroyed as often as `kick` says.
body_model() {
    cat <<MODEL
RoomModel Bodies {
LogicalSystem L { SubSystemRef s: S }
SubSystemClass S { ActorRef top: T }
ProtocolClass G { incoming { Message kick(int32) } outgoing { } }
ActorClass Limb { }
ActorClass Body { Structure { $(limbs "$(($1 - 1))") } }
ActorClass T { Structure { Port go: G optional ActorRef body: Body Attribute n: int32 } Behavior { StateMachine {
Transition i: initial -> A State A
Transition k: A -> A { triggers { <kick: go> } action { "n = data; incarnate body;" } }
Transition c: A -> A { triggers { <created: frame> } action { "destroy body;" } }
Transition d: A -> A { triggers { <destroyed: frame> } action { "n = n - 1; if (n > 0) { incarnate body; }" } }
} } }
}
MODEL
}

# Hands over the words of a run with so many creations and destructions.
with_times() {
    echo "top.go kick $2" >"$work/inject.txt"
    "$1" "${@:3}" run "$work/bodies.room" "$work/inject.txt" --fuel 100000
}

the_duties='Actors::(frame_)?duty'

# A body of so many slots, created and destroyed so many times.
measure() {
    local slots="$1" times="$2" whole ran took run text duties
    body_model "$slots" >"$work/bodies.room"
    ran="$(with_times best_first_byte "$times" "$program")"
    whole="$(with_times best "$times" "$program")"
    took=$((ran - $(with_times best_first_byte 1 "$program")))
    with_times instructions 20 >/dev/null
    run="$(instructions_in "$the_run")"
    text="$(instructions_in "$the_text")"
    duties="$(instructions_in "$the_duties")"
    with_times instructions 40 >/dev/null
    run=$((($(instructions_in "$the_run") - run) / 20))
    text=$((($(instructions_in "$the_text") - text) / 20))
    duties=$((($(instructions_in "$the_duties") - duties) / 20))
    ran_in[slots]="$took" run_of[slots]="$run"
    printf '%5s %6s %7s %7s %8s %8s %8s %7s %19s\n' "$slots" "$times" "$(milliseconds "$took")" \
        "$(milliseconds "$((whole - ran))")" "$run" "$text" "$duties" "$(ratio "$duties" "$slots" 0)" \
        "$(milliseconds "$(ratio "$((took * duties))" "$run" 0)")"
}

# The run of the peer for a body of so many slots, and how many times that the run here takes.
compare() {
    local slots="$1" times="$2" peer_run peer_instructions
    peer_run="$(peer_best "$work/bodies" "$slots" "$times" "${@:3}")"
    peer_instructions="$(program="$work/bodies" instructions "$slots" 20 "${@:3}")"
    peer_instructions=$((($(program="$work/bodies" instructions "$slots" 40 "${@:3}") - peer_instructions) / 20))
    printf '%-6s %5s %6s %7s %7s %10s %18s\n' "${3:-plain}" "$slots" "$times" \
        "$(milliseconds "$peer_run")" "$(ratio "$peer_instructions" "$slots" 0)" \
        "$(ratio "${ran_in[$slots]}" "$peer_run")" "$(ratio "${run_of[$slots]}" "$peer_instructions")"
}

ran_in=() run_of=()
begin_measuring
printf '%5s %6s %7s %7s %8s %8s %8s %7s %19s\n' slots times run_ms text_ms run text duties a_slot duties_milliseconds
measure 10 10000
measure 100 10000
measure 1000 1000
tell_load

if command -v rustc >/dev/null && rustc -O -o "$work/bodies" "$top/bench/peers/bodies.rs"; then
    printf '%-6s %5s %6s %7s %7s %10s %18s\n' peer slots times run_ms a_slot 'time ratio' 'instruction ratio'
    for actors in '' boxed; do
        compare 10 10000 $actors
        compare 100 10000 $actors
        compare 1000 1000 $actors
    done
else
    echo 'rustc is not installed'
fi
