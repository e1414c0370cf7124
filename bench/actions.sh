#!/usr/bin/env bash
# How fast actions run and are read. An actor runs `repeat 255 { repeat 255 { n = n + 1; } }`, which
# is 65,025 additions, for each message; told are the additions of a second and the instructions of
# one, from 1 message to more. And a model with a sum of half a million ones, nearly 1 MiB of text,
# is checked, and run for one message: times of the whole program, least of five.
set -eu
. "$(dirname "${BASH_SOURCE[0]}")/timing.sh"

on_kick() {
    echo "Transition i: initial -> A State A Transition k: A -> A { triggers { <kick: go> } action { \"$1\" } }"
}

# A sum of so many ones.
sum() {
    awk -v ones="$1" 'BEGIN { printf "n = 0"; for (i = 0; i < ones; i++) printf "+1"; print ";" }'
}

# Hands over the words of a run of the model `additions` over so many messages.
with_kicks() {
    kicks "$2" >"$work/inject.txt"
    "$1" "${@:3}" run "$work/additions.room" "$work/inject.txt"
}

begin_measuring
one_actor "$(on_kick 'repeat 255 { repeat 255 { n = n + 1; } }')" >"$work/additions.room"
added=$((200 * 65025))
took=$(($(with_kicks best 201 "$program") - $(with_kicks best 1 "$program")))
echo "$added additions: $(milliseconds "$took") ms, $(ratio "$added" "$took" 1) million a second"
added=$((4 * 65025))
took=$(($(with_kicks instructions 5) - $(with_kicks instructions 1)))
echo "an addition, with its part of the two loops: $(ratio "$took" "$added" 1) instructions"

one_actor "$(on_kick "$(sum 524000)")" >"$work/sum.room"
kicks 1 >"$work/inject.txt"
echo "a sum of 524,000 ones ($(stat -c %s "$work/sum.room") bytes):" \
    "checked in $(milliseconds "$(best "$program" check "$work/sum.room")") ms," \
    "run once in $(milliseconds "$(best "$program" run "$work/sum.room" "$work/inject.txt")") ms"
