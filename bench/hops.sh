#!/usr/bin/env bash
# What a message from one controller to another costs: a token goes round as many actors as there are
# controllers, each actor on one of its own, until it has made 10,000 hops. Told are the time of the
# whole `room run`, least of five, its hops a second, and the rounds that the run took, counted by the
# threads that it started (strace; `-` where that isn't installed): first ahead of other load (`chrt`,
# where that is permitted), and then beside one busy process on each processor. The same token goes
# round as many actors in CAF and in Erlang, where they are installed; bench/peers has their programs.
set -eu
. "$(dirname "${BASH_SOURCE[0]}")/timing.sh"

hops=10000

# A ring of an actor on each of so many controllers.
ring() {
    awk -v controllers="$1" 'BEGIN {
        print "RoomModel Hops {\nLogicalSystem L { SubSystemRef s: S }"
        print "ProtocolClass Go { incoming { Message kick(int32) } }"
        print "ProtocolClass Tok { outgoing { Message tok(int32) } }"
        print "ActorClass Node {\nInterface { Port right: Tok conjugated Port left: Tok }"
        print "Structure { external Port right external Port left Port go: Go }"
        print "Behavior { StateMachine { Transition i: initial -> N State N"
        print "Transition k: N -> N { triggers { <kick: go> } action { \"right.tok(data);\" } }"
        print "Transition t: N -> N { triggers { <tok: left> } action { \"if (data > 0) { right.tok(data - 1); }\" } } } } }"
        print "SubSystemClass S {"
        for (k = 0; k < controllers; k++)
            print "LogicalThread t" k " ActorRef r" k ": Node ActorInstanceMapping r" k " -> t" k
        for (k = 0; k < controllers; k++) print "Binding r" k ".right and r" (k + 1) % controllers ".left"
        print "}\n}"
    }'
}

# The rounds of a run on so many controllers: each starts a thread for every controller but one, and
# the work has a thread of its own.
rounds() {
    command -v strace >/dev/null || { echo -; return; }
    strace -f -qq -e trace=clone,clone3 -o "$work/threads" "$program" run "$work/hops.room" "$work/kick" \
        --fuel 100000 >/dev/null
    echo $((($(grep -c 'clone.*= [0-9]' "$work/threads") - 1) / ($1 - 1)))
}

# Runs the token on so many controllers behind a prefix of words, and tells it under a name.
measure() {
    local name="$1" controllers="$2" took
    ring "$controllers" >"$work/hops.room"
    took="$(best "${@:3}" "$program" run "$work/hops.room" "$work/kick" --fuel 100000)"
    printf '%-12s %11s %12s %12s %8s\n' "$name" "$controllers" "$(milliseconds "$took")" \
        "$(ratio "$((hops * 1000000))" "$took" 0)" "$(rounds "$controllers")"
}

begin_measuring
echo "r0.go kick $hops" >"$work/kick"
ahead=()
! chrt -f 10 true 2>/dev/null || ahead=(chrt -f 10)
printf '%-12s %11s %12s %12s %8s\n' load controllers milliseconds hops/s rounds
for controllers in 2 8 32; do measure ahead "$controllers" "${ahead[@]}"; done
busy=()
for _ in $(seq "$(nproc)"); do
    (while :; do :; done) &
    busy+=("$!")
done
for controllers in 2 8 32; do measure beside "$controllers"; done
kill "${busy[@]}"
wait "${busy[@]}" 2>/dev/null || true

# Tells how many hops a second a peer's token makes.
compare() {
    printf '%-12s %11s %12s\n' "$1" "$2" "$(ratio "$((hops * 1000000))" "$(peer_best "${@:3}")" 0)"
}

printf '%-12s %11s %12s\n' peer actors hops/s
if g++ -O2 -std=c++17 -o "$work/ring_caf" "$top/bench/peers/ring.cpp" -lcaf_core -lpthread 2>/dev/null; then
    for actors in 2 8 32; do TOKEN="$hops" N="$actors" compare CAF "$actors" "$work/ring_caf"; done
else
    echo 'CAF is not installed'
fi
if command -v erlc >/dev/null && erlc -o "$work" "$top/bench/peers/ring.erl"; then
    for actors in 2 8 32; do
        compare Erlang "$actors" erl -noshell -pa "$work" -s ring main "$actors" "$hops"
    done
else
    echo 'Erlang is not installed'
fi
