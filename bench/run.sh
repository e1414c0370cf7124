#!/usr/bin/env bash
# How fast a model runs: a ring of N actors, each of which is told 7 from outside and passes it on
# until it is 0. That is 9N messages. The actors belong to one, two or four controllers in turn, so
# each message goes to the next controller; a controller works on a thread of its own. Beside it the
# same ring runs in CAF and in Erlang, where they are installed (Debian: libcaf-dev, erlang-base),
# on as many threads; bench/peers has their programs.
#
# All times are the least of five, in milliseconds:
#   model   `room check`: the model is read, its wiring and charts are made
#   lines   the injections are read
#   start   the actors' machines are started
#   run     all messages are posted, taken and handled, and the journals kept
#   text    the journals are written
#   whole   `room run`
# From `lines` to `text` they are differences of times of whole programs, and of times until the
# first byte of the answer, which comes when the run is over; on a busy machine one may come out below
# 0. Where the program has `made N`, which makes the same ring on four controllers, runs it and writes
# a summary alone, its time is told too.
#
# At last three whole runs of the ring of 4,000 stand beside others, each with its journal, which a
# process writes to /dev/null:
#   messages     how many its journal treats
#   ms, its ms   the times of the run, and of what stands beside it
#   ratio, mark  the first of these divided by the second, and what it should be at most; `!` above
# 100,000 messages on one controller, at which a run is spent, stand beside the whole process of a
# plain Rust program that does the same work (bench/peers/tokens.rs). It reads no model; that it prints
# the same journal is tried. Four controllers stand beside what CAF takes on four threads to spawn the
# ring and to run it, as it tells itself, without a journal and without its start and end. 360,000
# messages on four controllers stand beside as many on one. A run has no fuel for those: what 88,000
# messages take there is measured, as a run of 96,000 less one of 8,000 over the same actors, and the
# time of 360,000 is that of the 8,000 and four times this.
#
# Four controllers show what they can only where four processors are free.
set -eu
. "$(dirname "${BASH_SOURCE[0]}")/timing.sh"

# The ring of so many actors on so many controllers.
ring() {
    awk -v actors="$1" -v controllers="$2" 'BEGIN {
        print "RoomModel Ring {\nLogicalSystem L { SubSystemRef s: S }"
        print "ProtocolClass Go { incoming { Message kick(int32) } }"
        print "ProtocolClass Tok { outgoing { Message tok(int32) } }"
        print "ActorClass Node {\nInterface { Port right: Tok conjugated Port left: Tok }"
        print "Structure { external Port right external Port left Port go: Go }"
        print "Behavior { StateMachine { Transition i: initial -> N State N"
        print "Transition k: N -> N { triggers { <kick: go> } action { \"right.tok(data);\" } }"
        print "Transition t: N -> N { triggers { <tok: left> } action { \"if (data > 0) { right.tok(data - 1); }\" } } } } }"
        print "SubSystemClass S {"
        for (t = 0; t < controllers; t++) print "LogicalThread t" t
        for (k = 0; k < actors; k++) print "ActorRef r" k ": Node"
        for (k = 0; k < actors; k++) print "Binding r" k ".right and r" (k + 1) % actors ".left"
        for (k = 0; k < actors; k++) print "ActorInstanceMapping r" k " -> t" k % controllers
        print "}\n}"
    }'
}

# Kicks each of so many actors with a number.
kick_all() {
    awk -v actors="$1" -v number="$2" 'BEGIN { for (k = 0; k < actors; k++) print "r" k ".go kick " number }'
}

# Runs the ring over some injections, with as much fuel as there is.
ring_run() {
    "$1" "$program" run "$work/ring.room" "$work/$2" --fuel 100000
}

# Runs a ring of so many actors on so many controllers, and sets `rate`, its messages a second.
measure() {
    local actors="$1" controllers="$2" model refused started ran whole run
    ring "$actors" "$controllers" >"$work/ring.room"
    kick_all "$actors" 7 >"$work/kicks"
    # A last line that is refused: all lines are read, and nothing runs.
    (cat "$work/kicks" && echo nothing) >"$work/faulty"
    : >"$work/empty"
    model="$(best "$program" check "$work/ring.room")"
    refused="$(ring_run best faulty)"
    started="$(ring_run best_first_byte empty)"
    ran="$(ring_run best_first_byte kicks)"
    whole="$(ring_run best kicks)"
    run=$((ran - started - (refused - model)))
    rate="$(ratio "$((actors * 9 * 1000))" "$run" 0)"
    printf '%6s %11s %7s %7s %7s %7s %7s %7s %18s\n' "$actors" "$controllers" "$(milliseconds "$model")" \
        "$(milliseconds "$((refused - model))")" "$(milliseconds "$((started - model))")" \
        "$(milliseconds "$run")" "$(milliseconds "$((whole - ran))")" "$(milliseconds "$whole")" "$rate"
}

# Tells how fast a peer's ring of 4,000 is on so many threads, beside this program's.
compare() {
    local peer="$1" threads="$2" peer_rate
    peer_rate="$(ratio 36000000 "$(peer_best "${@:3}")" 0)"
    printf '%-8s %8s %18s %18s %8s\n' "$peer" "$threads" "$peer_rate" "${rates[threads]}" \
        "$(ratio "${rates[threads]}" "$peer_rate")"
}

# Makes the ring of 4,000 on so many controllers, each actor kicked with a number, and sets `took`,
# the time of its whole run.
run_whole() {
    ring 4000 "$1" >"$work/ring.room"
    kick_all 4000 "$2" >"$work/kicks"
    took="$(ring_run best kicks)"
}

# Tells the ring made last, on so many controllers, beside the time that something else took (0 where
# it isn't there), and what their ratio should be at most.
tell_beside() {
    local controllers="$1" name="$2" other="$3" mark="$4" messages
    ring_run command kicks >"$work/journal" 2>/dev/null || true
    messages="$(grep -c ' turn ' "$work/journal" || true)"
    awk -v messages="$messages" -v controllers="$controllers" -v took="$took" -v name="$name" -v other="$other" \
        -v mark="$mark" 'BEGIN {
        theirs = other ? sprintf("%.1f", other / 1000) : "-"
        ratio = other ? sprintf("%.2f", took / other) : "-"
        above = (other && took > mark * other) ? " !" : ""
        printf "%8d %11d %8.1f  %-30s %8s %6s %5.2f%s\n", messages, controllers, took / 1000, name, theirs,
            ratio, mark, above
    }'
}

# 100,000 messages on one controller, beside the same work in plain Rust.
beside_plain() {
    run_whole 1 1000
    if ! command -v rustc >/dev/null ||
        ! rustc -O --edition 2024 -o "$work/tokens" "$top/bench/peers/tokens.rs"; then
        tell_beside 1 'rustc is not installed' 0 1
        return
    fi
    tell_beside 1 'plain Rust' "$(best "$work/tokens" 4000 "$work/kicks" 100000)" 1
    "$work/tokens" 4000 "$work/kicks" 100000 >"$work/plain"
    cmp "$work/journal" "$work/plain" || echo 'plain Rust prints another journal'
}

# The least of five times that CAF tells for spawning and running the ring on four threads, in
# microseconds.
caf_spawns_and_runs() {
    for _ in 1 2 3 4 5; do N=4000 "$work/ring_caf" --scheduler.max-threads=4; done |
        sed -n 's/.* spawn \([0-9]*\) us, run \([0-9]*\) us.*/\1 \2/p' | awk '{ print $1 + $2 }' | sort -n | head -n 1
}

# The ring of 4,000 on four controllers, beside CAF.
beside_caf() {
    run_whole 4 7
    if [ -x "$work/ring_caf" ]; then
        tell_beside 4 'CAF, spawned and run' "$(caf_spawns_and_runs)" 2
    else
        tell_beside 4 'CAF is not installed' 0 2
    fi
}

# 360,000 messages on four controllers, beside one.
beside_one() {
    local few many
    run_whole 1 0
    few="$took"
    run_whole 1 22
    many="$took"
    run_whole 4 88
    tell_beside 4 'as many on one controller' "$((few + 4 * (many - few)))" 0.6667
}

begin_measuring
printf '%6s %11s %7s %7s %7s %7s %7s %7s %18s\n' actors controllers model lines start run text whole 'thousand/s (run)'
rates=()
for controllers in 1 2 4; do
    for actors in 1000 2000 4000; do measure "$actors" "$controllers"; done
    rates[controllers]="$rate"
done
echo "4,000 actors on two controllers: $(ratio "${rates[2]}" "${rates[1]}") times as fast as on one;" \
    "on four: $(ratio "${rates[4]}" "${rates[1]}") times"
if "$program" made 4 >/dev/null 2>&1; then
    for actors in 1000 2000 4000; do
        echo "room made $actors, on four controllers: $(milliseconds "$(best "$program" made "$actors")") ms"
    done
fi
tell_load

printf '%-8s %8s %18s %18s %8s\n' peer threads 'its thousand/s' 'thousand/s here' ratio
if g++ -O2 -std=c++17 -o "$work/ring_caf" "$top/bench/peers/ring.cpp" -lcaf_core -lpthread 2>/dev/null; then
    for threads in 1 2 4; do
        N=4000 compare CAF "$threads" "$work/ring_caf" --scheduler.max-threads="$threads"
    done
else
    echo 'CAF is not installed'
fi
if command -v erlc >/dev/null && erlc -o "$work" "$top/bench/peers/ring.erl"; then
    for threads in 1 2 4; do
        compare Erlang "$threads" erl +S "$threads:$threads" -noshell -pa "$work" -s ring main 4000
    done
else
    echo 'Erlang is not installed'
fi

printf '%8s %11s %8s  %-30s %8s %6s %5s\n' messages controllers ms beside 'its ms' ratio mark
beside_plain
beside_caf
beside_one
tell_load
