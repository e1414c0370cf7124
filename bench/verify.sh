#!/usr/bin/env bash
# How long the judgement of journals takes, and how much memory, beside their conversion. Pairs of actors tell
# each other numbers that count down, each pair on a controller of its own, and the journals of that run, in
# form 1 of 64 and of 256 MiB, and the same in form 2, are judged by `verify` and converted by `convert`, one
# after the other. A controller takes at most 99,000 turns, so larger texts are those of more controllers.
#
# Told are the bytes of the text, the processor's seconds and the most memory of both, and the ratios; behind
# them stands `!` where `verify` takes more than three times the time, or twice the memory, of `convert`, and
# the script fails. Below them stands what `show` takes at the end of the same text, and in its middle, with the
# ratios to `verify`; and `!` where at the end it takes more than 1.2 times the time, or twice the memory: it
# lets the same happen, and then prints. Each is the least of RUNS times, 3 where it isn't given.
#
#   bench/verify.sh               64 and 256 MiB
#   SIZES='2 8' bench/verify.sh   so many MiB
set -eu
. "$(dirname "${BASH_SOURCE[0]}")/timing.sh"
runs="${RUNS:-3}"
slow=

# A model of so many pairs of actors.
pairs() {
    awk -v count="$1" 'BEGIN {
        print "RoomModel Pairs {\nLogicalSystem L { SubSystemRef s: S }\nSubSystemClass S { ActorRef top: T"
        for (i = 0; i < count; i++) {
            print "LogicalThread t" i
            print "ActorInstanceMapping top/a:" i " -> t" i
            print "ActorInstanceMapping top/b:" i " -> t" i
        }
        print "}\nProtocolClass G { incoming { Message kick(int32) } outgoing { } }"
        print "ProtocolClass P { incoming { Message ping(int32) } outgoing { Message pong(int32) } }"
        print "ActorClass A { Interface { conjugated Port p: P } Structure { external Port p Port go: G }"
        print "Behavior { StateMachine { Transition i: initial -> Up State Up"
        print "Transition k: Up -> Up { triggers { <kick: go> } action { \"p.ping(data);\" } }"
        print "Transition t: Up -> Up { triggers { <pong: p guard \"data > 0\"> } action { \"p.ping(data - 1);\" } } } } }"
        print "ActorClass B { Interface { Port p: P } Structure { external Port p }"
        print "Behavior { StateMachine { Transition i: initial -> Up State Up"
        print "Transition t: Up -> Up { triggers { <ping: p guard \"data > 0\"> } action { \"p.pong(data - 1);\" } } } } }"
        print "ActorClass T { Structure { ActorRef a[" count "]: A ActorRef b[" count "]: B Binding a.p and b.p } }\n}"
    }'
}

# The journals of a text in form 2 whose fetches each name one post, in form 1.
in_first_form() {
    awk '
        FNR == 1 { pass++ }
        $1 == "controller" { party = $2 }
        $1 == "environment" { party = "env" }
        pass == 1 {
            if ($2 == "post") { message = $0; sub(/^[0-9]+ post [0-9]+ /, "", message); sent[party "@" $1] = message }
            next
        }
        FNR == 1 { print "room-journal 1"; next }
        $2 == "fetch" { print $1, $2, $3, sent[$3]; next }
        { print }' "$1" "$1"
}

# The least processor time in seconds and the most memory in KiB of the program on some words, whose answer is
# left in `$work/answer`.
measure() {
    local took=()
    for _ in $(seq "$runs"); do
        took+=("$({ /usr/bin/time -f '%U %S %M' "$program" "$@" >"$work/answer"; } 2>&1 | tail -n 1)")
    done
    printf '%s\n' "${took[@]}" | awk '
        NR == 1 || $1 + $2 < least { least = $1 + $2 }
        $3 > most { most = $3 }
        END { printf "%.2f %d\n", least, most }'
}

# Shows the system at a stamp of a text, and tells what that took beside its judgement, which is the caller's.
show_at() {
    local took space times spaces mark=
    read -r took space < <(measure show "$work/model.room" "$work/inject.txt" "$1" --at "$2")
    [ "$(tail -n 1 "$work/answer")" = end ] || mark=' not shown' slow=1
    times="$(ratio "$took" "$judged")"
    spaces="$(ratio "$space" "$room")"
    if awk -v t="$times" -v s="$spaces" 'BEGIN { exit !(t > 1.2 || s > 2) }'; then mark="$mark !" slow=1; fi
    echo "    show --at $2: $took s, $(ratio "$space" 1024 0) MiB; ratios to verify $times, $spaces$mark"
}

# A stamp in the middle of a text.
middle() {
    awk '$1 ~ /^[0-9]+$/ && $1 + 0 > last { last = $1 + 0 } END { printf "%d\n", last / 2 }' "$1"
}

# Judges, converts and shows a text of this name, and tells what it took.
judge() {
    local converted judged memory room times spaces mark=
    read -r converted memory < <(measure convert "$work/model.room" "$2")
    read -r judged room < <(measure verify "$work/model.room" "$work/inject.txt" "$2" --fuel 100000)
    [ "$(cat "$work/answer")" = lawful ] || mark=' not lawful' slow=1
    times="$(ratio "$judged" "$converted")"
    spaces="$(ratio "$room" "$memory")"
    if awk -v t="$times" -v s="$spaces" 'BEGIN { exit !(t > 3 || s > 2) }'; then mark="$mark !" slow=1; fi
    echo "$1, $(stat -c %s "$2") bytes: convert $converted s, $(ratio "$memory" 1024 0) MiB;" \
        "verify $judged s, $(ratio "$room" 1024 0) MiB; ratios $times, $spaces$mark"
    show_at "$2" 9223372036854775807
    show_at "$2" "$(middle "$2")"
}

begin_measuring
for size in ${SIZES:-64 256}; do
    # A turn has at most 168 bytes in form 1, with its fetch and its post.
    turns=$((size * 1048576 / 168))
    controllers=$(((turns + 98999) / 99000))
    pairs "$controllers" >"$work/model.room"
    for ((c = 0; c < controllers; c++)); do echo "top/a:$c.go kick $((turns / controllers - 2))"; done >"$work/inject.txt"
    "$program" run "$work/model.room" "$work/inject.txt" --fuel 100000 >"$work/second"
    in_first_form "$work/second" >"$work/first"
    judge "$controllers controllers, form 1" "$work/first"
    judge "$controllers controllers, form 2" "$work/second"
done
[ -z "$slow" ]
