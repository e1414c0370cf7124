#!/usr/bin/env bash
# How long a chart takes for its messages: a flat one of two states, each of which leads to the
# other, and one 16 states deep, where each message leaves and enters all of them. Each is given
# 2,500, 5,000 and 10,000 messages from outside. Told are the time of the whole `room run`, least of
# five, in milliseconds; its instructions; those that a message adds to it, from half the messages to
# all; and of these the part of the run, and that of the text of the journals. (The rest is the
# reading of the message's line.)
set -eu
. "$(dirname "${BASH_SOURCE[0]}")/timing.sh"

flat='Transition i: initial -> A State A { entry { "n = n + 1;" } } State B { entry { "n = n + 1;" } }
Transition k: A -> B { triggers { <kick: go> } } Transition r: B -> A { triggers { <kick: go> } }'

# States in one another, so many, of which each message leaves and enters all.
nested() {
    local state='Transition i: initial -> S State S { entry { "n = n + 1;" }' text='' ends='' _
    for _ in $(seq 2 "$1"); do
        text="$text$state subgraph { "
        ends="$ends} } "
    done
    echo "$text$state $ends} Transition k: S -> S { triggers { <kick: go> } }"
}

# The difference of two counts for each message that was added since the last measure.
a_message() {
    ratio "$(($1 - $2))" "$((count - last_count))" 0
}

# Runs a chart over so many messages, and tells of it beside the last measure.
measure() {
    local chart="$1" count="$2" took all run text
    kicks "$count" >"$work/inject.txt"
    local words=(run "$work/$chart.room" "$work/inject.txt" --fuel 100000)
    took="$(best "$program" "${words[@]}")"
    all="$(instructions "${words[@]}")"
    run="$(instructions_in "$the_run")"
    text="$(instructions_in "$the_text")"
    printf '%-6s %9s %13s %13s %10s %8s %9s\n' "$chart" "$count" "$(milliseconds "$took")" "$all" \
        "$(a_message "$all" "$last_all")" "$(a_message "$run" "$last_run")" "$(a_message "$text" "$last_text")"
    last_all="$all" last_run="$run" last_text="$text" last_count="$count"
}

begin_measuring
one_actor "$flat" >"$work/flat.room"
one_actor "$(nested 16)" >"$work/deep.room"
printf '%-6s %9s %13s %13s %10s %8s %9s\n' chart messages milliseconds instructions a_message its_run its_text
for chart in flat deep; do
    last_all=0 last_run=0 last_text=0 last_count=0
    for count in 2500 5000 10000; do measure "$chart" "$count"; done
done
