#!/usr/bin/env bash
# Whether every refusal of memory is answered as it should be: each allocation that the program makes
# (malloc, calloc, realloc) is refused, one in a call of the program, once alone and once with all that
# come behind it; and so is each start of a thread. A row tells the model, the words, how many calls of
# the program were tried, what was refused, and how often came
#
#   right      the answer that comes where nothing is refused
#   memory     status 5, no output, and the note `room: memory`
#   nothing    status 5 without a word: there was no memory for the arguments, so this comes only in front
#   unread     status 6, no output, and `room: read fault`: there was no memory to open a file
#   !          anything else, which is told with the number of what was refused; the script then fails
#
#   bench/refusals.sh              all processors, some minutes
#   LANES=1 bench/refusals.sh      one call of the program at a time
#   EACH=10 bench/refusals.sh      each tenth allocation
#
# Each command is tried on an exchange of two messages, an actor that is lent to one place and refused to
# another, two service points that meet by a name, the exchange between two controllers, and a timer that
# expires; then come calls that are refused anyway. A program that was compiled without proofs has an
# allocator of its own, so no allocation of it is refused.
set -eu
. "$(dirname "${BASH_SOURCE[0]}")/timing.sh"
. "$top/bench/refusing.sh"

judge() {
    if is_right; then echo right
    elif is_refusal 5 'room: memory'; then echo memory
    elif is_refusal 5 ''; then echo nothing
    elif is_refusal 6 'room: read fault'; then echo unread
    else wrong
    fi
}

# A call that ended without a word comes only before all others.
judge_together() {
    awk '$2 != "nothing" { others = 1 }
        $2 == "nothing" && others { print $1, "! nothing, behind another answer"; next } 1' \
        "$in_memory/verdicts" >"$in_memory/judged"
    mv "$in_memory/judged" "$in_memory/verdicts"
}

try_words() {
    ask "$@"
    sweep judge memory alone
    sweep judge memory behind
    sweep judge threads alone
    sweep judge threads behind
}

begin_measuring
for model in runs/ping-pong services/import-and-second-plug-refused services/second-provider-of-a-name-refused \
    runs/ping-pong-two-controllers timers/timer-expires; do
    try_each "$top/cases/$model" commands
done
for refused in examples/broken-chart-6 injections/injection-unknown-signal \
    journals/cut-before-the-last-line-refused verify/turn-missing program/made-four program/fuel-of-zero-refused; do
    mapfile -t refused_words <"$top/cases/$refused/words"
    try_words "$top/cases/$refused" "${refused_words[@]}"
done
tell_tried
