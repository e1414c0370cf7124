#!/usr/bin/env bash
# How long the conversion of journals takes, and how much memory. Texts in form 1 of 16, 64 and 256
# MiB are converted, and what comes out is converted again, which has to give the same bytes. Told
# are the bytes of the text, seconds, the most memory in MiB, and both for each MiB of the text.
#
# The journals are of two kinds: each message is fetched and has its turn before the next one
# (`in turn`), or all are fetched first, which form 2 tells on one line (`in a row`). No run may
# have printed them; they fit the model and are tied, which is all that a conversion asks.
set -eu
. "$(dirname "${BASH_SOURCE[0]}")/timing.sh"

# The journals of one actor that gets so many messages, in form 1.
journals() {
    awk -v kind="$1" -v count="$2" '
        function fetch(at, i) { print at " fetch env@" i " 3 - top#0.go[0] kick " i }
        function turn(at, i) { print at " turn env@" i " handled top#1 A" }
        BEGIN {
            print "room-journal 1\ncontroller 0 default\nstart top#1 A"
            if (kind == "in turn") {
                for (i = 1; i <= count; i++) { fetch(2 * i, i); turn(2 * i + 1, i) }
            } else {
                for (i = 1; i <= count; i++) fetch(i + 1, i)
                for (i = 1; i <= count; i++) turn(count + 1 + i, i)
            }
            print "environment"
            for (i = 1; i <= count; i++) print i " post 0 3 - top#0.go[0] kick " i
            print "done"
        }'
}

# Converts a text, and tells what it took.
convert() {
    local size seconds memory
    size="$(stat -c %s "$1")"
    read -r seconds memory < <(
        { /usr/bin/time -f '%e %M' "$program" convert "$work/one.room" "$1" >"$2"; } 2>&1 | tail -n 1
    )
    echo "$size bytes: $seconds s, $(ratio "$memory" 1024 0) MiB;" \
        "a MiB: $(ratio "$(ratio "$seconds" 0.001 0)" "$(ratio "$size" 1048576 4)" 1) ms," \
        "$(ratio "$memory" "$(ratio "$size" 1024 4)" 1) MiB"
}

begin_measuring
echo "stack of a shell's program $(ulimit -s) KiB"
one_actor 'Transition i: initial -> A State A Transition k: A -> A { triggers { <kick: go> } }' >"$work/one.room"
for kind in 'in turn' 'in a row'; do
    for size in 16 64 256; do
        # The lines of a message have at most 140 bytes in texts of this size.
        journals "$kind" $((size * 1048576 / 140)) >"$work/first"
        echo "$kind, form 1, $(convert "$work/first" "$work/second")"
        echo "$kind, form 2, $(convert "$work/second" "$work/again")"
        cmp "$work/second" "$work/again"
    done
done
