#!/usr/bin/env bash
# Whether every cut text is answered as the documents say: each front of a model, of its injections, and
# of its journals in both forms, on the exchange of two messages of cases/runs/ping-pong. Told is how
# many fronts were tried, and each that is answered otherwise; the script then fails.
#
#   model        `check`, `tree` and `run`: status 2, and `byte` with the place where a string opens that
#                isn't closed, else `syntax` with the last line of the front (docs/LANGUAGE.md)
#   injections   `run`: status 3 with code 1 up to the blank, then with code 4 while the signal is cut
#                (docs/INJECTIONS.md); the front without a line, and the one without its end, run
#   journals     `convert`: status 9, and `malformed` with a place behind all whole lines, or where the
#                line `environment` isn't among these, one from the title of the last controller on
#                (docs/JOURNAL.md)
set -eu
. "$(dirname "${BASH_SOURCE[0]}")/timing.sh"
lanes="${LANES:-$(nproc)}"
each="${EACH:-1}"
model="$top/cases/runs/ping-pong/model.room"
tried=0 otherwise=0

# The note that a front of the model deserves.
note_of_model() {
    awk -v RS='\001' '{
        open = 0
        for (at = 1; at <= length($0); at++) if (substr($0, at, 1) == "\"") open = open ? 0 : at
        if (open) print "byte", open - 1; else print "syntax", 1 + gsub(/\n/, "")
        told = 1
    } END { if (!told) print "syntax", 1 }' "$1"
}

judge_model() {
    local note
    note="room: model refused: $(note_of_model "$1")"
    for word in check tree run; do
        words=("$word" "$1")
        [ "$word" != run ] || words+=("$top/cases/runs/ping-pong/inject.txt")
        expect 2 "$note"
    done
}

judge_injections() {
    words=(run "$model" "$1")
    case "$2" in
    0) expect 0 '' "$top/cases/runs/no-injections-at-all/out" ;;
    ? | 10 | 11 | 12) expect 3 "room: injections refused: line 1 $(($2 < 10 ? 1 : 4))" ;;
    *) expect 0 '' "$top/cases/runs/ping-pong/out" ;;
    esac
}

# The least place at which a front of journals may be told to be malformed. The journal of the last
# controller is taken for the environment's where the title of that is missing.
least_place() {
    awk -v size="$2" '
        { start = at; at += length($0) + 1; if (at > size) exit; whole = at }
        $1 == "controller" && !closed { least = start; within = 1 }
        $0 == "environment" { closed = 1 }
        END { print within && !closed ? least : whole + 0 }' "$1"
}

judge_journals() {
    local least told
    words=(convert "$model" "$1")
    least="$(least_place "$1" "$2")"
    answer
    told="$(sed -n 's/^room: journals refused: malformed \([0-9]*\)$/\1/p' "$1.notes")"
    if [ "$status" != 9 ] || [ -s "$1.out" ] || [ "$(wc -l <"$1.notes")" != 1 ] ||
        [ "${told:-0}" -lt "$least" ] || [ "${told:-$(($2 + 1))}" -gt "$2" ]; then
        tell_otherwise "malformed, at $least to $2"
    fi
}

answer() {
    status=0
    "$program" "${words[@]}" </dev/null >"$front.out" 2>"$front.notes" || status=$?
}

# Tells the answer to the words where it isn't this status with this note and this output.
expect() {
    answer
    if [ "$status" != "$1" ] || ! cmp -s "${3:-/dev/null}" "$front.out" ||
        [ "$(cat "$front.notes")" != "$2" ]; then
        tell_otherwise "$1 $2"
    fi
}

tell_otherwise() {
    echo "    ${words[0]}, a front of $size bytes: expected $1; status $status," \
        "$(stat -c %s "$front.out") bytes of output, $(head -n 1 "$front.notes")"
}

# The fronts of one lane.
try_lane() {
    local front="$in_memory/front.$2" size
    for ((size = $2 * each; size <= $3; size += lanes * each)); do
        head -c "$size" "$in_memory/text" >"$front"
        "$1" "$front" "$size"
    done
}

# Every front of a text up to a length, on all processors.
try_fronts() {
    local name="$1" judge="$2" most="$3" lane
    for ((lane = 0; lane < lanes; lane++)); do
        try_lane "$judge" "$lane" "$most" >"$in_memory/otherwise.$lane" &
    done
    wait
    cat "$in_memory"/otherwise.* >"$in_memory/otherwise"
    rm "$in_memory"/otherwise.*
    tried=$((tried + most / each + 1)) otherwise=$((otherwise + $(wc -l <"$in_memory/otherwise")))
    echo "$name: $((most / each + 1)) fronts, $(wc -l <"$in_memory/otherwise") otherwise"
    head -n 20 "$in_memory/otherwise"
}

begin_measuring
cp "$model" "$in_memory/text"
try_fronts model judge_model "$(($(stat -c %s "$in_memory/text") - 1))"
cp "$top/cases/runs/ping-pong/inject.txt" "$in_memory/text"
try_fronts injections judge_injections "$(stat -c %s "$in_memory/text")"
cp "$top/cases/runs/ping-pong/out" "$in_memory/text"
try_fronts 'journals in form 2' judge_journals "$(($(stat -c %s "$in_memory/text") - 1))"
cp "$top/cases/journals/ping-pong-is-converted/journals.txt" "$in_memory/text"
try_fronts 'journals in form 1' judge_journals "$(($(stat -c %s "$in_memory/text") - 1))"
tell_load
echo "$tried fronts tried, $otherwise otherwise"
[ "$otherwise" = 0 ]
