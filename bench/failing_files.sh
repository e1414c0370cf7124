#!/usr/bin/env bash
# Whether every failing read and write is answered as docs/STATUSES.md says. For each command, and for
# words, models, injections and journals that are refused, each call that opens, seeks or reads a file
# is refused, one in a call of the program, once alone and once with all that come behind it; and so is
# each write, to a file, which gets long pieces, and to what seems to be a terminal, which gets each line
# by itself. A row tells the model, the words, how many calls of the program were tried, what was
# refused, and how often came
#
#   right      the answer that comes where nothing fails
#   unread     status 6, no output, and `room: read fault`, or of a view a line that says which file
#   unwritten  status 7, with a front of the right output and of the right notes
#   !          anything else, which is told with the number of what was refused; the script then fails
#
# Then come a full device, closed streams and a pipe without a reader, for output and for notes; reads
# and writes of one byte each; a reader that goes away; and files that can't be read. Where the program
# `room_view` stands, the same is tried with each view; and with what the launcher itself tells, streams.
#
#   bench/failing_files.sh              all processors, some minutes
#   LANES=1 bench/failing_files.sh      one call of the program at a time
#   EACH=10 bench/failing_files.sh      each tenth call to the system
set -eu
. "$(dirname "${BASH_SOURCE[0]}")/timing.sh"
. "$top/bench/refusing.sh"

judge_right() {
    if is_right; then echo right; else wrong; fi
}

judge_read() {
    if is_right; then echo right; else judge_unread; fi
}

judge_unread() {
    if is_unread; then echo unread; else wrong; fi
}

# Whether a file is told not to have been read, and nothing else; a view tells which one.
is_unread() {
    local word
    if [ "$program" != "$views" ]; then
        is_refusal 6 'room: read fault'
        return
    fi
    [ "$status" = 6 ] && [ -z "$notes_text" ] || return
    for word in "${words[@]}"; do
        [ "$out_text" != "$word was not read|" ] || return 0
    done
    return 1
}

judge_write() {
    if [ "$status" = 7 ] && is_front; then echo unwritten; else wrong; fi
}

# At a terminal the lines before the one that was refused stand there.
judge_line() {
    if [ "$out_lines" = "$((number - 1))" ]; then judge_write; else wrong; fi
}

# The program reads models and injections again where it couldn't read them beforehand. So a failing call
# alone is told of other files only, and where all fail none of them is passed over, if all files are needed.
judge_together() {
    local unwanted=
    case "$1 $2 ${words[0]:-} $right" in
    'files alone check '* | 'files alone tree '* | 'files alone run '*) [ "$program" = "$views" ] || unwanted=unread ;;
    'files behind '*' '[04]) unwanted=right ;;
    esac
    [ -z "$unwanted" ] || sed -i "s/ $unwanted\$/ ! $unwanted/" "$in_memory/verdicts"
}

# The answer where a stream goes nowhere in one of three ways.
answer_to() {
    case "$1" in
    'output to a full device') run_words >/dev/full ;;
    'closed output') run_words >&- ;;
    'output without a reader') run_words >&"$unread" ;;
    'notes to a full device') run_words 2>/dev/full ;;
    'closed notes') run_words 2>&- ;;
    'notes without a reader') run_words 2>&"$unread" ;;
    'closed streams') "$program" "${words[@]}" <&- >&- 2>&- ;;
    esac >"$in_memory/stream.out" 2>"$in_memory/stream.notes"
}

# The statuses where streams go nowhere: 7 where there is something to be told there, else the right one.
try_streams() {
    local stream told
    for stream in 'output to a full device' 'closed output' 'output without a reader' \
        'notes to a full device' 'closed notes' 'notes without a reader' 'closed streams'; do
        case "$stream" in
        *output*) told="$(head -c 1 "$in_memory/right.out")" ;;
        *notes*) told="$(head -c 1 "$in_memory/right.notes")" ;;
        *) told="$(cat "$in_memory/right.out" "$in_memory/right.notes" | head -c 1)" ;;
        esac
        status=0
        answer_to "$stream" || status=$?
        if [ -n "$told" ]; then judge_stream judge_write; else judge_stream judge_right; fi | sed 's/^/1 /'
    done >"$in_memory/verdicts"
    tell_verdicts 'streams that go nowhere'
}

# The answer that is read and written a byte each time.
try_short() {
    status=0
    REFUSE=short LD_PRELOAD="$work/refusing.so" run_words >"$in_memory/stream.out" 2>"$in_memory/stream.notes" || status=$?
    judge_stream judge_right | sed 's/^/1 /' >"$in_memory/verdicts"
    tell_verdicts 'one byte each time'
}

# Everything that is tried with some words in a folder.
try_words() {
    ask "$@"
    sweep judge_read files alone
    sweep judge_read files behind
    sweep judge_write output alone
    sweep judge_write output behind
    if [ -s "$in_memory/right.out" ]; then
        TERMINAL=1 sweep judge_line output alone
        TERMINAL=1 sweep judge_line output behind
    fi
    try_streams
    try_short
}

# A long answer whose reader goes away behind its first byte.
try_going_reader() {
    ask "$@"
    "$program" "${words[@]}" 2>"$in_memory/stream.notes" | head -c 1 >"$in_memory/stream.out"
    status="${PIPESTATUS[0]}"
    judge_stream judge_write | sed 's/^/1 /' >"$in_memory/verdicts"
    tell_verdicts 'a reader that goes away'
}

# The words of each command, with a path in the place of each file.
words_with() {
    local command at
    while read -r -a command; do
        for at in "${!command[@]}"; do
            case "${command[at]}" in
            model.room | inject.txt | out) echo "${command[*]:0:at}" "$1" "${command[*]:at + 1}" ;;
            esac
        done
    done < <("$2")
}

# A file that can't be read, in the place of each: a folder, none, a pipe.
try_unreadable() {
    while read -r -a words; do
        status=0
        cat model.room | "$program" "${words[@]}" >"$in_memory/stream.out" 2>"$in_memory/stream.notes" || status=$?
        judge_stream judge_unread | sed 's/^/1 /'
    done < <(words_with "$1" "$2") >"$in_memory/verdicts"
    words=("$1")
    tell_verdicts 'a file that is unreadable'
}

# The words of each view, on the same files.
view_commands() {
    echo why model.room
    echo why model.room inject.txt
    echo why model.room inject.txt out
    echo doors model.room
    echo lint model.room
    echo lint model.room inject.txt
    echo wiring model.room
    echo wiring model.room --dot
    echo run model.room out --svg
    echo run model.room out --mermaid
    echo story model.room out
    echo end model.room out
    echo outputs model.room out
    echo explain model.room inject.txt out env@1
    echo diff model.room inject.txt out 0 9
    echo wiring model.room inject.txt out --at 9
}

# Everything that is tried with the views.
try_views() {
    local program="$views" model case path
    for model in runs/ping-pong runs/ping-pong-two-controllers; do
        try_each "$top/cases/$model" view_commands
        try_words "$top/cases/$model" chart model.room A
    done
    for case in chart-1 line-1-advance-alone unlawful-ended-quiet chart-without-a-class; do
        mapfile -t case_words <"$top/cases/views/$case/words"
        try_words "$top/cases/views/$case" "${case_words[@]}"
    done
    try_going_reader "$in_memory/long" story model.room out
    try_going_reader "$in_memory/long" run model.room out --svg
    cd "$top/cases/runs/ping-pong"
    for path in . nowhere /dev/stdin; do try_unreadable "$path" view_commands; done
}

# The launcher's own pages, where streams go nowhere.
try_launcher() {
    local program="$top/room" word
    cd "$top"
    for word in --help --forms --version --manual nonsense; do
        ask . "$word"
        try_streams
    done
}

views="${ROOM_VIEW_PROGRAM:-$top/crates/room_view/out/room_view}"
mkfifo "$in_memory/pipe"
exec {reader}<>"$in_memory/pipe" {unread}>"$in_memory/pipe" {reader}<&-
begin_measuring
for model in runs/ping-pong services/import-and-second-plug-refused runs/ping-pong-two-controllers timers/timer-expires; do
    try_each "$top/cases/$model" commands
done
for case in examples/broken-chart-6 injections/injection-unknown-signal journals/cut-before-the-last-line-refused \
    verify/turn-missing program/made-four program/fuel-of-zero-refused program/no-words-refused program/missing-injections \
    program/run-without-injections-refused services/made-and-ended-spent-in-a-duty; do
    mapfile -t case_words <"$top/cases/$case/words"
    try_words "$top/cases/$case" "${case_words[@]}"
done
mkdir "$in_memory/long"
one_actor 'Transition i: initial -> A State A
Transition k: A -> A { triggers { <kick: go> } action { "n = n + data;" } }' >"$in_memory/long/model.room"
kicks 1500 >"$in_memory/long/inject.txt"
try_words "$in_memory/long" run model.room inject.txt
"$program" run "$in_memory/long/model.room" "$in_memory/long/inject.txt" >"$in_memory/long/out"
try_going_reader "$in_memory/long" run model.room inject.txt
try_going_reader "$in_memory/long" convert model.room out
cd "$top/cases/runs/ping-pong"
for path in . nowhere /dev/stdin; do try_unreadable "$path" commands; done
[ ! -x "$views" ] || try_views
try_launcher
tell_tried
