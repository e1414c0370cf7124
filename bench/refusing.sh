# What refusals.sh and failing_files.sh share, for bash to source behind timing.sh: answers of the program
# of which some calls to the system are refused (shims/refusing.c), and sweeps over all of these calls.

lanes="${LANES:-$(nproc)}"
each="${EACH:-1}"
tried=0 otherwise=0
gcc -O2 -shared -fPIC -o "$work/refusing.so" "$top/bench/shims/refusing.c"

# The words of each command on the files of a case of `run`, one list of words a line: its model, its
# injections, and as journals its output.
commands() {
    echo check model.room
    echo tree model.room
    echo run model.room inject.txt
    echo convert model.room out
    echo verify model.room inject.txt out
    if knows_show; then echo show model.room inject.txt out --at 9; fi
}

# Tries each list of words that a function tells, in a folder.
try_each() {
    local command
    while read -r -u 4 -a command; do
        try_words "$1" "${command[@]}"
    done 4< <("$2")
}

# Whether the program has the command `show`. It then misses the files.
knows_show() {
    local status=0
    "$program" show nowhere nowhere nowhere --at 0 >/dev/null 2>&1 || status=$?
    [ "$status" != 1 ]
}

# The folder and the words of the answers that follow. The right answer is the one where nothing is
# refused: `right` is its status, and its output and notes stand in `right.out` and `right.notes`.
ask() {
    cd "$1"
    words=("${@:2}")
    right=0
    run_words >"$in_memory/right.out" 2>"$in_memory/right.notes" || right=$?
}

run_words() {
    "$program" "${words[@]}" </dev/null
}

# A judge looks at an answer: its `status`; of its output whether this is the `same`, a `front` of what is right,
# or `other` (`out`), how many bytes and lines it has, and how it begins, with `|` for the end of a line
# (`out_size`, `out_lines`, `out_text`); and the same of its notes.
is_right() {
    [ "$status $out $notes" = "$right same same" ]
}

# Whether an answer is a refusal of this status, with nothing but this line of notes, or none.
is_refusal() {
    [ "$status $out_size" = "$1 0" ] && [ "$notes_text" = "${2:+$2|}" ]
}

is_front() {
    [ "$out" != other ] && [ "$notes" != other ]
}

# The verdict on an answer that is wrong; it begins with `!`.
wrong() {
    echo "! status $status, $out_size bytes of output, notes \`$notes_text\`"
}

# What a judge says of an answer whose output and notes stand in `stream.out` and `stream.notes`.
judge_stream() {
    local out notes out_size out_lines out_text notes_text
    out="$(likeness out)"
    notes="$(likeness notes)"
    out_size="$(stat -c %s "$in_memory/stream.out")"
    out_lines="$(wc -l <"$in_memory/stream.out")"
    out_text="$(head -c 200 "$in_memory/stream.out" | tr '\n' '|')"
    notes_text="$(head -c 200 "$in_memory/stream.notes" | tr '\n' '|')"
    "$1"
}

likeness() {
    if cmp -s "$in_memory/stream.$1" "$in_memory/right.$1"; then echo same
    elif head -c "$(stat -c %s "$in_memory/stream.$1")" "$in_memory/right.$1" | cmp -s - "$in_memory/stream.$1"; then
        echo front
    else echo other
    fi
}

# What can be judged only of all verdicts of a sweep; a script may have a judgement of its own.
judge_together() {
    :
}

# The answers of one lane to the words, each with a number, where calls of a kind are refused.
answers() {
    SWEEP="$2" REFUSE="$1" FIRST=$((1 + $3 * each)) STEP=$((lanes * each)) ANSWER="$in_memory/$3" RIGHT="$in_memory/right" \
        LD_PRELOAD="$work/refusing.so" run_words
}

# The numbers of the calls of one lane, each with the verdict on the answer where it is refused.
try_lane() {
    local number status out out_size out_lines out_text notes notes_size notes_lines notes_text
    answers "${@:2}" |
        while IFS=$'\037' read -r number status out out_size out_lines out_text notes notes_size notes_lines notes_text; do
            printf '%s ' "$number"
            "$1"
        done
}

# Refuses each call of a kind, `alone` or with all `behind` it, on all processors, and tells a row.
sweep() {
    local judge="$1" kind="$2" mode="$3" lane
    for ((lane = 0; lane < lanes; lane++)); do
        try_lane "$judge" "$kind" "$mode" "$lane" >"$in_memory/$lane.verdicts" &
    done
    wait
    cat "$in_memory"/*.verdicts | sort -n >"$in_memory/verdicts"
    rm "$in_memory"/*.verdicts
    judge_together "$kind" "$mode"
    tell_verdicts "$kind${TERMINAL:+ to a terminal} $mode"
}

# A row with the number of verdicts and how often each came, and below it the first wrong ones.
tell_verdicts() {
    local count
    count="$(wc -l <"$in_memory/verdicts")"
    [ "$count" -gt 0 ] || return 0
    tried=$((tried + count))
    otherwise=$((otherwise + $(grep -c '^[^ ]* !' "$in_memory/verdicts" || true)))
    printf '%-34s %-20s %6s %s:' "${PWD##*/}" "${words[*]%%.*}" "$count" "$1"
    awk '{ seen[$2]++ } END { for (v in seen) printf " %d %s", seen[v], v; print "" }' "$in_memory/verdicts"
    grep '^[^ ]* !' "$in_memory/verdicts" | head -n 20 | sed 's/^/    /' || true
}

# The last line, and the status of the script.
tell_tried() {
    tell_load
    echo "$tried tried, $otherwise otherwise"
    [ "$otherwise" = 0 ]
}
