#!/usr/bin/env bash
# Whether runs of several controllers, each on a thread, end well on a busy machine: all worked
# cases that run a model with more than one logical thread, again and again, beside a load on every
# processor. What each prints is judged, too: it has to be lawful (`verify`), but where the injections move
# the time on, which `verify` doesn't judge. Counts how many cases failed, and how many journals weren't
# lawful, and fails if there was one.
#
#   bench/threads.sh             200 times, beside one busy loop for each processor
#   RUNS=10 bench/threads.sh     10 times
#   BUSY=0 bench/threads.sh      beside what else the machine does
set -eu
. "$(dirname "${BASH_SOURCE[0]}")/timing.sh"
runs="${RUNS:-200}"
busy="${BUSY:-$(nproc)}"

# The cases of the program `room` that run a model with more than one thread.
threaded_cases() {
    local folder
    for folder in "$top"/cases/*/*/; do
        case "$folder" in "$top"/cases/views/* | "$top"/cases/launcher/*) continue ;; esac
        [ "$(head -n 1 "$folder/words")" = run ] || continue
        cat "$folder"/* | awk '{ threads += gsub(/LogicalThread/, "") } END { exit !(threads > 1) }' &&
            echo "${folder%/}"
    done
}

# Whether what the case of a folder prints is lawful.
is_lawful() {
    local words
    mapfile -t words <"$1/words"
    case "$(cat "$1/status")" in 0 | 4) ;; *) return 0 ;; esac
    ! grep -qs '^advance ' "$1/${words[2]}" || return 0
    (
        cd "$1"
        "$program" "${words[@]}" >"$in_memory/printed" 2>/dev/null </dev/null || true
        "$program" verify "${words[1]}" "${words[2]}" "$in_memory/printed" "${words[@]:3}" </dev/null 2>&1
    ) >"$in_memory/verdict" || true
    [ "$(cat "$in_memory/verdict")" = lawful ] && return
    echo "$1: $(cat "$in_memory/verdict")"
    return 1
}

# Takes a processor's whole time, until it is stopped.
be_busy() {
    while :; do :; done
}

begin_measuring
mapfile -t cases < <(threaded_cases)
load=()
trap '[ "${#load[@]}" -eq 0 ] || kill "${load[@]}"; rm -rf "$work" "$in_memory"' EXIT
for ((number = 0; number < busy; number++)); do
    be_busy &
    load+=("$!")
done

failed=0
unlawful=0
for _ in $(seq "$runs"); do
    "$top/.ci/cases" "$program" "${cases[@]}" >"$in_memory/told" || true
    some="$(sed -n '$s/.* passed, \([0-9]*\) failed$/\1/p' "$in_memory/told")"
    [ "$some" = 0 ] || cat "$in_memory/told"
    failed=$((failed + some))
    for folder in "${cases[@]}"; do is_lawful "$folder" || unlawful=$((unlawful + 1)); done
done
tell_load
echo "${#cases[@]} cases, $runs times: $failed failed, $unlawful not lawful"
[ "$failed" = 0 ] && [ "$unlawful" = 0 ]
