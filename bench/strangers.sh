#!/usr/bin/env bash
# Whether texts that nobody wrote are answered as they should be: models, injections and journals are made
# and changed from a seed (their bytes, tokens and whole parts; strangers/), and the program is called on
# them. What begins as the files of a case that other people wrote, or as a model that is made up, is
#
#   a changed model          `check`, `tree` and, where it is accepted, `run`, whose journals are converted
#                            and judged (`verify`)
#   a made model             the same, with injections that are made for it
#   a grown model            a part of it again and again, up to a megabyte, each with a name of its own
#   a nested model           what stands around a part again and again, up to a megabyte
#   changed injections       `run`
#   changed journals         `convert` and `verify`
#   strange words            whatever they ask for
#
# Of one in three journals, those of runs among them, the system is asked for at a stamp (`show`). Where the
# program `room_view` stands, a page of the views is asked for of one model in twelve, and one of its
# journals, and a page of one in twelve of the changed journals.
#
# Wrong is a signal (SIGALRM, 14, comes after a minute); a status that docs/STATUSES.md doesn't list for the
# words, or with another note, or an offset or a line that the text doesn't have; want of memory; output
# beside a refusal; that `check`, `tree`, `run` and the views don't agree, or `convert`, `verify` and `show`;
# that journals which a run printed, or which were converted, aren't converted to the same bytes; that what
# a run printed isn't lawful, where its injections don't move the time on, or a view calls it no run; more
# memory and more time than strangers/costs.rs says, which is 60 bytes for each byte that came in or went
# out and a second for each 100 KB, beyond what the smallest model of as many controllers takes.
#
# Each call is a process of its own. It is forked from one that has loaded the program and stopped just
# before it begins (shims/measuring.c), and its files stand in memory where the system has /dev/shm: a call
# takes a quarter of the time so, and says the same.
#
#   bench/strangers.sh                        100,000 strangers of the seed 1, on all processors
#   COUNT=1000 SEED=7 bench/strangers.sh      the first 1,000 of the seed 7
#   FIRST=4711 COUNT=1 bench/strangers.sh     one of them again
#
# Told is how often each kind of stranger had each status, how many calls of each command there were and the
# time of one, and what was wrong, with the number of the stranger, whose texts are kept in a folder; then
# the script fails. SLOWER=N allows N times as much time,
# for a program that was compiled without proofs; its memory isn't measured.
set -eu
. "$(dirname "${BASH_SOURCE[0]}")/timing.sh"

# The texts of the cases that strangers are made from, but for those above 60,000 bytes: `model FILE`, `run
# MODEL INJECTIONS` or `journals MODEL INJECTIONS JOURNALS`, with tabs between, and `-` for no injections.
seeds() {
    local folder words notes
    for folder in "$top"/cases/*/*/; do
        case "$folder" in "$top"/cases/views/* | "$top"/cases/launcher/*) continue ;; esac
        mapfile -t words <"$folder/words"
        # What is no tree can hardly become one.
        notes=
        [ ! -e "$folder/notes" ] || IFS= read -r -d '' notes <"$folder/notes" || true
        case "$notes" in *'refused: byte'* | *'refused: syntax'*) continue ;; esac
        are_seeds "$folder" "${words[@]:1}" || continue
        case "${words[0]} ${#words[@]}" in
        'check 2' | 'tree 2') printf 'model\t%s\n' "$folder${words[1]}" ;;
        'run '[35])
            printf 'run\t%s\t%s\n' "$folder${words[1]}" "$folder${words[2]}"
            [ ! -s "$folder/out" ] || printf 'journals\t%s\t%s\t%s\n' "$folder${words[1]}" "$folder${words[2]}" "$folder/out"
            ;;
        'convert 3') printf 'journals\t%s\t-\t%s\n' "$folder${words[1]}" "$folder${words[2]}" ;;
        'verify '[46] | 'show 6') printf 'journals\t%s\t%s\t%s\n' "$folder${words[1]}" "$folder${words[2]}" "$folder${words[3]}" ;;
        esac
    done
}

# Whether the files that words name stand in a folder, and are short.
are_seeds() {
    local file size bytes=0 all=()
    for file in "${@:2}"; do
        case "$file" in --*) break ;; esac
        [ -f "$1$file" ] || return
        all+=("$1$file")
    done
    [ "${#all[@]}" -gt 0 ] || return
    for size in $(stat -c %s "${all[@]}"); do bytes=$((bytes + size)); done
    [ "$bytes" -lt 60000 ]
}

if ! command -v rustc >/dev/null; then
    echo 'rustc is not installed' >&2
    exit 1
fi
begin_measuring
gcc -O2 -shared -fPIC -o "$work/measuring.so" "$top/bench/shims/measuring.c"
rustc -O --edition 2024 -o "$work/strangers" "$top/bench/strangers/main.rs"
views="${ROOM_VIEW_PROGRAM:-$top/crates/room_view/out/room_view}"
[ -x "$views" ] || views=
kept="$(mktemp -d)"
began="$EPOCHSECONDS"
"$work/strangers" "$program" "$views" "$work/measuring.so" "$in_memory" "$kept" "${SEED:-1}" "${FIRST:-0}" "${COUNT:-100000}" \
    "${LANES:-$(nproc)}" "${SLOWER:-1}" < <(seeds) | tee "$work/told"
tell_load
echo "$((EPOCHSECONDS - began)) seconds"
if rmdir "$kept" 2>/dev/null; then exit 0; fi
echo "what was wrong is kept in $kept"
exit 1
