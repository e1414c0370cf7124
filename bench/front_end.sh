#!/usr/bin/env bash
# Whether the cost of a text grows with the text: for each kind of text the instructions that the
# whole program takes (counted by valgrind, so no load of the machine changes them) on a quarter, a
# half and the whole of SIZE bytes, and the ratios to the text of half the size. Where the cost is
# linear a ratio is at most 2.3; `!` marks one above it.
#
#   bench/front_end.sh                 64 KiB, a few minutes
#   SIZE=1048576 bench/front_end.sh    1 MiB
#   KINDS='states points' bench/front_end.sh
#
# Beside them stand the time of the whole program, least of five, and the most memory that it had
# allocated on the whole text, in bytes for each byte of it. Of journals only the instructions of the
# writing of their text are counted; time and memory are those of the run.
#
# Rule 25 and the limits of the wiring hold at any size: of a kind of which a model may have no more
# than so many the text is as long as they allow.
set -eu
. "$(dirname "${BASH_SOURCE[0]}")/timing.sh"
. "$top/bench/kinds.sh"

size="${SIZE:-65536}"
kinds="${KINDS:-$all_kinds}"

begin_measuring
printf '%-16s %10s %14s %8s %10s %13s %14s\n' kind bytes instructions ratio per_byte milliseconds heap_per_byte
for kind in $kinds; do
    last=0
    for part in 4 2 1; do
        prepare "$kind" "$((size / part))"
        counted="$(counted_of "$kind")"
        memory=-
        [ "$part" -gt 1 ] || memory="$(($(most_heap "$(program_for "$kind")" "${words[@]}") / bytes))"
        grown="$(ratio "$counted" "$last")"
        mark="$(awk -v r="$grown" 'BEGIN { print (r != "-" && r > 2.3) ? "!" : "" }')"
        printf '%-16s %10s %14s %8s %10s %13s %14s\n' "$kind" "$bytes" "$counted" "$grown$mark" \
            "$((counted / bytes))" "$(milliseconds "$(best "$(program_for "$kind")" "${words[@]}")")" "$memory"
        last="$counted"
    done
done
