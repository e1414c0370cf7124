#!/usr/bin/env bash
# How much memory the program takes: for each kind of text of kinds.sh the most bytes that it had
# allocated at once (valgrind's dhat) on a text of SIZE bytes, and how many these are for each byte of
# it. `!` marks more than 60. Of injections the run handles one message; of journals the bytes are those of
# the answer, and the memory that of the whole run, which keeps them.
#
#   bench/memory.sh                  1 MiB, several minutes
#   SIZE=65536 bench/memory.sh
#   KINDS='chain journals' bench/memory.sh
set -eu
. "$(dirname "${BASH_SOURCE[0]}")/timing.sh"
. "$top/bench/kinds.sh"

begin_measuring
printf '%-16s %10s %14s %10s\n' kind bytes most_heap per_byte
for kind in ${KINDS:-$all_kinds}; do
    prepare "$kind" "${SIZE:-1048576}"
    heap="$(most_heap "$(program_for "$kind")" "${words[@]}")"
    mark="$([ "$((heap / bytes))" -le 60 ] || echo "!")"
    printf '%-16s %10s %14s %10s\n' "$kind" "$bytes" "$heap" "$((heap / bytes))$mark"
done
