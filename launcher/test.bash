# The worked cases, run with the programs that answer. (Sourced by ./room.)

# The cases of a subject, or of several, in whose names the pattern stands.
cases_with() {
    local pattern="$1" folder
    shift
    for folder; do
        # The pattern may have wild cards.
        # shellcheck disable=SC2053
        [[ "${folder#"$top/cases/"}" != *$pattern* ]] || printf '%s\n' "$folder"
    done
}

# Has a script of .ci/ try some, adds what it counted, and prints what it told of those that failed.
count_tried() {
    local told last passed_here failed_here
    told="$("$@")"
    last="${told##*$'\n'}"
    read -r passed_here _ failed_here _ <<<"$last"
    [ "$told" = "$last" ] || printf '%s\n' "${told%$'\n'*}"
    passed=$((passed + passed_here))
    failed=$((failed + failed_here))
}

# Runs the cases with the programs that answer, the launcher's by itself, and lets the program judge the journals of
# runs; then the examples. The last line counts; the status is 0 where none failed.
run_tests() {
    local pattern="$1" name folder passed=0 failed=0
    local -A answers=()
    local of_room=() of_views=() of_launcher=()
    find_program room && find_program room_view || build
    for name in room room_view; do
        find_program "$name" || give_up "no program $name stands"
        answers[$name]="$(readlink -f -- "$program")"
        [ -z "$unproved" ] || export ROOM_UNPROVED=1
    done
    while IFS= read -r folder; do
        case "$folder" in
        "$top"/cases/views/*) of_views+=("$folder") ;;
        "$top"/cases/launcher/*) of_launcher+=("$folder") ;;
        *) of_room+=("$folder") ;;
        esac
    done < <(cases_with "$pattern" "$top"/cases/*/*/ | sed 's#/$##')
    if [ -z "$pattern" ]; then
        count_tried "$top/.ci/cases" "${answers[room]}"
    elif [ "${#of_room[@]}" -gt 0 ]; then
        count_tried "$top/.ci/cases" "${answers[room]}" "${of_room[@]}"
    fi
    [ "${#of_views[@]}" -eq 0 ] || count_tried "$top/.ci/cases" "${answers[room_view]}" "${of_views[@]}"
    [ "${#of_launcher[@]}" -eq 0 ] || count_tried "$top/.ci/cases" "$top/room" "${of_launcher[@]}"
    [ -n "$pattern" ] && [ "${#of_room[@]}" -eq 0 ] || count_tried "$top/.ci/verified" "${answers[room]}" "${of_room[@]}"
    [ -n "$pattern" ] || count_tried "$top/.ci/examples" "${answers[room]}"
    [ "$((passed + failed))" -gt 0 ] || say "no case has $pattern in its name"
    echo "$passed passed, $failed failed"
    [ "$failed" -eq 0 ] && [ "$passed" -gt 0 ]
}
