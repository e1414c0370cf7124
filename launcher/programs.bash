# The programs, and which of them answers. A program is proved where the file SUMS beside it has its sum and that of
# the sources as they are: whoever builds a proved program writes that file, and times of files prove nothing.
# (Sourced by ./room and .ci/run, which set `top`.)

# The sums of the sources, of their code alone, and of the programs that may stand, by their paths; `-` where there
# is nothing that can be read.
declare -A sums=()
summed=(sources code crates/room/out/room crates/room_view/out/room_view dist/room dist/room_view)
# The sums with a list of all files that they are of, so that they need not be made again while that list stays.
known="$top/out/known"

# --- sums ---

# The crates that programs are made of, each behind those that it stands on.
crates_in_order() {
    awk -v programs="$*" '
        function visit(name, list, count, i) {
            if (!(name in below) || name in seen) return
            seen[name]
            count = split(below[name], list, " ")
            for (i = 1; i <= count; i++) visit(list[i])
            print name
        }
        { sub(/#.*/, "") }
        split($0, half, ":") == 2 { split(half[1], head, " "); below[head[1]] = half[2] }
        END { tops = split(programs, top, " "); for (t = 1; t <= tops; t++) visit(top[t]) }
    ' "$top/crates.txt"
}

# The path, the size and the times of each file that a sum is of, where it is there.
list_files() {
    (cd "$top" && find crates.txt HANDLES crates/*/{src,specs,proofs} "${summed[@]:2}" -type f \
        -printf '%p %s %T@ %C@\n' 2>/dev/null) || :
}

# The sum of a list of the sums of all files in these folders, by their paths; `-` where one can't be read, which
# is told.
sum_of_folders() {
    local sum
    sum="$(set -o pipefail && cd "$top" && find "$@" -type f -print0 | LC_ALL=C sort -z | xargs -0 sha256sum |
        sha256sum)" || sum=-
    printf '%s\n' "${sum%% *}"
}

sum_of_file() {
    local sum
    { sum="$(sha256sum <"$1")"; } 2>/dev/null || sum=-
    printf '%s\n' "${sum%% *}"
}

# Makes all sums. What the two programs are proved from is crates.txt, HANDLES and all of the crates that they are
# made of.
make_sums() {
    local name part all=(crates.txt HANDLES) code=(crates.txt)
    while read -r name; do
        code+=("crates/$name/src")
        for part in src specs proofs; do
            [ ! -d "$top/crates/$name/$part" ] || all+=("crates/$name/$part")
        done
    done < <(crates_in_order room room_view)
    sums[sources]="$(sum_of_folders "${all[@]}")"
    sums[code]="$(sum_of_folders "${code[@]}" 2>/dev/null)"
    for name in "${summed[@]:2}"; do
        sums[$name]="$(sum_of_file "$top/$name")"
    done
}

# Keeps the sums with the list of files from before they were made: what changed meanwhile differs from it. Where
# nothing can be written they are made again at the next call.
keep_sums() {
    local name
    {
        mkdir -p -- "${known%/*}" && {
            for name in "${summed[@]}"; do echo "$name ${sums[$name]}"; done
            printf '%s\n' "$1"
        } >"$known.$$" && mv -f -- "$known.$$" "$known"
        rm -f -- "$known.$$"
    } 2>/dev/null
}

# Finds the sums: those that are kept where the list of files is as it was, and else makes them.
find_sums() {
    [ "${#sums[@]}" -eq 0 ] || return 0
    local name sum list lines=()
    [ ! -r "$known" ] || mapfile -t -n "${#summed[@]}" lines <"$known"
    if { printf '%s\n' "${lines[@]}" && list_files; } | cmp -s -- - "$known"; then
        for name in "${lines[@]}"; do
            sums[${name% *}]="${name##* }"
        done
    else
        list="$(list_files)"
        make_sums
        keep_sums "$list"
    fi
}

# --- who is proved ---

# What a file SUMS says: of these names, each with its line.
said_of() {
    local key value
    while read -r key value; do
        [ "$key" != "$2" ] || printf '%s\n' "$value"
    done <"$1" 2>/dev/null
}

# Whether the file SUMS beside a program of this name has its sum, which is given, and that of the sources.
is_proved() {
    local key value said='' of=''
    find_sums
    [ -f "$1/SUMS" ] && [ "$3" != - ] && [ "${sums[sources]}" != - ] || return
    while read -r key value; do
        case "$key" in
        "$2") said="$value" ;;
        sources) of="$value" ;;
        esac
    done <"$1/SUMS"
    [ "$said" = "$3" ] && [ "$of" = "${sums[sources]}" ]
}

# Whether the program of this name that stands in a folder of the repository may be run and is proved.
stands_proved() {
    find_sums
    [ -x "$top/$1/$2" ] && is_proved "$top/$1" "$2" "${sums[$1/$2]}"
}

is_of_this_system() {
    [[ "$MACHTYPE" == x86_64-*linux* ]]
}

# Why the program of this name in dist/ doesn't answer.
why_not_dist() {
    find_sums
    if [ ! -e "$top/dist/$1" ]; then
        echo "there is no dist/$1"
    elif ! is_of_this_system; then
        echo "dist/$1 is a program for Linux on x86-64"
    elif [ ! -x "$top/dist/$1" ]; then
        echo "dist/$1 may not be run"
    elif [ ! -r "$top/dist/SUMS" ]; then
        echo 'dist/SUMS, which says of what it was made, is missing'
    elif [ "$(said_of "$top/dist/SUMS" "$1")" != "${sums[dist/$1]}" ]; then
        echo "dist/$1 isn't the program that dist/SUMS names"
    elif [ "${sums[sources]}" = - ]; then
        echo 'the sources could not be read'
    else
        echo "dist/$1 was made of other sources"
    fi
}

# Writes down beside a program that was just built that it was proved from the sources as they are.
note_proved() {
    local folder="$top/crates/$1/out"
    sums=()
    find_sums
    {
        echo "$1 ${sums[crates/$1/out/$1]}"
        echo "sources ${sums[sources]}"
        echo "kit $(rt version)"
    } >"$folder/SUMS.$$" && mv -f -- "$folder/SUMS.$$" "$folder/SUMS"
}

# --- who answers ---

# Where a program is kept that was compiled without proofs of the code as it is now with the toolchain that stands.
kept_name() {
    local tools sum
    find_sums
    tools="$(dirname -- "$(readlink -f -- "$(command -v rt)")")" || return
    sum="$({ echo "${sums[code]}" && stat -c '%n %s %Y' -- "$tools"/* "$top"/launcher/{compile,tool}.bash; } | sha256sum)" || return
    printf '%s\n' "$top/crates/$1/out/unproved.${sum%% *}"
}

# The program that a word of the environment names; that it can't be run is told.
named_program() {
    local named="${!1}"
    [[ "$named" == */* ]] || named="./$named"
    if [ -d "$named" ] || [ ! -x "$named" ]; then
        give_up "$1 names no program that can be run: $named"
    fi
    printf '%s\n' "$named"
}

# Finds the program of this name that stands: the one of the environment, the proved one that was built here, the one
# of dist/, or the one that is kept without proofs. `unproved` then says why it isn't proved, where it isn't.
find_program() {
    local variable=ROOM_PROGRAM
    [ "$1" = room ] || variable=ROOM_VIEW_PROGRAM
    unproved=''
    if [ -n "${!variable:-}" ]; then
        program="$(named_program "$variable")" || exit
        is_proved "$(dirname -- "$program")" "$1" "$(sum_of_file "$program")" ||
            unproved="$variable names another one"
    elif stands_proved "crates/$1/out" "$1"; then
        program="$top/crates/$1/out/$1"
    elif is_of_this_system && stands_proved dist "$1"; then
        program="$top/dist/$1"
    else
        unproved="$(why_not_dist "$1")"
        command -v rt >/dev/null && program="$(kept_name "$1")" && [ -x "$program" ]
    fi
}

# A line on the program of this name: which one answers, whether it is proved, its sum, and the kit.
tell_program() {
    local kit=''
    if ! find_program "$1"; then
        echo "$1: none stands ($unproved); ./room --build compiles it without proofs"
        return
    fi
    if [ -z "$unproved" ]; then
        kit="$(said_of "$(dirname -- "$program")/SUMS" kit)"
        echo "$1: proved with $kit"
    else
        echo "$1: not proved ($unproved)"
    fi
    echo "    ${program#"$top/"} $(sum_of_file "$program")"
}
