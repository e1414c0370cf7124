# Completion of ./room and room for bash: source this file, or install it by `./room --install PREFIX`.
# What can stand in a place is read off the forms that `room --forms` lists.

# Whether a word is what a word of a form stands for, as far as completion needs to know.
_room_fits() {
    case "$1" in
    FORM) [[ "$2" =~ ^--(svg|dot|mermaid)$ ]] ;;
    [[:upper:]]*) return 0 ;;
    *) [ "$1" = "$2" ] ;;
    esac
}

# What may stand behind the words so far by one form, a line each. The words are the caller's.
_room_next() {
    local parts part at=0
    read -ra parts <<<"$1"
    for part in "${parts[@]}"; do
        if [ "$part" = '[OPTION' ]; then
            echo OPTION
            return
        fi
        if [ "$at" -eq "${#words[@]}" ]; then
            echo "${part//[][]/}"
            [[ "$part" == '['* ]] || return
        elif _room_fits "${part//[][]/}" "${words[at]}"; then
            at=$((at + 1))
        elif [[ "$part" != '['* ]]; then
            return
        fi
    done
}

# The words and files that are what a word of a form stands for.
_room_offers() {
    local options='--actor --signal --from --to --only-trouble --no-system'
    case "$1" in
    MODEL | INJECT | JOURNALS) compgen -f -- "$2" ;;
    PREFIX) compgen -d -- "$2" ;;
    FORM) compgen -W '--svg --dot --mermaid' -- "$2" ;;
    OPTION)
        case "${words[-1]}" in
        --actor | --signal | --from | --to) ;;
        *) compgen -W "$options" -- "$2" ;;
        esac
        ;;
    CLASS) compgen -W "$(sed -n 's/^.*ActorClass  *\([A-Za-z_0-9]*\).*/\1/p' "${words[1]}" 2>/dev/null)" -- "$2" ;;
    [[:upper:]]*) ;;
    *) compgen -W "$1" -- "$2" ;;
    esac
}

_room() {
    local words=("${COMP_WORDS[@]:1:COMP_CWORD-1}") form next
    [ -n "${_room_forms:-}" ] || _room_forms="$("${COMP_WORDS[0]/#\~/$HOME}" --forms 2>/dev/null)"
    mapfile -t COMPREPLY < <(
        while read -r form; do
            while read -r next; do
                _room_offers "$next" "${COMP_WORDS[COMP_CWORD]}"
            done < <(_room_next "$form")
        done <<<"$_room_forms" | LC_ALL=C sort -u
    )
}

complete -o filenames -F _room room ./room
