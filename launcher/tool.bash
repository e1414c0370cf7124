#!/usr/bin/env bash
# Stands in the place of clang, ld.lld and rattle in the kit that `lay_kit` lays (launcher/compile.bash). rt try has
# clang compile as fast as that goes, and links a sanitizer to what comes of it; here clang makes the code fast, as
# it does for proved programs, and nothing watches it. What is linked stays in the folder of that kit as `program`,
# and isn't run: the status 1 ends rt try. (rt try gives its tools no variables of the environment.)
set -u

laid="${0%/bin/*}"
laid="${laid%/toolchain}"

compile() {
    local word words=()
    for word; do
        case "$word" in
        -O0) words+=(-O2) ;;
        -fsanitize=address) ;;
        *) words+=("$word") ;;
        esac
    done
    exec "$laid/real/toolchain/bin/clang" "${words[@]}"
}

# The sanitizer is the one archive that is linked whole.
link() {
    local word words=() whole=''
    for word; do
        case "$word" in
        --whole-archive) whole=1 ;;
        --no-whole-archive) whole='' ;;
        *) [ -n "$whole" ] || words+=("$word") ;;
        esac
    done
    "$laid/real/toolchain/bin/ld.lld" "${words[@]}" -o "$laid/program.new" &&
        mv -f -- "$laid/program.new" "$laid/program"
    exit 1
}

case "${0##*/}" in
clang) compile "$@" ;;
ld.lld) link "$@" ;;
rattle)
    # What rt try asks of it beside the compiler is a hint on names, which would take a processor.
    [[ " $* " != *' --start '* ]] || exit 0
    exec "$laid/real/bin/rattle" "$@"
    ;;
esac
