# Proved programs: how they are built here, and how they come into the repository, as dist/. (Sourced by ./room.)

# --- proving ---

# Tells how far a build is, and has rt do its next step.
build_step() {
    say "$1"
    (cd "$2" && rt "$3") >"$work/log" 2>&1 </dev/null
}

build_failed() {
    tail -n 20 "$work/log" >&2
    give_up "$1"
}

# Builds a program. rt run ends with the status of the program, which refuses to run without words. What tells that
# it was built is its stamp, which rt writes last.
build_program() {
    local built="$top/crates/$2/out/$2"
    rm -f -- "$built" "$built.stamp"
    build_step "[$1] $2" "$top/crates/$2" run
    if [ ! -f "$built.stamp" ]; then
        rm -f -- "$built"
        build_failed "the program $2 was not built"
    fi
    note_proved "$2"
}

# Builds the libraries below one after another, each program behind its own. What was built stays
# built where this is cut off, and rt takes nothing that is half built.
prove() {
    stands_proved crates/room/out room && stands_proved crates/room_view/out room_view &&
        say 'the proved programs are up to date' && return
    need_rt
    make_work_folder
    trap 'say "cut off; ./room --prove goes on with the crate that was in work"; exit 130' INT TERM HUP
    local names count name at=0
    mapfile -t names < <(crates_in_order room room_view)
    count="${#names[@]}"
    for name in "${names[@]}"; do
        at=$((at + 1))
        case "$name" in
        room | room_view)
            stands_proved "crates/$name/out" "$name" || build_program "$at/$count" "$name"
            ;;
        *)
            build_step "[$at/$count] $name" "$top/crates/$name" lib ||
                build_failed "the crate $name was not proved"
            ;;
        esac
    done
    say 'the programs are proved and built'
}

# --- the programs of the repository ---

# Writes a program that was built here without its symbols, by the kit's own tool.
strip_program() {
    local kit
    kit="$(dirname -- "$(dirname -- "$(readlink -f -- "$(command -v rt)")")")"
    (exec -a llvm-strip "$kit/toolchain/bin/clang" --strip-all -o "$2" "$top/crates/$1/out/$1")
}

# The programs that dist/SUMS names.
released() {
    local name
    for name in room room_view; do
        [ -z "$(said_of "$top/dist/SUMS" "$name")" ] || echo "$name"
    done
}

# Puts one program into dist/ and tells its line of dist/SUMS.
release_program() {
    local to="$top/dist/$1"
    strip_program "$1" "$work/$1" && cp -- "$work/$1" "$to.new" && chmod 755 "$to.new" && mv -f -- "$to.new" "$to" &&
        echo "$1 $(sum_of_file "$to")"
}

# Puts the programs that were proved here from the sources as they are into dist/, with what they were made of. One
# that wasn't is left out, and told.
release() {
    local name made_by='' dist="$top/dist"
    make_work_folder
    : >"$work/SUMS"
    mkdir -p -- "$dist" || give_up 'dist/ could not be written'
    for name in room room_view; do
        if stands_proved "crates/$name/out" "$name"; then
            made_by="$(said_of "$top/crates/$name/out/SUMS" kit)"
            release_program "$name" >>"$work/SUMS" || give_up "dist/$name could not be written"
        else
            say "crates/$name/out has no program that was proved from these sources: .ci/run or ./room --prove builds it"
            rm -f -- "$dist/$name"
        fi
    done
    [ -n "$made_by" ] || give_up 'there is nothing to release'
    printf 'sources %s\nkit %s\n' "${sums[sources]}" "$made_by" >>"$work/SUMS"
    cp -- "$work/SUMS" "$dist/SUMS" || give_up 'dist/SUMS could not be written'
    say "dist/ has the proved programs of these sources: $(released | paste -s -d ' ')"
}

# Whether dist/ is what it says. Its programs have the sums of dist/SUMS; and where that tells of the sources as they
# are and of this kit, they are byte for byte those that were proved and built here.
check_release() {
    local name kit dist="$top/dist"
    if [ ! -e "$dist/SUMS" ]; then
        say 'there is no dist/SUMS: the repository has no proved programs'
        [ ! -e "$dist/room" ] && [ ! -e "$dist/room_view" ]
        return
    fi
    find_sums
    for name in room room_view; do
        [ "$(said_of "$dist/SUMS" "$name")" = "${sums[dist/$name]#-}" ] ||
            { say "dist/$name isn't the program that dist/SUMS names" && return 1; }
    done
    if [ "$(said_of "$dist/SUMS" sources)" != "${sums[sources]}" ]; then
        say 'dist/ was made of other sources; ./room --release makes it anew'
        return 0
    fi
    kit="$(said_of "$dist/SUMS" kit)"
    if ! command -v rt >/dev/null || [ "$kit" != "$(rt version)" ]; then
        say "dist/ was made with $kit, which isn't here: its sums alone were compared"
        return 0
    fi
    make_work_folder
    for name in $(released); do
        if ! stands_proved "crates/$name/out" "$name"; then
            say "no proved $name was built here: the sums of dist/ alone were compared"
            continue
        fi
        strip_program "$name" "$work/$name" && cmp -- "$work/$name" "$dist/$name" ||
            { say "dist/$name isn't the program that is built of these sources" && return 1; }
    done
}
