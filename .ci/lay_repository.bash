# Lays a small repository in the folder `repo`: the launcher, and sources of a line each. Cases of `launcher` that ask
# who answers source this in their file `prepare`; what they run is `room`, which knows no rt.

mkdir -p repo/crates/{room,room_view}/src repo/dist
cp -r -- "$TOP/room" "$TOP/launcher" repo/
printf 'room:\nroom_view:\n' >repo/crates.txt
echo 'Handles allowed: none.' >repo/HANDLES
echo 'fn main() {}' >repo/crates/room/src/main.rt
echo 'fn main() {}' >repo/crates/room_view/src/main.rt
cat >room <<'PAGE'
#!/bin/sh
PATH=/usr/bin:/bin exec "$(dirname "$0")/repo/room" "$@"
PAGE
chmod +x room

# Puts a program into a folder of the repository that prints a line and ends with a status.
put_program() {
    mkdir -p "repo/$1"
    printf '#!/bin/sh\necho "%s"\nexit %s\n' "$3" "${4:-0}" >"repo/$1/$2"
    chmod +x "repo/$1/$2"
}

# Writes SUMS beside the programs of a folder, as a build of the sources as they are does.
put_sums() {
    local top="$PWD/repo" name
    . repo/launcher/programs.bash
    find_sums
    for name in room room_view; do
        [ ! -f "repo/$1/$name" ] || echo "$name $(sum_of_file "repo/$1/$name")"
    done >"repo/$1/SUMS"
    printf 'sources %s\nkit a kit\n' "${sums[sources]}" >>"repo/$1/SUMS"
    rm -f "$known"
}
