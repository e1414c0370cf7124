#!/usr/bin/env bash
# Shows the pictures of all examples in a browser: the SVGs that `room_view` writes, and beside them
# what `dot` makes of its graphs.
#
#   bench/pictures.sh                  opens the page in the first browser that there is
#   bench/pictures.sh FOLDER           leaves it in FOLDER, as FOLDER/index.html
#
# On Debian `apt-get install graphviz chromium` has what it takes; without `dot` the page has the
# SVGs alone. ROOM_VIEW_PROGRAM names the program; without it the proved one is taken.
set -eu
export LC_ALL=C
top="$(cd "$(dirname "${BASH_SOURCE[0]}")/.." && pwd)"
view="${ROOM_VIEW_PROGRAM:-$top/crates/room_view/out/room_view}"
[ -x "$view" ] || { echo "pictures.sh: there is no program $view; ./room --prove makes it" >&2; exit 1; }
folder="${1:-$(mktemp -d)}"
mkdir -p "$folder"
page="$folder/index.html"

# A picture in both forms: its name, and the words that ask for it.
show() {
    local name="$1"
    shift
    "$view" "$@" --svg >"$folder/$name.svg"
    echo "<h3>$name</h3><p><img src=\"$name.svg\" alt=\"$name\"></p>" >>"$page"
    command -v dot >/dev/null || return 0
    "$view" "$@" --dot >"$folder/$name.dot"
    dot -Tsvg "$folder/$name.dot" >"$folder/$name.dot.svg"
    echo "<p><img src=\"$name.dot.svg\" alt=\"$name by dot\"></p>" >>"$page"
}

# The classes of a model that have a chart, which room_view tells to who names another one.
classes_of() {
    "$view" chart "$1" '' 2>&1 >/dev/null | sed -n 's/.*; it has those of //p' | sed 's/, / /g'
}

# A stamp in the middle of a journal.
middle() {
    awk '$1 ~ /^[0-9]+$/ && $1 + 0 > last { last = $1 + 0 } END { printf "%d\n", last / 2 }' "$1"
}

echo '<!DOCTYPE html><meta charset="ascii"><title>Pictures of the examples</title>' >"$page"
for model in "$top"/examples/*/model.room; do
    example="$(basename "$(dirname "$model")")"
    echo "<h2>$example</h2>" >>"$page"
    show "$example-wiring" wiring "$model"
    for class in $(classes_of "$model"); do
        show "$example-chart-$class" chart "$model" "$class"
    done
    journals="${model%/*}/journal.txt"
    [ -f "$journals" ] || continue
    show "$example-run" run "$model" "$journals"
    # how the system stood is told of no run that moved the time on
    grep -q '^advance' "${model%/*}/inject.txt" ||
        show "$example-at" wiring "$model" "${model%/*}/inject.txt" "$journals" --at "$(middle "$journals")"
done
echo "$page"
[ "$#" -eq 0 ] || exit 0
for browser in chromium firefox-esr firefox xdg-open; do
    command -v "$browser" >/dev/null && exec "$browser" "$page"
done
echo "pictures.sh: there is no browser" >&2
