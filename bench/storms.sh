#!/usr/bin/env bash
# Whether runs in which very much happens at once end well on a busy machine: each storm again and
# again, beside a load on every processor. Each run must end with its status and without a note, its
# journals must be lawful by `verify`, be read back by `convert` as the same bytes, and fit what is asked
# of them below (in the form of `out.lines` in cases/README.md, or byte for byte where only one is right).
# A row tells the storm, its runs, how many came out otherwise, and how many journals differed; the
# journals of a run that came out otherwise are kept, and the script fails.
#
#   bench/storms.sh             each storm 200 times, two runs at a time, beside one busy loop for each processor
#   RUNS=10 bench/storms.sh     10 times
#   LANES=1 bench/storms.sh     one run at a time
#   BUSY=0 bench/storms.sh      beside what else the machine does
#   STORMS='swaps lines' bench/storms.sh
set -eu
. "$(dirname "${BASH_SOURCE[0]}")/timing.sh"
runs="${RUNS:-200}"
busy="${BUSY:-$(nproc)}"
lanes="${LANES:-2}"

# A storm is a folder with a model, injections, and what is asked of its journals.
new_storm() {
    storm="$in_memory/$1"
    mkdir -p "$storm"
}

# 500 actors of one slot on another controller, each ended and made anew while the next line waits.
make_swaps() {
    new_storm swaps
    cp "$top"/cases/services/storm-of-swaps/{model.room,inject.txt,out.lines} "$storm"
}

# 32 controllers with an actor each, and a port for each other one on both sides: who is kicked tells all
# others, and who is told answers.
make_talk() {
    new_storm talk
    awk 'BEGIN {
        print "RoomModel Talk {\nLogicalSystem L { SubSystemRef s: S }\nSubSystemClass S { ActorRef top: T"
        for (i = 0; i < 32; i++) print "LogicalThread t" i " ActorInstanceMapping top/a" i " -> t" i
        print "}\nProtocolClass G { incoming { Message kick() } outgoing { } }"
        print "ProtocolClass P { incoming { Message tell(int32) } outgoing { Message ok(int32) } }"
        print "ActorClass A { Interface {"
        for (i = 0; i < 32; i++) print "Port i" i ": P conjugated Port o" i ": P"
        print "} Structure { Port go: G Attribute oks: int32"
        for (i = 0; i < 32; i++) print "external Port i" i " external Port o" i
        print "} Behavior { StateMachine { Transition b: initial -> N State N"
        print "Transition k: N -> N { triggers { <kick: go> } action {"
        for (i = 0; i < 32; i++) print "\"o" i ".tell(" i ");\""
        print "} }"
        for (i = 0; i < 32; i++) {
            print "Transition i" i ": N -> N { triggers { <tell: i" i "> } action \"i" i ".ok(data);\" }"
            print "Transition o" i ": N -> N { triggers { <ok: o" i "> } action \"oks = oks + 1;\" }"
        }
        print "} } }\nActorClass T { Structure {"
        for (i = 0; i < 32; i++) print "ActorRef a" i ": A"
        for (i = 0; i < 32; i++) for (j = 0; j < 32; j++) if (i != j) print "Binding a" i ".o" j " and a" j ".i" i
        print "} }\n}"
    }' >"$storm/model.room"
    seq 0 31 | sed 's/.*/top\/a&.go kick/' >"$storm/inject.txt"
    seq 0 31 | while read -r i; do
        echo "# controller $i"
        echo "# count 63 \\d+ turn (env|\\d+)@\\d+ handled top/a$i#1 N"
        echo "# count 31 \\d+ post \\d+ 3 top/a$i#1.o\\d+\\[0\\] top/a\\d+#1.i${i}\\[0\\] tell \\d+"
        echo "# count 31 \\d+ post \\d+ 3 top/a$i#1.i\\d+\\[0\\] top/a\\d+#1.o${i}\\[0\\] ok $i"
        echo "# count 1 note unbound o$i\\[0\\]"
    done >"$storm/out.lines"
}

# An actor with parts on three other controllers is made and ended until the fuel is spent, at another
# place of its end in each run.
make_spent() {
    new_storm spent
    cat >"$storm/model.room" <<'MODEL'
RoomModel Spent {
LogicalSystem L { SubSystemRef s: S }
SubSystemClass S { ActorRef top: T LogicalThread t0 LogicalThread t1 LogicalThread t2 LogicalThread t3
ActorInstanceMapping top/body/x -> t1 ActorInstanceMapping top/body/y -> t2 ActorInstanceMapping top/body/z -> t3 }
ProtocolClass G { incoming { Message kick() } outgoing { Message t() } }
ActorClass X { Interface { conjugated Port q: G } Structure { external Port q ActorRef w[3]: W }
Behavior { StateMachine { Transition i: initial -> N { action "q.kick();" } State N Transition t: N -> N { triggers { <t: q> } } } } }
ActorClass W { }
ActorClass Body { Structure { Port p[3]: G ActorRef x: X ActorRef y: X ActorRef z: X Binding p and x.q Binding p and y.q Binding p and z.q }
Behavior { StateMachine { Transition i: initial -> N State N Transition k: N -> N { triggers { <kick: p> } action "p.t();" } } } }
ActorClass T { Structure { Port go: G optional ActorRef body: Body } Behavior { StateMachine {
Transition i: initial -> A State A
Transition k: A -> A { triggers { <kick: go> } action { "incarnate body;" } }
Transition c: A -> A { triggers { <created: frame> } action { "destroy body;" } }
Transition d: A -> A { triggers { <destroyed: frame> } action { "incarnate body;" } }
} } }
}
MODEL
    echo 'top.go kick' >"$storm/inject.txt"
}

# 10,000 lines in one part, for four actors on four controllers; each hands on what it is told.
make_lines() {
    new_storm lines
    cat >"$storm/model.room" <<'MODEL'
RoomModel Lines {
LogicalSystem L { SubSystemRef s: S }
SubSystemClass S { ActorRef top: T LogicalThread t0 LogicalThread t1 LogicalThread t2 LogicalThread t3
ActorInstanceMapping top/a -> t0 ActorInstanceMapping top/b -> t1 ActorInstanceMapping top/c -> t2 ActorInstanceMapping top/d -> t3 }
ProtocolClass G { incoming { Message kick(int32) } outgoing { } }
ActorClass A { Interface { Port left: G conjugated Port right: G } Structure { external Port left external Port right Port go: G }
Behavior { StateMachine { Transition i: initial -> N State N
Transition k: N -> N { triggers { <kick: go> } action "right.kick(data);" }
Transition l: N -> N { triggers { <kick: left> } } } } }
ActorClass T { Structure { ActorRef a: A ActorRef b: A ActorRef c: A ActorRef d: A
Binding a.right and b.left Binding b.right and c.left Binding c.right and d.left Binding d.right and a.left } }
}
MODEL
    awk 'BEGIN { for (i = 1; i <= 10000; i++) print "top/" substr("abcd", i % 4 + 1, 1) ".go kick", i }' \
        >"$storm/inject.txt"
    for ((i = 0; i < 4; i++)); do
        echo "# controller $i"
        echo '# count 5000 \d+ turn (env|\d)@\d+ handled top/[abcd]#1 N'
        echo '# count 2500 \d+ post \d 3 top/[abcd]#1.right\[0\] top/[abcd]#1.left\[0\] kick \d+'
    done >"$storm/out.lines"
}

# What is wrong with the journals of a lane, beyond what is asked of them line by line: whatever is handed on
# keeps its order; whoever is spent has taken just as many turns as the fuel allows. The file `within` is
# there once the fuel ended between the wish that the actor ends and the news that it did.
judge_lines() {
    awk '$2 == "post" && $5 != "-" { if (from == $5 && $NF <= last) print "out of order: " $0; from = $5; last = $NF }' \
        "$own/journals"
}

judge_spent() {
    awk -v fuel="$1" '/^controller 0 / { own = 1 } /^controller 1 / { own = 0 } own && $2 == "turn" { turns++ }
        END { if (turns != fuel) print turns " turns, fuel " fuel; if ($0 != "spent") print "not spent" }' "$own/journals"
    if awk '$2 == "post" && $NF == "Destroy" { wished++ } $2 == "post" && $7 == "destroyed" { ended++ }
        END { exit wished == ended }' "$own/journals"; then
        : >"$storm/within"
    fi
}

# What is wrong with one run of a storm; nothing where it is well. `fuel` is that of the run.
try_run() {
    local status=0 expected=0 fuel verdict words=(run "$storm/model.room" "$storm/inject.txt")
    case "$1" in
    spent) expected=4 fuel=$((40 + $2 % 24)) words+=(--fuel "$fuel") ;;
    esac
    timeout 100 "$program" "${words[@]}" >"$own/journals" 2>"$own/notes" || status=$?
    [ "$status" = "$expected" ] || echo "status $status"
    cat "$own/notes"
    [ ! -e "$storm/out.lines" ] || awk -f "$top/.ci/lines.awk" "$storm/out.lines" "$own/journals" || true
    case "$1" in
    spent) judge_spent "$fuel" ;;
    lines) judge_lines ;;
    esac
    "$program" convert "$storm/model.room" "$own/journals" 2>&1 | cmp - "$own/journals" 2>&1 || true
    verdict="$("$program" verify "$storm/model.room" "$storm/inject.txt" "$own/journals" "${words[@]:3}" 2>&1 || true)"
    [ "$verdict" = lawful ] || echo "$verdict"
}

# The runs of one lane, in a folder of its own, which keeps what a run came to that is otherwise, and tells why.
try_lane() {
    local number own="$storm/lane.$2"
    mkdir "$own"
    for ((number = 1 + $2; number <= runs; number += lanes)); do
        try_run "$1" "$number" >"$own/told"
        cksum <"$own/journals" >>"$own/sums"
        [ -s "$own/told" ] || continue
        cp "$own/journals" "$kept/$1.$number"
        echo "    run $number of $1 (kept in $kept): $(head -n 3 "$own/told" | tr '\n' ';')" | tee -a "$own/otherwise"
    done
}

try_storm() {
    local lane working=() failed
    "make_$1"
    for ((lane = 0; lane < lanes; lane++)); do
        try_lane "$1" "$lane" &
        working+=("$!")
    done
    wait "${working[@]}"
    failed="$(cat "$storm"/lane.*/otherwise 2>/dev/null | wc -l)"
    if [ "$1" = spent ] && [ ! -e "$storm/within" ]; then
        failed=$((failed + 1))
        echo '    no run was spent while the actor ended'
    fi
    printf '%-8s %6s %10s %14s\n' "$1" "$runs" "$failed" "$(sort -u "$storm"/lane.*/sums | wc -l)"
    otherwise=$((otherwise + failed))
}

# Takes a processor's whole time, until it is stopped.
be_busy() {
    while :; do :; done
}

begin_measuring
load=()
trap '[ "${#load[@]}" -eq 0 ] || kill "${load[@]}"; rm -rf "$work" "$in_memory"' EXIT
for ((number = 0; number < busy; number++)); do
    be_busy &
    load+=("$!")
done
otherwise=0
kept="$(mktemp -d)"
printf '%-8s %6s %10s %14s\n' storm runs otherwise 'journals seen'
for name in ${STORMS:-swaps talk spent lines}; do
    try_storm "$name"
done
tell_load
echo "$otherwise otherwise"
rmdir "$kept" 2>/dev/null || true
[ "$otherwise" = 0 ]
