# The kinds of text that front_end.sh and memory.sh measure, for bash to source behind timing.sh.

# All kinds. `long_` stands for names and paths of 200 letters and more, `chain` for mappings nested as
# deep as the text goes, each in an actor inside the one before. Of `leaves` and `teeth` each actor of a
# chain holds another one beside the next, which is empty or holds one itself.
all_kinds="references mappings nested_mappings chain bindings layers ports classes empty_classes
tight_classes derived refinements messages states transitions choices branches points subgraphs composites
attributes data_classes services long_bindings long_mappings long_chain long_leaves long_teeth long_classes
long_states long_services empty_statements assignments short_assignments dotted_assignments sends
sends_of_numbers sends_at_places ifs nested_ifs else_ifs elses filled_ifs repetitions verbs imports
registrations deferrals sums products attribute_sums dotted_sums signs signed_sums parentheses guards
injections journals read_journals"

head='RoomModel M {\nLogicalSystem L { SubSystemRef s: S }\nProtocolClass P { incoming { Message go() } outgoing { Message ok() } }\n'
top_class='SubSystemClass S { ActorRef a: A }\n'
chart="${head}${top_class}ActorClass A { Interface { Port p: P } Structure { external Port p } Behavior { StateMachine {\nTransition b: initial -> S\nState S\n"
chart_end='} } } }'
# A model of one action, between these two; its class has what statements name.
action='RoomModel M {\nLogicalSystem L { SubSystemRef s: S }\nSubSystemClass S { ActorRef a: A }
ProtocolClass P { incoming { Message go() } outgoing { Message ok() Message n(int8) } }
ActorClass B { }\nDataClass D { Attribute m: int8 }
ActorClass A { Interface { Port p: P SPP s: P }
Structure { external Port p optional ActorRef o: B imported ActorRef i: B Attribute x: int32 Attribute d: D }
Behavior { StateMachine {\nTransition b: initial -> S\nState S\nTransition t: S -> S { triggers { <go: p> } action { "'
action_end='" } }\n} } } }'
long="$(printf 'name%.0s' {1..50})"
end_class='ActorClass B { Interface { Port p: P conjugated Port q: P } Structure { external Port p external Port q } }\n'

# A text of at most so many bytes: a beginning, lines with a number each, at most so many of them,
# and an end. `#` stands for the number, `@` for the number before it.
fill() {
    awk -v most="$1" -v start="$2" -v line="$3" -v stop="$4" -v limit="${5:-1000000}" 'BEGIN {
        size = length(start) + length(stop)
        numbered = line ~ /[#@]/
        printf "%s", start
        for (i = 1; i <= limit; i++) {
            text = line
            if (numbered) {
                gsub(/#/, i, text)
                gsub(/@/, i - 1, text)
            }
            if (size + length(text) > most) break
            printf "%s", text
            size += length(text)
        }
        printf "%s", stop
    }'
}

# A chain of actors, each inside the one before, and of mappings nested as deep, of at most so many
# bytes and 4,000 deep; the references have this name.
chain() {
    awk -v most="$1" -v start="$head" -v name="$2" 'BEGIN {
        size = length(start) + 200
        depth = int((most - size) / (84 + 2 * length(name)))
        if (depth > 4000) depth = 4000
        printf start
        print "ActorClass C0 { }"
        for (i = 1; i < depth; i++) printf "ActorClass C%d { Structure { ActorRef %s: C%d } }\n", i, name, i - 1
        printf "SubSystemClass S { LogicalThread t ActorRef %s: C%d\n", name, depth - 1
        for (i = 1; i < depth; i++) printf "ActorInstanceMapping %s -> t {\n", name
        printf "ActorInstanceMapping %s -> t", name
        for (i = 1; i < depth; i++) printf " }"
        print "\n} }"
    }'
}

# A chain of actors, each inside the one before, of at most so many bytes and so many deep; each holds
# an actor of this class beside the next one, and the references have this name.
comb() {
    awk -v most="$1" -v start="$head" -v name="$2" -v beside="$3" -v limit="$4" 'BEGIN {
        size = length(start) + 300
        depth = int((most - size) / (65 + 2 * length(name)))
        if (depth > limit) depth = limit
        printf start
        print "ActorClass B { }\nActorClass T { Structure { ActorRef " name ": B } }\nActorClass C0 { }"
        for (i = 1; i < depth; i++)
            printf "ActorClass C%d { Structure { ActorRef b%s: %s ActorRef %s: C%d } }\n", i, name, beside, name, i - 1
        printf "SubSystemClass S { ActorRef %s: C%d } }", name, depth - 1
    }'
}

# Classes with nothing in them, in as few bytes as can be: names of one letter, of two, of three.
tight_classes() {
    awk -v most="$1" -v start="$2" -v stop="$3" '
    function of_length(letters, name, all, number) {
        if (letters == 0) {
            text = "ActorClass " name "{}"
            if (name ~ /^[ALMPS]$/) return
            size += length(text)
            if (size > most || ++classes > 59000) exit
            printf "%s", text
            return
        }
        all = (name == "" ? capitals : capitals small digits)
        for (number = 1; number <= length(all); number++) of_length(letters - 1, name substr(all, number, 1))
    }
    BEGIN {
        capitals = "ABCDEFGHIJKLMNOPQRSTUVWXYZ"
        small = "abcdefghijklmnopqrstuvwxyz"
        digits = "0123456789_"
        size = length(start) + length(stop)
        printf "%s", start
        for (letters = 1; letters <= 3; letters++) of_length(letters, "")
    }
    END { printf "%s", stop }'
}

# An action of at most so many bytes: a beginning, these bytes again and again, and an end.
act() { fill "$1" "$action$2" "$3" "$4$action_end" 2000000; }

# A beginning, a text 60 times, a middle, another text as often, and an end: 60 is nearly as deep as
# actions may nest.
nested() { printf '%s' "$1" "$(printf -- "$2%.0s" {1..60})" "$3" "$(printf -- "$4%.0s" {1..60})" "$5"; }

# The text of a kind, of at most so many bytes.
text_of() {
    local most="$2"
    case "$1" in
    references) fill "$most" "${head}${top_class}ActorClass B { }\nActorClass A { Structure {\n" 'ActorRef r#: B\n' '} }\n}' ;;
    mappings) fill "$most" "${head}ActorClass A { }\nSubSystemClass S { LogicalThread t\n" 'ActorRef r#: A ActorInstanceMapping r# -> t\n' '}\n}' ;;
    nested_mappings) fill "$most" "${head}ActorClass B { }\nActorClass A { Structure { ActorRef b: B } }\nSubSystemClass S { LogicalThread t\n" 'ActorRef r#: A ActorInstanceMapping r# -> t { ActorInstanceMapping b -> t }\n' '}\n}' ;;
    chain) chain "$most" a ;;
    bindings) fill "$most" "${head}${top_class}${end_class}ActorClass A { Structure { ActorRef r0: B\n" 'ActorRef r#: B Binding r#.p and r@.q\n' '} }\n}' ;;
    layers) fill "$most" "${head}${top_class}ActorClass C { Structure { SAP s: P } }\nActorClass D { Interface { SPP s: P } }\nActorClass A { Structure { ActorRef d: D\n" 'ActorRef r#: C LayerConnection ref r# satisfied_by d.s\n' '} }\n}' ;;
    ports) fill "$most" "${head}${top_class}ActorClass A { Structure {\n" 'Port p#: P\n' '} }\n}' 60000 ;;
    classes) fill "$most" "${head}${top_class}ActorClass A { }\n" 'ActorClass C# { Interface { Port p: P } Structure { external Port p ActorRef a: A } }\n' '}' 59000 ;;
    empty_classes) fill "$most" "${head}${top_class}ActorClass A { }\n" 'ActorClass C# { }\n' '}' 59000 ;;
    tight_classes) tight_classes "$most" "${head}${top_class}ActorClass A { }\n" '}' ;;
    derived) fill "$most" "${head}${top_class}ActorClass A { }\nActorClass B { Interface { Port p: P } Structure { external Port p } }\n" 'ActorClass C# extends B { Structure { ActorRef a: A } }\n' '}' 59000 ;;
    refinements)
        fill "$((most / 2))" "${head}${top_class}ActorClass B { Interface { Port p: P } Structure { external Port p } Behavior { StateMachine {\nTransition b: initial -> S\nState S\n" 'State S# Transition t#: S# -> S# { triggers { <go: p> } }\n' '} } }\n'
        fill "$((most / 2))" 'ActorClass A extends B { Behavior { StateMachine {\n' 'RefinedState S# { entry ";" } RefinedTransition t# { action ";" }\n' "$chart_end"
        ;;
    messages) fill "$most" "${head}${top_class}ActorClass A { }\nProtocolClass Q { incoming {\n" 'Message m#(int8)\n' '} } }' 60000 ;;
    states) fill "$most" "$chart" 'State S#\n' "$chart_end" 59999 ;;
    transitions) fill "$most" "$chart" 'State S# Transition t#: S# -> S# { triggers { <go: p> } }\n' "$chart_end" ;;
    choices) fill "$most" "$chart" 'ChoicePoint c# Transition t#: S -> cp c# { triggers { <go: p> } } Transition d#: cp c# -> S\n' "$chart_end" ;;
    branches) fill "$most" "${chart}ChoicePoint c Transition e: S -> cp c { triggers { <go: p> } } Transition d: cp c -> S\n" 'Transition d#: cp c -> S { cond { "1" } }\n' "$chart_end" ;;
    points) fill "$most" "$chart" 'TransitionPoint q# Transition t#: my q# -> S { triggers { <go: p> } }\n' "$chart_end" ;;
    subgraphs) fill "$most" "$chart" 'State S# { subgraph { Transition b: initial -> S State S } }\n' "$chart_end" ;;
    composites) fill "$most" "$chart" 'State S# { subgraph { Transition b: initial -> S State S EntryPoint in ExitPoint out Transition f: my in -> S Transition l: S -> my out { triggers { <go: p> } } } } Transition t#: S -> in of S# { triggers { <go: p> } } Transition o#: out of S# -> S\n' "$chart_end" ;;
    attributes) fill "$most" "${head}${top_class}ActorClass A { Structure {\n" 'Attribute an_attribute_with_a_longer_name_#: int8 = 1\n' '} }\n}' 4096 ;;
    data_classes) fill "$most" "${head}${top_class}ActorClass A { }\n" 'DataClass D# { Attribute x: int8 = 1 Attribute y: int16 }\n' '}' 59000 ;;
    services) fill "$most" "$chart" "Transition t#: S -> S { triggers { <go: p> } action { \"register p as name_#;\" } }\n" "$chart_end" ;;
    long_bindings) fill "$most" "${head}${top_class}${end_class}ActorClass A { Structure { ActorRef ${long}0: B\n" "ActorRef ${long}#: B Binding ${long}#.p and ${long}@.q\n" '} }\n}' ;;
    long_mappings) fill "$most" "${head}ActorClass B { }\nActorClass A { Structure { ActorRef ${long}: B } }\nSubSystemClass S { LogicalThread $long\n" "ActorRef ${long}#: A ActorInstanceMapping ${long}#/${long} -> ${long}\n" '}\n}' ;;
    long_chain) chain "$most" "$long" ;;
    long_leaves) comb "$most" "$long" B 2000 ;;
    long_teeth) comb "$most" "$long" T 1300 ;;
    long_classes) fill "$most" "${head}${top_class}ActorClass A { }\n" "ActorClass ${long}# { Interface { Port ${long}: P } Structure { external Port ${long} ActorRef a: A } }\n" '}' ;;
    long_states) fill "$most" "$chart" "State ${long}# Transition ${long}#: ${long}# -> ${long}# { triggers { <go: p> } }\n" "$chart_end" ;;
    long_services) fill "$most" "$chart" "Transition t#: S -> S { triggers { <go: p> } action { \"register p as ${long}#;\" } }\n" "$chart_end" ;;
    empty_statements) act "$most" '' ';' '' ;;
    assignments) act "$most" '' 'x=x+1;' '' ;;
    short_assignments) act "$most" '' 'x=x;' '' ;;
    dotted_assignments) act "$most" '' 'd.m=d.m;' '' ;;
    sends) act "$most" '' 'p.ok();' '' ;;
    sends_of_numbers) act "$most" '' 'p.n(1);' '' ;;
    sends_at_places) act "$most" '' 'p[0].ok();' '' ;;
    ifs) act "$most" '' 'if(1){}' '' ;;
    nested_ifs) act "$most" '' "$(nested '' 'if(1){' '' '}' '')" '' ;;
    else_ifs) act "$most" 'if(1){}' 'else if(1){}' '' ;;
    elses) act "$most" '' 'if(1){}else{}' '' ;;
    filled_ifs) act "$most" '' 'if(1){;}' '' ;;
    repetitions) act "$most" '' 'repeat 1{}' '' ;;
    verbs) act "$most" '' 'destroy o;' '' ;;
    imports) act "$most" '' 'import i=1;' '' ;;
    registrations) act "$most" '' 'register s as n;' '' ;;
    deferrals) act "$most" '' 'defer;' '' ;;
    sums) act "$most" 'x=1' '+1' ';' ;;
    products) act "$most" 'x=1' '+1*1' ';' ;;
    attribute_sums) act "$most" 'x=x' '+x' ';' ;;
    dotted_sums) act "$most" 'x=d.m' '+d.m' ';' ;;
    signs) act "$most" '' "$(nested 'x=' - 1 '' ';')" '' ;;
    signed_sums) act "$most" 'x=1' '+-1' ';' ;;
    parentheses) act "$most" '' "$(nested 'x=' '(' 1 ')' ';')" '' ;;
    guards) fill "$most" "$chart" 'Transition t#: S -> S { triggers { <go: p guard { "1==1" }> } }\n' "$chart_end" ;;
    *) return 1 ;;
    esac
}

# The model of one actor that counts its messages, on which injections are read and journals written.
one="$(one_actor 'Transition i: initial -> A State A
Transition k: A -> A { triggers { <kick: go> } action { "n = n + data;" } }')"

# The program that reads journals: ROOM_VIEW_PROGRAM, or the proved one.
view_program="${ROOM_VIEW_PROGRAM:-$top/crates/room_view/out/room_view}"

# The program that a kind is for.
program_for() {
    if [ "$1" = read_journals ]; then echo "$view_program"; else echo "$program"; fi
}

# The most bytes that a program had allocated at once on some words.
most_heap() {
    valgrind --tool=dhat --dhat-out-file=/dev/null "$@" 2>&1 >/dev/null |
        awk '/At t-gmax/ { gsub(",", "", $4); print $4 }'
}

# Writes the texts of a kind, of at most so many bytes: sets `words`, with which its program is run,
# and `bytes`. Of journals the bytes are those of the answer, some ten times as long as the injections.
prepare() {
    case "$1" in
    injections)
        # No fuel for a turn more than one: what is left is the reading.
        fill "$2" '' 'top.go kick # at low\n' '' 10000 >"$work/inject.txt"
        printf '%s' "$one" >"$work/model.room"
        words=(run "$work/model.room" "$work/inject.txt" --fuel 1)
        bytes="$(stat -c %s "$work/inject.txt")"
        ;;
    journals | read_journals)
        fill "$(($2 / 10))" '' 'top.go kick #\n' '' 10000 >"$work/inject.txt"
        printf '%s' "$one" >"$work/model.room"
        words=(run "$work/model.room" "$work/inject.txt" --fuel 100000)
        "$program" "${words[@]}" >"$work/journals"
        bytes="$(stat -c %s "$work/journals")"
        [ "$1" = journals ] || words=(end "$work/model.room" "$work/journals")
        ;;
    *)
        text_of "$1" "$2" >"$work/model.room"
        words=(check "$work/model.room")
        bytes="$(stat -c %s "$work/model.room")"
        ;;
    esac
}

# The instructions that a kind takes: of journals those of the writing of their text alone.
counted_of() {
    local whole
    whole="$(program="$(program_for "$1")" instructions "${words[@]}")"
    if [ "$1" = journals ]; then instructions_in "$the_text"; else echo "$whole"; fi
}
