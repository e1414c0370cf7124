# Says how an output differs from what a file `out.lines` asks for (cases/README.md), nothing where
# it fits:  awk -f lines.awk out.lines OUTPUT
# The status is 0 where it fits, 1 where not.

FNR == 1 { files++ }
files == 1 { asked[++asks] = $0; next }
/^controller [0-9]+ / { part = $1 " " $2 }
$0 == "environment" { part = $0 }
{ line[part, ++lines[part]] = $0 }

END {
    first = 1
    for (i = 1; i <= asks + 1; i++) {
        if (i <= asks && asked[i] != "# or") continue
        told = alternative(first, i - 1)
        if (told == "") exit 0
        if (answer == "") answer = told
        first = i + 1
    }
    print "out.lines: " answer
    exit 1
}

# What is wrong with the asked lines from one number to another, which are one alternative.
function alternative(from, to,    i, start, told) {
    if (from > to || !is_head(asked[from])) return "an alternative begins with no section"
    start = from
    for (i = from + 1; i <= to + 1; i++) {
        if (i <= to && !is_head(asked[i])) continue
        told = section(substr(asked[start], 3), start + 1, i - 1)
        if (told != "") return told
        start = i
    }
    return ""
}

function is_head(text) { return text ~ /^# (controller [0-9]+|environment)$/ }

# What is wrong with a part of the output, of which the asked lines of a section tell.
function section(part, from, to,    i, at, told) {
    if (!(part in lines)) return "no part `" part "`"
    for (i = from; i <= to; i++) {
        if (asked[i] ~ /^# all /) told = all(part, substr(asked[i], 7), from, to)
        else if (asked[i] ~ /^# count [0-9]+ /) told = count(part, asked[i])
        else if (asked[i] ~ /^# /) told = "unknown line `" asked[i] "`"
        else {
            for (at++; at <= lines[part] && !fits(asked[i], line[part, at]); at++) { }
            if (at > lines[part]) told = part ": no line `" asked[i] "` at its place"
        }
        if (told != "") return told
    }
    return ""
}

# All lines of the part with a prefix are asked for: as the asked ones stand in it in their order,
# it is enough that there are as many.
function all(part, prefix, from, to,    i, want, got) {
    for (i = from; i <= to; i++) if (index(asked[i], prefix) == 1) want++
    for (i = 1; i <= lines[part]; i++) if (index(line[part, i], prefix) == 1) got++
    if (want + 0 == got + 0) return ""
    return part ": " got + 0 " lines begin with `" prefix "`, expected " want + 0
}

function count(part, text,    want, regex, i, got) {
    regex = substr(text, 9)
    want = regex + 0
    sub(/^[0-9]+ /, "", regex)
    for (i = 1; i <= lines[part]; i++) if (fits("~ " regex, line[part, i])) got++
    if (want == got + 0) return ""
    return part ": " got + 0 " lines fit `" regex "`, expected " want
}

function fits(pattern, text,    regex) {
    if (pattern !~ /^~ /) return pattern == text
    regex = substr(pattern, 3)
    gsub(/\\d/, "[0-9]", regex)
    return text ~ ("^(" regex ")$")
}
