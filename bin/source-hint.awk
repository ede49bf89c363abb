# Tells what may be wrong at the place where `compile` refuses a source. It gets the status, the line and the column, which
# count from 1 and in bytes, so LC_ALL is to be C.
#   LC_ALL=C awk -v status=20 -v line=3 -v column=7 -f bin/source-hint.awk SOURCE

function least(a, b) {
    return a < b ? a : b
}

# How many letters have to be changed, put in or taken out to make one name of another.
function distance(a, b,    i, j, row, above, kept) {
    for (j = 0; j <= length(b); j++) row[j] = j
    for (i = 1; i <= length(a); i++) {
        above = row[0]
        row[0] = i
        for (j = 1; j <= length(b); j++) {
            kept = row[j]
            row[j] = least(least(row[j], row[j - 1]) + 1, above + (substr(a, i, 1) != substr(b, j, 1)))
            above = kept
        }
    }
    return row[length(b)]
}

# The first bracket before a column that is not closed there, as "SIGN COLUMN".
function open_bracket(before,    at, sign, depth, place) {
    for (at = 1; at <= length(before); at++) {
        sign = substr(before, at, 1)
        if (index("[{<", sign)) place[++depth] = sign " " at
        else if (index("]}>", sign) && depth > 0 && substr(before, at - 1, 2) != "->") depth--
    }
    return depth > 0 ? place[1] : ""
}

# What is told of a token that has no place where it stands.
function misplaced(token, before, rest) {
    if (rest ~ /^=[ \t]*>/ || rest ~ /^-[ \t]+>/ || rest ~ /^[\200-\377]/) return ": the arrow is written ->"
    if (token ~ /^[A-Z]$/) return ": names are in small letters"
    if (token ~ /^[0-9]+$/ && before ~ /[A-Za-z0-9_\])}][ \t]*$/) return ": to repeat what stands before it, write *" token
    if (token == "-" && before ~ /[a-z0-9_]$/) return ": a name has small letters, digits and _"
    if (token ~ /^[()]$/ && before ~ /->/) return ": in a template, [ and ] hold parts together"
    return ""
}

BEGIN {
    quote = "'"
    count = split("rest self data", first, " ")
    for (at = 1; at <= count; at++) reserved[first[at]] = 1
    commands = "black red green yellow blue magenta cyan white transparent opaque empty move counterclockwise clockwise mark line fill layer compose clip"
    count = split(commands, first, " ")
    for (at = 1; at <= count; at++) command[first[at]] = 1
    for (word in reserved) known[word] = 1
    for (word in command) known[word] = 1
}

match($0, /^[ \t]*[a-z][a-z0-9_]*/) {
    word = substr($0, RSTART, RLENGTH)
    behind = substr($0, RSTART + RLENGTH)
    gsub(/[ \t]/, "", word)
    if (behind ~ /^[ \t]*:/) {
        if (NR < line) label[word] = NR
    } else if (behind ~ /^[ \t]*[=[]/) {
        if (NR < line && !(word in defined)) defined[word] = NR
        if (NR <= line) known[word] = 1
        if (NR > line && !(word in later)) later[word] = NR
    }
}

NR == line { text = $0 }

END {
    rest = substr(text, column)
    before = substr(text, 1, column - 1)
    sub(/#.*/, "", rest)
    if (match(rest, /^[a-z][a-z0-9_]*/) || match(rest, /^[0-9]+/) || match(rest, /^->/) || match(rest, /^[\300-\377][\200-\277]*/)) token = substr(rest, 1, RLENGTH)
    else token = substr(rest, 1, 1)
    named = quote token quote
    if (status == 20 && rest ~ /^[ \t\r]*$/) {
        bracket = open_bracket(before)
        if (bracket != "") {
            close_by["["] = "]"; close_by["{"] = "}"; close_by["<"] = ">"
            print "the " substr(bracket, 1, 1) " at column " substr(bracket, 3) " has no " close_by[substr(bracket, 1, 1)]
        } else if (before !~ /->|=|:/) print "the line has no ->, and a pair is PATTERN -> TEMPLATE, each of which may be empty"
        else print "the statement ends too early"
    } else if (status == 20) print named " does not belong there" misplaced(token, before, rest)
    else if (status == 21 && before ~ /^[ \t]*$/ && (token in defined)) print named " is defined already, on line " defined[token]
    else if (status == 21 && before ~ /^[ \t]*$/ && (token in command)) print named " is a command; a definition wants another name"
    else if (status == 21 && (token in label)) print named " is a label above, on line " label[token] "; a label stands below its uses"
    else if (status == 21 && token in known) print named " is known, and does not serve there"
    else if (status == 21 && (token in later)) print named " is defined only on line " later[token] "; a definition stands above its uses"
    else if (status == 21 && token ~ /^(left|right|turn)$/) print named " is not known there; the turns are counterclockwise and clockwise"
    else if (status == 21) {
        near = 3
        for (other in known) if ((far = distance(token, other)) < near && far < length(token) - 1) { near = far; meant = other }
        if (meant != "") print named " is not known there; " quote meant quote " is"
        else print named " is not known there: a definition stands above its uses, a label below them, and the commands are " commands
    } else if (status == 22 && token == "->") print "a sum of this pair is too great"
    else if (status == 22) print named " is too great"
    else if (token == ")") print "this ) ends no group"
    else if (token == "->") print "a ( before it has no )"
    else print named " stands right behind a search, whose bases would run on into it"
}
