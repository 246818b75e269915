# The trials of crates/unit/specs/UnitTablePromise.antt, a line each, with a tab between:
#   PROFILE HELD SENT CELL    ANSWERED HOLDS NOW    the trial's line in the file
# Bytes are hex digits, `-` for none. A trial is written with the abbreviations that stand before the table (`makes`,
# `says` and so on), which are put in as the file defines them. Anything else fails, and says where.

function wrong(why) {
    print FILENAME ":" FNR ": " why > "/dev/stderr"
    bad = 1
    exit 1
}

# a line's code: no comment, numbers as two hex digits, one space between words
function plain(line) {
    sub(/ *--.*/, "", line)
    while (match(line, /0x[0-9A-Fa-f][0-9A-Fa-f]/))
        line = substr(line, 1, RSTART - 1) toupper(substr(line, RSTART + 2, 2)) substr(line, RSTART + 4)
    gsub(/ +/, " ", line)
    sub(/^ /, "", line)
    sub(/ $/, "", line)
    return line
}

# each number of the line is two hex digits behind 0x
function numbered(code) {
    sub(/ *--.*/, "", code)
    gsub(/0x[0-9A-Fa-f][0-9A-Fa-f]/, "", code)
    if (code ~ /[0-9]/) wrong("a number is not written as two hex digits")
}

# takes one argument from the head of the global `rest`: a word, or what stands in parentheses, with them
function argument(depth, i, c, taken) {
    sub(/^ /, "", rest)
    if (substr(rest, 1, 1) != "(") {
        if (!match(rest, /^[^ ();]+/)) wrong("an argument is missing")
        taken = substr(rest, 1, RLENGTH)
        rest = substr(rest, RLENGTH + 1)
        return taken
    }
    for (i = 1; i <= length(rest); i++) {
        c = substr(rest, i, 1)
        if (c == "(") depth++
        if (c == ")" && --depth == 0) break
    }
    if (i > length(rest)) wrong("a parenthesis is not closed")
    taken = substr(rest, 1, i)
    rest = substr(rest, i + 1)
    return taken
}

# what the abbreviation `name` stands for, its arguments taken from `rest`
function meaning(name, words, count, i, given, body, word, out) {
    count = split(parameters[name], words, " ")
    for (i = 1; i <= count; i++) given[words[i]] = argument()
    body = bodies[name]
    while (match(body, /[a-z]+/)) {
        word = substr(body, RSTART, RLENGTH)
        out = out substr(body, 1, RSTART - 1)
        body = substr(body, RSTART + RLENGTH)
        # a field's name is no parameter
        out = out ((word in given) && body !~ /^ =/ ? given[word] : word)
    }
    return out body
}

# the bytes of a list, as hex digits
function bytes(list, before, name) {
    while (match(list, /[a-z]+/)) {
        before = substr(list, 1, RSTART - 1)
        name = substr(list, RSTART, RLENGTH)
        if (!(name in bodies)) wrong("'" name "' is no list that is known")
        rest = substr(list, RSTART + RLENGTH)
        list = "(" meaning(name) ")"
        list = before list rest
    }
    if (list ~ /[0-9A-F][0-9A-F][ (]*[0-9A-F]/) wrong("'" list "' is no list of bytes")
    gsub(/∷|[+][+]|[][() ]/, "", list)
    if (list !~ /^[0-9A-F]*$/ || length(list) % 2) wrong("'" list "' is no list of bytes")
    return list == "" ? "-" : list
}

function number(text) {
    if (text !~ /^[0-9A-F][0-9A-F]$/) wrong("'" text "' is no number of two hex digits")
    return text
}

function field(name, text) {
    if (!(name in fields)) wrong("the trial has no " name)
    text = fields[name]
    delete fields[name]
    return text
}

function trial(text, name, parts, count, i, at, profile, cell, given) {
    while (match(text, /^[a-z]+/) && (name = substr(text, 1, RLENGTH)) in bodies) {
        rest = substr(text, RLENGTH + 1)
        text = meaning(name)
        if (rest !~ /^ ?$/) wrong("'" rest "' is too much")
    }
    if (text !~ /^record [{] .* [}]$/) wrong("'" text "' is no trial that is known")
    text = substr(text, 10, length(text) - 11)
    split("", fields)
    count = split(text, parts, /; /)
    for (i = 1; i <= count; i++) {
        at = index(parts[i], " = ")
        if (at == 0) wrong("'" parts[i] "' is no field")
        fields[substr(parts[i], 1, at - 1)] = substr(parts[i], at + 3)
    }
    profile = field("profile")
    if (profile !~ /^[AS]$/) wrong("'" profile "' is no profile")
    cell = field("cell")
    gsub(/^[(]|[)]$/, "", cell)
    if (cell !~ /^(value [0-9A-F][0-9A-F] [0-9A-F][0-9A-F]|input [0-9A-F][0-9A-F]|current)$/) wrong("'" cell "' is no cell")
    given = profile " " number(field("held")) " " bytes(field("sent")) " " cell
    print given "\t" bytes(field("answered")) " " number(field("holds")) " " number(field("now")) "\t" FNR
    for (name in fields) wrong("the trial has a field too much, " name)
}

{ line = plain($0) }

# the settings that the second program's trials begin at
/^zero_settings / {
    if (line != "zero_settings (value zone command) = 00" && line != "zero_settings (input i) = 00" && line != "zero_settings current = 01")
        wrong("a trial begins at other settings")
    zero_settings++
    next
}

/^trials =/ { inside = 1; next }

# before the table: abbreviations, the body in the same line or in the next
!inside && !ended && name != "" { numbered($0); bodies[name] = line; name = "" }
!inside && !ended && /^[a-z]+( [a-z]+)+ =/ {
    numbered($0)
    name = line
    sub(/ .*/, "", name)
    parameters[name] = line
    sub(/^[a-z]+ /, "", parameters[name])
    sub(/ =.*/, "", parameters[name])
    sub(/^[^=]*= ?/, "", line)
    if (line != "") { bodies[name] = line; name = "" }
    next
}

inside && line == "" {
    if ($0 !~ /--/) wrong("the table ends before its end")
    next
}
inside && line == "∷ []" { inside = 0; ended = 1; next }
inside {
    numbered($0)
    if (count++ > 0 && !sub(/^∷ /, "", line)) wrong("'" line "' does not begin with ∷")
    trial(line)
}

END {
    if (bad) exit 1
    if (!ended) wrong("the table has no end")
    if (zero_settings != 3) wrong("the settings that a trial begins at are not found")
}
