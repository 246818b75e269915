# The rows of crates/row_table/src/table.rt, a line each, with a tab between: the numbers in decimal, the row's line in the
# file. A line of the table that is no row of 14 numbers fails, and says where.

function wrong(why) {
    print FILENAME ":" FNR ": " why > "/dev/stderr"
    bad = 1
    exit 1
}

# a number, written in hex, in decimal or as a letter
function decimal(text) {
    if (text ~ /^0x[0-9A-F][0-9A-F]$/) return 16 * (index(hex, substr(text, 3, 1)) - 1) + index(hex, substr(text, 4, 1)) - 1
    if (text ~ /^b'[A-Z]'$/) return 64 + index(letters, substr(text, 3, 1))
    if (text !~ /^(0|[1-9][0-9]*)$/) wrong("'" text "' is no number that is known")
    return text
}

BEGIN {
    hex = "0123456789ABCDEF"
    letters = "ABCDEFGHIJKLMNOPQRSTUVWXYZ"
}

/^const ROWS: / { inside = 1; next }
inside && /^\];$/ { inside = 0; ended = 1; next }
inside {
    line = $0
    sub(/ *\/\/.*/, "", line)
    if (line !~ /^    \[.*\],$/) wrong("'" line "' is no row")
    sub(/^    \[/, "", line)
    sub(/\],$/, "", line)
    count = split(line, numbers, /, /)
    if (count != 14) wrong("a row of " count " numbers")
    line = decimal(numbers[1])
    for (i = 2; i <= count; i++) line = line " " decimal(numbers[i])
    print line "\t" FNR
}

END {
    if (bad) exit 1
    if (!ended) wrong("the table is not found, or has no end")
}
