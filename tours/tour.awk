# Reads the text of one of a tour's files and prints its bytes as octal escapes, or the lines asked for. '#' starts a comment.
#   part=stops    NAME.stops, for stops.in: characters of the stop list: letters, digits, '.', '_' for a blank, '/' for octal 77, \ooo for any
#                 byte; blanks and line ends are for the eye
#   part=numbers  NAME.numbers, for a tour.tab that no typed lines give: a row of ten numbers a line, from row 0
#   part=prints   NAME.prints: the two lines that tourrun must print; codes and '* N' are those codes N times
#
# A list of corrections has two parts, each after a line with its name: part=corrections for corrections.tab, part=stands for what
# the library must make of it.
#   corrections  a row a line, from row 0: its number, the next row, the stop, the issue day, the recording
#   stands       a stop and its recording a line
BEGIN { CONVFMT = "%.0f" }   # some awks write large whole numbers as fractions otherwise

function fail(why) { print FILENAME ": " FNR ": " why > "/dev/stderr"; failed = 1; exit 1 }

# A character's code on the 7094.
function code(c,    i) {
    if (c == ".") return 27
    if (c == "_") return 48
    if (c == "/") return 63
    if (i = index("0123456789", c)) return i - 1
    if (i = index("ABCDEFGHI", c)) return 16 + i
    if (i = index("JKLMNOPQR", c)) return 32 + i
    if (i = index("STUVWXYZ", c)) return 49 + i
    fail("no character: " c)
}

# Eight bytes of a number, low first.
function bytes(n,    i, text) {
    if (n !~ /^[0-9]+$/) fail("no number: " n)
    for (i = 0; i < 8; i++) { text = text sprintf("\\0%03o", n % 256); n = int(n / 256) }
    return text
}

function row(numbers, long,    i, n, word, text) {
    n = split(numbers, word, " ")
    if (n != long) fail(n " numbers in a row")
    for (i = 1; i <= n; i++) text = text bytes(word[i])
    print text
}

/^#/ { next }
part == "prints" {
    if (match($0, / \* [0-9]+$/)) { text = substr($0, 1, RSTART - 1); n = substr($0, RSTART + 3); for ($0 = text; n > 1; n--) $0 = $0 " " text }
    print
    next
}
{ sub(/#.*/, ""); sub(/[ \t]+$/, "") }
NF == 0 { next }
part == "numbers" { row($0, 10); next }
part == "stops" {
    gsub(/[ \t]/, "")
    while ($0 != "") {
        if ($0 ~ /^\\[0-7][0-7][0-7]/) { printf "\\0%s", substr($0, 2, 3); $0 = substr($0, 5) }
        else { printf "\\0%03o", code(substr($0, 1, 1)); $0 = substr($0, 2) }
    }
    print ""
    next
}
/^(corrections|stands)$/ { at = $1; next }
at == "stands" && part == "stands"
at == "corrections" && part == "corrections" { if ($1 != rows++) fail("row " rows - 1 " is missing"); $1 = ""; row($0, 4) }
END { if (failed) exit 1 }
