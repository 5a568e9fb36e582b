# Prints the typed lines of a table whose numbers it reads, ten a row from row 0, any number of them on a line. A row that a go-to
# or a DO names gets a label, L1, L2 .. in the order of the rows. Literals stand in the base that the mnemonic alone has, and
# copying is always E.
BEGIN {
    CONVFMT = "%.0f"   # some awks write large whole numbers as fractions otherwise
    split("IFALL IFANY IFNONE IFNALL", modes, " ")
    split("E N G L P O Z", tests, " ")
    split("SS D GT FR DP E IC A S M V O N X C OS ZS LO RO LZ RZ L R IN PR BZ DB OB BD BO ZB FC FC FD FD DO", operations, " ")
}
{ for (i = 1; i <= NF; i++) number[all++] = $i }

function name(n) { return substr("0123456789ABCDEFGHIJKLMNOPQRSTUVWXYZ", n + 1, 1) }

# An operand in a base: a literal, or the names of a reference.
function operand(at, base,    n, text) {
    n = number[at + 1]
    if (number[at] == 1 && n == 0) return "0"
    for (; n > 0; n = int(n / (number[at] == 1 ? base : 64))) text = (number[at] == 1 ? n % base : name(n % 64 - 1)) text
    return text
}

# The base of literals: octal where the operation or test is logical, or a print.
function base(word) { return word ~ /^(O|N|X|C|PR|Z)$/ ? 8 : 10 }

function test(at,    word) {
    word = tests[number[at + 2]]
    return "(" operand(at + 4) "," word "," operand(at + 6, word ~ /^[OZ]$/ ? 8 : 10) ")"
}

function operation(at,    code, word, first) {
    code = number[at + 2]
    word = operations[code]
    first = operand(at + 4, 10)
    if (code == 1) return "(" operand(at + 6, 10) ",SS," first "," operand(at + 8, 10) ")"
    if (code == 2) return "(" first ",D" name(number[at + 3]) "," operand(at + 6, 10) "," operand(at + 8, 10) ")"
    if (code == 32 || code == 33) return "(" (code == 32 ? "S" : "R") ",FC," first ")"
    if (code == 34 || code == 35) return "(" (code == 34 ? "S" : "R") ",FD," name(number[at + 3]) ")"
    if (code == 36) return "(DO," label[number[at + 5]] ")"
    return "(" first "," word "," operand(at + 6, base(word)) (number[at + 8] ? "," operand(at + 8, 10) : "") ")"
}

# A line whose row begins at a number; its tests and operations follow it.
function typed(at,    text, mode, go, kind) {
    mode = number[at + 2]
    go = number[at + 6]
    text = sprintf("%-7s%s", label[at / 10], mode == 0 ? "THEN" : modes[mode])
    for (kind = 1; (at += 10) < all && number[at] != 1; kind = number[at]) {
        if (number[at] != kind) text = text (number[at] == 3 && mode != 0 ? " THEN " : " ")
        text = text (number[at] == 2 ? test(at) : operation(at))
    }
    return text (go == 65535 ? " DONE" : go > 0 ? " " label[go] : "")
}

END {
    for (at = 10; at < all; at += 10) {
        if (number[at] == 1) named[number[at + 6]] = 1
        if (number[at] == 3 && number[at + 2] == 36) named[number[at + 5]] = 1
    }
    for (row = 1; row < all / 10; row++) if (row in named) label[row] = "L" ++labels
    for (at = 10; at < all; at += 10) if (number[at] == 1) print typed(at)
}
