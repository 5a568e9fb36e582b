# Prints each target of a Makefile with the comment above it, in lines that fit the screen.
/^#/ { said = said substr($0, 2); next }
/^[a-z]+:/ {
    line = sprintf("make %-11s", substr($1, 1, index($1, ":") - 1))
    count = split(said, words, " ")
    for (i = 1; i <= count; i++) {
        if (length(line) + length(words[i]) > 99) { print line; line = sprintf("%16s", "") }
        line = line " " words[i]
    }
    print line
}
/^$/ { said = "" }
