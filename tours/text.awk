# Prints the characters of a line of codes in octal; 77 ends a line.
{
    for (i = 1; i <= NF; i++) {
        n = substr($i, 1, 1) * 8 + substr($i, 2, 1)
        printf "%s", (n == 63 ? "\n" : substr("0123456789???????ABCDEFGHI?.?????JKLMNOPQR?????? ?STUVWXYZ?????", n + 1, 1))
    }
}
