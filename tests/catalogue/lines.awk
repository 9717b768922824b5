# Lines for the demonstration program: -v seed=S -v lines=N. Few of them are accepted, so that the buffer does not fill early;
# the others have another form, or their put is refused, some for a name that was there before.
function below(n) {
    seed = (seed * 16807) % 2147483647
    return seed % n
}
function word(n,   text) {
    text = ""
    while (n-- > 0) text = text substr("abcdefghij klmnopqrstuvwxyz\r0123456789\t", below(39) + 1, 1)
    return text
}
BEGIN {
    seed = seed % 2147483646 + 1
    long = "0123456789 "
    while (length(long) < 70000) long = long long
    others = split("x1 a| 5 b|12345678901 c|4294967296 d|4294967295 e|20000 f|7||-3 g|00000000001 h|+4 i|9\tj|3,k|1e3 l", other, "|")
    for (i = 0; i < lines; i++) {
        if (below(400) == 0) {
            printf "%d %s%c%s", below(400), word(below(12)), 0, word(below(12))
        } else if (below(200) == 0) {
            id = below(5) == 0 ? below(2000) : below(400)
            name[names] = word(below(12))
            printf "%0" (1 + below(10)) "d %s", id, name[names++]
        } else if (names > 0 && below(300) == 0) {
            printf "%d %s", below(400), name[below(names)]
        } else if (below(20000) == 0) {
            printf "%d %s", below(400), substr(long, 1, 60000 + below(10000))
        } else {
            printf "%s", other[below(others) + 1]
        }
        if (i < lines - 1 || below(2) == 0) printf "\n"
    }
}
