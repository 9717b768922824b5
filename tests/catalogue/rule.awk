# The rule of the demonstration program, written a second time: what it prints for the lines of its input.
BEGIN { top = -1 }
{
    if (!match($0, /^[0-9]+ /)) next
    if (RLENGTH > 11) next
    id = substr($0, 1, RLENGTH - 1) + 0
    if (id > 4294967295) next
    name = substr($0, RLENGTH + 1)
    if (name ~ /\000/) next
    if (name in held) next
    high = id > top ? id : top
    if (2072 + puts + 25 + length(name) + 4 * (high + 1) > 65536) next
    puts += 25 + length(name)
    top = high
    entries++
    held[name] = 1
    named[id] = name
}
END {
    print entries + 0, 2072 + puts + 4 * (top + 1)
    for (i = 0; i in named; i++) print i " " named[i]
}
