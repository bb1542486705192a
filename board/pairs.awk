# Of a module, the lines with a byte and a pointer in one value that a function exported to C can come to. Such a value is stored with the
# pointer 8 bytes on, and loaded whole: where a pointer has 32 bits, from 4 bytes on.
/^define/ {
    match($0, /@("[^"]*"|[A-Za-z0-9_.$]+)\(/)
    within = substr($0, RSTART + 1, RLENGTH - 2)
    if ($0 !~ /^define internal/) {
        seen[within]
        wanted[++last] = within
    }
}
within != "" {
    if (/\{ i8, ptr \}/ && !(within in pair)) pair[within] = FNR ":" $0
    rest = $0
    while (match(rest, /@("[^"]*"|[A-Za-z0-9_.$]+)/)) {
        uses[within] = uses[within] substr(rest, RSTART + 1, RLENGTH - 1) "\n"
        rest = substr(rest, RSTART + RLENGTH)
    }
}
/^}/ { within = "" }
END {
    for (at = 1; at <= last; at++) {
        if (wanted[at] in pair) print pair[wanted[at]]
        count = split(uses[wanted[at]], names, "\n")
        for (i = 1; i < count; i++)
            if (!(names[i] in seen)) {
                seen[names[i]]
                wanted[++last] = names[i]
            }
    }
}
