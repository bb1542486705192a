# The table of bench/run: reads lines `program tasks number [harness]`, where the harness's own part is subtracted.

function row(title, name,    i, line) {
    if (!((name, size[1]) in figure)) return
    line = sprintf("| %s |", title)
    for (i = 1; i <= count; i++) line = line sprintf(" %s |", grouped(figure[name, size[i]]))
    print line
}
function ratio(title, name, base,    i, line) {
    if (!((name, size[1]) in figure) || !((base, size[1]) in figure)) return
    line = sprintf("| %s |", title)
    for (i = 1; i <= count; i++) line = line sprintf(" %.2f |", figure[name, size[i]] / figure[base, size[i]])
    print line
}
function grouped(x,    text, out) {
    text = sprintf("%.0f", x)
    while (length(text) > 3) {
        out = "," substr(text, length(text) - 2) out
        text = substr(text, 1, length(text) - 3)
    }
    return text out
}
function head(title,    i, line, rule) {
    line = "| " title " |"
    rule = "|---|"
    for (i = 1; i <= count; i++) {
        line = line sprintf(" %d tasks |", size[i])
        rule = rule "---|"
    }
    print line "\n" rule
}

BEGIN { count = split(sizes, size, " ") }
{ figure[$1, $2] = $3 - $4 }
END {
    head("A call of the byte entry, " unit)
    row("proved", "entry")
    row("peer", "peer-entry")
    ratio("proved to peer", "entry", "peer-entry")
    print ""
    head("A step in memory, " unit)
    row("proved, `step::step`", "step")
    row("peer", "peer-memory")
    row("plain C, no check", "plain-memory")
    ratio("proved to plain C", "step", "plain-memory")
    ratio("peer to plain C", "peer-memory", "plain-memory")
    if (!(("apart", size[1]) in figure)) exit
    print ""
    head("The byte entry by part, each with what it calls")
    row("first pass: used, active, counts (`audit::survey::surveyed`)", "apart-surveyed")
    row("the rest is blank (`audit::rest_blank`)", "apart-rest_blank")
    row("second pass: each record and its place (`audit::places::all_judged`)", "apart-all_judged")
    row("the kind's work (`inplace::kinds::turned`)", "apart-turned")
    row("the end of the entry (`inplace::end::settled`)", "apart-settled")
    row("areas (`step::areas::apply`)", "apart-apply")
    row("all, with the parts kept apart", "apart")
    row("of it copies (memcpy)", "apart-memcpy")
    row("of it zeros (memset)", "apart-memset")
}
