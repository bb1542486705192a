# The table of bench/grow: reads lines `what slots number [harness]`.

function row(title, name,    i, line, some) {
    line = "| " title " |"
    for (i = 1; i <= count; i++) {
        some = some (((name, size[i]) in figure) ? 1 : "")
        line = line sprintf(" %s |", ((name, size[i]) in figure) ? sprintf("%.0f", figure[name, size[i]]) : "-")
    }
    if (some != "") print line
}
BEGIN { count = split(sizes, size, " ") }
{ figure[$1, $2] = $3 - $4 }
/^seconds-/ && !seen[$1]++ { proof[++proofs] = $1 }
END {
    line = "| |"
    rule = "|---|"
    for (i = 1; i <= count; i++) {
        line = line sprintf(" %d slots |", size[i])
        rule = rule "---|"
    }
    print line "\n" rule
    row("a call of the byte entry, " tasks " tasks, instructions", "entry")
    row("the peer's", "peer-entry")
    row("first pass", "apart-surveyed")
    row("the rest is blank", "apart-rest_blank")
    row("second pass", "apart-all_judged")
    row("the kind's work", "apart-turned")
    row("the end of the entry", "apart-settled")
    row("areas", "apart-apply")
    row("a step in memory, instructions", "step")
    row("code on a Cortex-M4, bytes", "code")
    row("stack of `kernel_step` there, bytes", "kernel_step")
    row("stack of `kernel_start` there, bytes", "kernel_start")
    row("stack of `kernel_convert` there, bytes", "kernel_convert")
    for (i = 1; i <= proofs; i++) row("proof of " substr(proof[i], 9) ", seconds", proof[i])
}
