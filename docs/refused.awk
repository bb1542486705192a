# The lines of docs/refused, whose help has the rule: what is a fact, what is shape, and what only follows.

# a term without the modules of its names and the steps of the walk, and not too long
function short(term) {
    gsub(/\. /, "\001", term)
    gsub(/[A-Za-z0-9_\302\267-]+\./, "", term)
    gsub(/\001/, ". ", term)
    gsub(/( \.before)+/, "", term)
    gsub(/[ \n]+/, " ", term)
    if (length(term) > 70) {
        term = substr(term, 1, 70)
        sub(/[\300-\377][\200-\277]*$/, "", term)
        term = term "…"
    }
    gsub(/\|/, "\\|", term)
    return "`" term "`"
}

# what stands in backquotes behind `words`
function quoted(text, words,    at) {
    at = index(text, words)
    if (!at) return ""
    text = substr(text, at + length(words))
    text = substr(text, index(text, "`") + 1)
    return substr(text, 1, index(text, "`") - 1)
}

# the numbers at which a goal is false: the first three, of terms that are readable if there are any
function numbers(text,    said, other, n, term, number) {
    sub(/^.*the goal fails, at /, "", text)
    while (n < 3 && match(text, /^[ ,]*`[^`]*` += [0-9]+/)) {
        term = number = substr(text, 1, RLENGTH)
        text = substr(text, RLENGTH + 1)
        sub(/^.*= /, "", number)
        term = short(quoted(term, "")) " = " number
        if (term !~ /locals|dens|…/) said = said (n++ ? ", " : "false at ") term
        else if (other == "") other = "false at " term
    }
    if (said == "") said = other
    return said == "" ? "does not follow" : said
}

# the two terms that differ, where they are named: what is there, and what is asked
function differing(text,    at, one, two) {
    at = index(text, "computed as far as they go, the two ")
    if (at) text = substr(text, at)
    one = quoted(text, "where one has ")
    two = quoted(text, "the other has ")
    if (one == "") {
        one = quoted(text, "the two types are ")
        two = quoted(text, "(expected) and ")
    }
    return text ~ /\(required\)/ ? has(one, two) : has(two, one)
}

function has(had, due) {
    return "has " short(had) " where " short(due) " is asked"
}

# whether a type is a statement, and not the type of a value: a name alone, a list, a function
function statement(type) {
    return type ~ /≡|≢|≤|<|↔|Path / || type ~ / / && type !~ /^([^ ]*\.)?List / && type !~ /→/
}

function verdict(text,    due, had) {
    if (text ~ /was not admitted/) return "follows\t" quoted(text, "")
    if (text ~ /the goal does not follow from what it read/) return "fact\tomega: " numbers(text)
    if (text ~ /`search`: no proof of `/) return "fact\tno proof is found of " short(quoted(text, "no proof of "))
    if (text ~ /must be a path whose two ends are equal/) return "fact\tthe two ends differ of " short(quoted(text, "are equal, and "))
    if (text ~ /≟.*does not hold/) return "fact\t" short(quoted(text, "")) " is not " short(quoted(text, "≟ "))
    due = quoted(text, "expected type ")
    had = quoted(text, "but this has type ")
    if (due had ~ /Need-/ || due != "" && !(statement(due) && statement(had))) return "shape\t" short(text)
    if (text ~ /the two (types|values) (first differ|differ only|are `)/) return "fact\t" differing(text)
    if (text ~ /this λ.s body is `.*type requires `/) return "fact\t" has(quoted(text, "body is "), quoted(text, "type requires "))
    if (due != "" && had != "") return "fact\t" has(had, due)
    return "shape\t" short(text)
}

function row(kind, place, name, words) {
    rows[++count] = kind "\t" place "\t" name "\t" words
}

# what is left to show, without the way that leads there
function stem(name) {
    sub(/-(then|else)-.*$/, "", name)
    return name
}

function told(    words, after, i, n) {
    if (place == "") return
    if (text ~ /\.Goals` has no `/) lost[stem(quoted(text, "has no "))]
    words = verdict(text)
    after = text
    n = sub(/^.*which was not admitted, w(as|ere) not checked: /, "", after) ? split(after, names, /,? +/) : 0
    for (i = 1; i <= n; i++) if (names[i] != "") row("follows", place, names[i], substr(words, index(words, "\t") + 1))
    if (!n) row(substr(words, 1, index(words, "\t") - 1), place, name, substr(words, index(words, "\t") + 1))
    place = ""
}

/^[^ ].*: error: / {
    told()
    place = substr($0, 1, index($0, ": error: ") - 1)
    sub(/^(.*\/)?(src|specs|proofs)\//, "", place)
    text = substr($0, index($0, ": error: ") + 9)
    name = ""
    if (match(text, /^`[^`]*`: /)) {
        name = substr(text, 2, RLENGTH - 4)
        text = substr(text, RLENGTH + 1)
    }
    next
}
/^  / { text = text " " $0; next }

# What is left to show of a function, what was said of each, and then the function. Where an answer of the function has a name that is gone,
# what it would have to show may be left for that alone, and does not count unless it is false somewhere.
/^note: .*: it is not proved that / {
    told()
    sub(/^.*: it is not proved that /, "")
    need[++needs] = $0
    next
}
/^note: .*: `search` found no proof \(/ {
    told()
    sub(/^.*: `search` found no proof /, "no proof is found ")
    need[++needs] = $0
    next
}
/^note: what antt said of a `search`/ && needs { said = 1; text = $0; next }
!/^  / && said {
    if (text ~ /the goal fails, at/) need[needs] = need[needs] "; omega: " numbers(text)
    said = 0
}
/^fn .*: (no proof: expected |not proved$)/ {
    told()
    place = $0
    answered = place ~ /: not proved$/
    if (answered) {
        sub(/^fn [^:]*::/, "", place); sub(/: not proved$/, "", place); gsub(/::/, "/", place)
        place = place "/Answers.antt"
    } else {
        sub(/;.*$/, "", place); sub(/^.*\/proofs\//, "", place)
    }
    for (i = 1; i <= needs; i++) {
        name = match(need[i], /\(`[^`]*`\)/) ? substr(need[i], RSTART + 2, RLENGTH - 4) : ""
        sub(/ \(`[^`]*`\)/, "", need[i])
        false_at = sub(/; the facts known there allow values at which this goal is false/, "", need[i])
        if (answered && !false_at && stem(name) in lost) continue
        if (!sub(/^no proof is found.*$/, "no proof is found", need[i])) need[i] = "not proved is that " need[i]
        row("fact", place ":0:0", name, need[i])
        row_of[place, name] = count
    }
    for (name in lost) delete lost[name]
    needs = 0
    place = ""
}
/^note: `[^`]*` of proofs\/[^ ]* must prove: / {
    told()
    name = quoted($0, "note: ")
    place = $4
    sub(/^proofs\//, "", place)
    text = $0
    sub(/^.* must prove: /, "", text)
    if ((place, name) in row_of && rows[row_of[place, name]] ~ /\tno proof is found$/) rows[row_of[place, name]] = rows[row_of[place, name]] " of " short(text)
    place = ""
}
/^note: `[^`]*` of proofs\/[^ ]* may be false: the known facts allow / {
    told()
    name = quoted($0, "note: ")
    place = $4
    sub(/^proofs\//, "", place)
    text = $0
    sub(/^.*the known facts allow /, "the goal fails, at ", text)
    while (match(text, /= `[0-9]+`/)) text = substr(text, 1, RSTART + 1) substr(text, RSTART + 3, RLENGTH - 4) substr(text, RSTART + RLENGTH)
    if ((place, name) in row_of) rows[row_of[place, name]] = rows[row_of[place, name]] ": " numbers("x " text)
    place = ""
}
{ told() }
END {
    told()
    for (i = 1; i <= count; i++) print rows[i]
}
