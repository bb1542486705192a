"""The rules by which a mutant is made: small wrong edits of a specs/ or src/ file. Each rule yields (start, end, new text)."""
import re

NUMBER = "number off by one"
SWAP = "two arguments or fields swapped"
TEST = "test turned round"
BRANCH = "branch taken out"
OPERATOR = "another operator"
LEFT_OUT = "statement left out"

TOKEN = re.compile(r"[(){};,]|[^\s(){};,]+")
OPERATORS = {"≡", "≢", "==", "+", "-", "*", "/", "%", "^", "&&", "||", "∷", "++", "→", "=", ":", "≤", "<", "×", "↔", "let", "in", "record", "λ", ";", ","}
TYPE = r"[&\[]|u8$|u32$|u64$|usize$|bool$|[A-Z][a-z]+$"
INSTEAD = {"&&": "||", "||": "&&", "+": "-", "-": "+", "*": "+", "min": "max", "max": "min"}
SYMMETRIC = {"eqb", "nat_eq", "min", "max"}
TESTS = {"ltb": "leb", "leb": "ltb", "nat_lt": "nat_le", "nat_le": "nat_lt", "<": "≤", "≤": "<"}


def off_by_one(text, start, end):
    number = int(text[start:end])
    yield start, end, str(number + 1)
    if number:
        yield start, end, str(number - 1)


def atoms(tokens, i):
    """The atoms of an application from token i on, each (first token, token past it): a name or a group, with its projections."""
    found = []
    while i < len(tokens):
        word, first = tokens[i][0], i
        if word in "({":
            depth = 0
            while i < len(tokens):
                depth += {"(": 1, "{": 1, ")": -1, "}": -1}.get(tokens[i][0], 0)
                i += 1
                if not depth:
                    break
        elif word in OPERATORS or word in ")}" or word.startswith(".") or word.endswith("."):
            break
        else:
            i += 1
        while i < len(tokens) and re.match(r"\.[a-z0-9]", tokens[i][0]):
            i += 1
        found.append((first, i))
    return found


def of_terms(text, start, end, imported):
    """The mutants of a term of antt that stands between start and end."""
    tokens = [(m.group(), m.start() + start, m.end() + start) for m in TOKEN.finditer(text[start:end])]

    def part(atom):
        return tokens[atom[0]][1], tokens[atom[1] - 1][2]

    def words(atom):
        return text[part(atom)[0]:part(atom)[1]]

    def swapped(one, two):
        (a, b), (c, d) = part(one), part(two)
        return a, d, text[c:d] + text[b:c] + text[a:b]

    heads = set()
    for i, (word, a, b) in enumerate(tokens):
        if word.isdigit() and tokens[i - 1][0] != "Type":
            for made in off_by_one(text, a, b):
                yield NUMBER, made
        if word in INSTEAD and (word in ("min", "max") or i) and known(INSTEAD[word], imported):
            yield OPERATOR, (a, b, INSTEAD[word])
        if word in TESTS and known(TESTS[word], imported):
            yield TEST, (a, b, TESTS[word])
        if word == "not" and i + 1 < len(tokens):
            yield TEST, (a, tokens[i + 1][1], "")
        if word in ("&&", "||"):
            right = atoms(tokens, i + 1)
            if right and tokens[right[-1][1]:] and tokens[right[-1][1]][0] == "==":
                right += atoms(tokens, right[-1][1] + 1)
            if right:
                yield BRANCH, (a, part(right[-1])[1], "")
        if i in heads or word in OPERATORS or word in "(){}" or word.startswith("."):
            continue
        spine = atoms(tokens, i)
        heads.update(first for first, past in spine)
        if word == "choose" and len(spine) == 4:
            for kept in spine[2:]:
                yield BRANCH, (a, part(spine[3])[1], words(kept))
            yield TEST, swapped(spine[2], spine[3])
        elif len(spine) >= 3 and word not in SYMMETRIC:
            for one, two in zip(spine[1:], spine[2:]):
                if words(one) != words(two) and not words(one).startswith("{"):
                    yield SWAP, swapped(one, two)
    yield from of_records(text, start, end)


def of_records(text, start, end):
    for m in re.finditer(r"record \{([^{}]*)\}", text[start:end]):
        fields = list(re.finditer(r"(\S+) = ([^;]*[^;\s])", m.group(1)))
        at = start + m.start(1)
        for one, two in zip(fields, fields[1:]):
            if one.group(2) != two.group(2):
                a, b, c, d = at + one.start(2), at + one.end(2), at + two.start(2), at + two.end(2)
                yield SWAP, (a, d, text[c:d] + text[b:c] + text[a:b])


def known(name, imported):
    return name in imported or f"◌{name}◌" in imported


def of_specs(text):
    """The mutants of a file of specs/: of the body of each definition, and of each field of a record of facts."""
    imported = {name.strip() for line in text.split("\n") if line.startswith("use ") for name in re.sub(r"^.*\{|\}.*$", "", line).split(",")}
    clauses = []
    at = 0
    for line in text.split("\n"):
        past = at + len(line)
        code = re.match(r"(?!use |pub mod |infix |--|\s*$)", line)
        if code and not line.startswith(" "):
            m = re.match(r"[^=]*?\s=(\s|$)", line)
            clauses.append([at + m.end(), past] if m else None)
        elif code and re.match(r"  pub [^ ]+ : ", line):
            clauses.append([at + line.index(" : ") + 3, past])
        elif code and clauses and clauses[-1]:
            clauses[-1][1] = past
        elif not code:
            clauses.append(None)
        at = past + 1
    for one in clauses:
        if one:
            yield from of_terms(text, one[0], one[1], imported)
    for one, two in zip(clauses, clauses[1:]):
        if one and two and one[1] < two[0] and text[one[0]:one[1]] != text[two[0]:two[1]] and "\n" not in text[one[0]:one[1]] + text[two[0]:two[1]]:
            if "=" in text[one[1]:two[0]]:
                yield BRANCH, (one[0], two[1], text[two[0]:two[1]] + text[one[1]:two[0]] + text[one[0]:one[1]])


def of_code(line, at, text):
    """The mutants of a line of code that starts at `at`."""
    for m in re.finditer(r"(?<![\w.'])\d+(?![\w.'])", line):
        for made in off_by_one(text, at + m.start(), at + m.end()):
            yield NUMBER, made
    for m in re.finditer(r" (<=|<|==|!=) ", line):
        other = {"<": "<=", "<=": "<", "==": "!=", "!=": "=="}[m.group(1)]
        yield TEST, (at + m.start(1), at + m.end(1), other)
    for m in re.finditer(r" (\+|-|&|\||&&) ", line):
        other = {"+": "-", "-": "+", "&": "|", "|": "&", "&&": "||"}[m.group(1)]
        yield OPERATOR, (at + m.start(1), at + m.end(1), other)
    m = re.match(r"\s*(?:\} else )?if (?!let )(.*?) \{", line)
    if m:
        yield BRANCH, (at + m.start(1), at + m.end(1), "false")
        yield BRANCH, (at + m.start(1), at + m.end(1), "true")
    if re.match(r"\s+(?=\S)(?!let |return|break|continue)[^{}=>]*( [-+&|]?= [^{}]*|\));$", line):
        yield LEFT_OUT, (at + len(line) - len(line.lstrip()), at + len(line), "")
    for m in re.finditer(r"(?<!fn )\b[a-z_:]+\(([^()]*, [^()]*)\)", line):
        if not re.match(r"\s*(pub |pub\(crate\) |extern |fn )", line):
            yield from of_arguments(m.group(1), at + m.start(1))


def of_arguments(inside, at):
    parts = inside.split(", ")
    for i in range(len(parts) - 1):
        if parts[i] != parts[i + 1]:
            start = at + sum(len(p) + 2 for p in parts[:i])
            yield SWAP, (start, start + len(parts[i]) + 2 + len(parts[i + 1]), parts[i + 1] + ", " + parts[i])


def of_src(text):
    """The mutants of a file of src/: of its code line by line, of two fields or arms that follow each other, and of its promises."""
    lines, at = [], 0
    for line in text.split("\n"):
        lines.append((line, at))
        at += len(line) + 1
    for line, at in lines:
        if re.match(r"\s*(//|use |ghost use |pub use |mod |pub mod |#|$)", line):
            continue
        if re.match(r"\s*(requires|ensures)\b", line):
            a, b = line.index("{") + 1, line.rindex("}")
            names = set(re.findall(r"[^\s,{}]+", " ".join(l for l, _ in lines if l.startswith("ghost use "))))
            yield from of_terms(text, at + a, at + b, names)
        else:
            yield from of_code(line, at, text)
    for (one, a), (two, b) in zip(lines, lines[1:]):
        for form, rule in ((r"(\s+[a-z0-9_]+: )(.+)(,)$", SWAP), (r"(\s+[A-Z][^=]* => )(.+)(,)$", BRANCH)):
            m, n = re.match(form, one), re.match(form, two)
            if m and n and m.group(2) != n.group(2) and not re.match(TYPE, m.group(2)):
                yield rule, (a + m.start(2), b + n.end(2), n.group(2) + text[a + m.end(2):b + n.start(2)] + m.group(2))
