"""Bugs in one line of code: a sign, a number, a word, a call's arguments. Each yields what the bug is, and the line with it; None: the line is dropped."""
import itertools
import re

# what one small bug turns into what: (what it is, pattern, replacement)
TURNS = [
    ("< for <=", r" <= ", " < "),
    ("<= for <", r" < ", " <= "),
    ("> for >=", r" >= ", " > "),
    (">= for >", r" > ", " >= "),
    ("!= for ==", r" == ", " != "),
    ("== for !=", r" != ", " == "),
    ("+ 1 dropped", r" \+ 1\b", ""),
    ("- 1 dropped", r" - 1\b", ""),
    ("+ for -", r" - ", " + "),
    ("max for min", r"\.min\(", ".max("),
    ("min for max", r"\.max\(", ".min("),
    ("|| for &&", r"(^ *| )&& ", r"\1|| "),
    ("&& for ||", r"(^ *| )\|\| ", r"\1&& "),
    ("right for left", r"\.left\b", ".right"),
    ("left for right", r"\.right\b", ".left"),
    ("a test turned", r"\bif !", "if "),
    ("a test turned", r"^( *(?:&& |\|\| )?)!(?=\w)", r"\1"),
    ("a test skipped", r"\bif (?!let\b)(.*) \{$", r"if false && (\1) {"),
    ("true for false", r"\bfalse\b", "true"),
    ("false for true", r"\btrue\b", "false"),
    ("from 1", r"\b0\.\.", "1.."),
    ("none for some", r"\bis_some\b", "is_none"),
    ("some for none", r"\bis_none\b", "is_some"),
    ("all for any", r"\.any\(", ".all("),
    ("first place for last", r"\.rposition\(", ".position("),
    ("greatest for least", r"\.min_by_key\(", ".max_by_key("),
    ("little end first", r"_be_bytes\b", "_le_bytes"),
]
# a word for another, only where the function has that one too, or the file as a field: elsewhere it would be a name out of scope
WORDS = [("first", "second"), ("reads", "drafts"), ("transaction", "writer"), ("version", "owner"), ("older", "jump"), ("forward", "backward"), ("writers", "readers")]
NUMBER = re.compile(r"(?<![\w.])(\d[\d_]*)(?![\w.]|\.\.)")
RANGE = re.compile(r"\b(\d+)\.\.(\d+)\b")
LETTER = re.compile(r"(?<=b['\"])[A-Z]")
CASE = re.compile(r"\b([A-Z]\w*)::([A-Z][a-z]\w*)\b")
CALL = re.compile(r"(?:\b\w+|>)\(")
FIELD = re.compile(r"^\s+(\w+)(?:: (.+))?,$")
INLINE = re.compile(r"(\b[A-Z]\w* )\{ ([^{}]+) \}")
# lent to change, lent, a number, a case, a struct, a call, what a method answers
LOOKS = [r"&mut ", r"&", r"\d", r"[A-Z]\w*::[A-Z]", r"[A-Z]\w* \{", r"\w+(::\w+)*\(", r".*\)$"]
WRAPPED = re.compile(r"^(\w+)\((.*)\)$")


def put(line, m, text):
    return line[: m.start()] + text + line[m.end() :]


def pieces(text):
    """The parts of a list, cut at its commas outside brackets; none where a closure's bars might hold one."""
    if "|" in text:
        return []
    depth, parts = 0, [""]
    for c in text:
        depth += (c in "([{") - (c in ")]}")
        if depth < 0:
            return []
        if c == "," and depth == 0:
            parts.append("")
        else:
            parts[-1] += c
    return [p.strip() for p in parts]


def closing(line, start):
    depth = 0
    for k in range(start, len(line)):
        depth += (line[k] in "([{") - (line[k] in ")]}")
        if depth == 0:
            return k
    return None


def look(text):
    """What a value is, as far as its spelling tells."""
    return next((n for n, pattern in enumerate(LOOKS) if re.match(pattern, text)), None)


def types_of(value, types):
    """The types with which the crate's code declares the name that a value ends in; none where it declares no such name."""
    name = re.fullmatch(r"[&*]?(?:mut )?(?:\w+\.)*([a-z]\w*)", value)
    return {"Self"} if value == "self" else types.get(name.group(1), set()) if name else set()


def alike(one, other, types):
    """Whether two values may have one type: else the compiler refuses their exchange, which tells nothing."""
    if one == other or "{" in one[-1:] + other[-1:] or look(one) != look(other):
        return False
    known = types_of(one, types), types_of(other, types)
    return not all(known) or bool(known[0] & known[1])


def swapped(parts, i, j):
    parts = list(parts)
    parts[i], parts[j] = parts[j], parts[i]
    return parts


def swapped_arguments(line, types):
    for m in CALL.finditer(line):
        end = closing(line, m.end() - 1)
        parts = pieces(line[m.end() : end]) if end else []
        for i in range(len(parts) - 1):
            if alike(parts[i], parts[i + 1], types):
                yield "swapped arguments", line[: m.end()] + ", ".join(swapped(parts, i, i + 1)) + line[end:]


def with_values_swapped(one, other):
    """Two fields, each a pair of its name and its value, with the values exchanged; of `A(x)` and `B(y)` what stands within."""
    (a, x), (b, y) = one, other
    inner, outer = WRAPPED.match(x), WRAPPED.match(y)
    if inner and outer and inner.group(1) != outer.group(1):
        x, y = f"{inner.group(1)}({outer.group(2)})", f"{outer.group(1)}({inner.group(2)})"
        return (a, x), (b, y)
    return (a, y), (b, x)


def field(text):
    m = FIELD.match(f" {text},")
    return (m.group(1), m.group(2) or m.group(1)) if m and m.group(1) != "_" else None


def swapped_inline(line, types):
    for m in INLINE.finditer(line):
        parts = pieces(m.group(2))
        fields = [field(p) for p in parts]
        for i, j in itertools.combinations(range(len(parts)), 2):
            if fields[i] and fields[j] and alike(fields[i][1], fields[j][1], types):
                told = list(parts)
                told[i], told[j] = (f"{a}: {v}" for a, v in with_values_swapped(fields[i], fields[j]))
                yield "swapped fields", put(line, m, f"{m.group(1)}{{ {', '.join(told)} }}")


def turned(line):
    """A line with another sign, test, number, range or letter."""
    for what, old, new in TURNS:
        for m in re.finditer(old, line):
            yield what, put(line, m, m.expand(new))
    for m in NUMBER.finditer(line):
        yield "another constant", put(line, m, str(int(m.group(1).replace("_", "")) + 1))
    for m in RANGE.finditer(line):
        yield "another range", put(line, m, f"{int(m.group(1)) + 1}..{int(m.group(2)) + 1}")
    for m in LETTER.finditer(line):
        yield "another letter", put(line, m, chr(ord(m.group(0)) + 1))


def form_of(word, dot, call):
    """How a word stands as a name of the function, a field or a method; not as a name that is bound just there, nor as a field's in a struct."""
    before = r"(?<=\.)" if dot else r"(?<![.\w])(?<!\{ )(?<!let )"
    return rf"{before}\b{word}\b" + (r"(?=\()" if call else r"(?![(:]| \}|,$)")


def renamed(function, lines, line, crate):
    """A line with another word or another case."""
    for old, new in [p for pair in WORDS for p in (pair, pair[::-1]) if alike(*pair, crate.types)]:
        for dot, call in ((False, False), (True, False), (True, True)):
            where = lines if dot and not call else [function.head] + [lines[n] for n in function.span]
            if any(re.search(form_of(new, dot, call), l) for l in where):
                for m in re.finditer(form_of(old, dot, call), line):
                    yield f"{new} for {old}", put(line, m, new)
    # before an arm's arrow the match would lack the case that is taken away
    for m in CASE.finditer(line, line.find(" => ") + 1):
        named = sorted(crate.cases[m.group(1)])
        if len(named) > 1:
            yield "another case", put(line, m, f"{m.group(1)}::{named[(named.index(m.group(2)) + 1) % len(named)]}")


def dropped(line):
    code = line.strip()
    if code.endswith(";") and not re.match(r"(\.|let|return|break|continue|use|const|pub|\}|\))", code) and re.search(r" = |\+=|\);$|\)\?;$", code):
        yield "a step dropped", None


def in_line(function, lines, line, crate):
    """All bugs of one line of a function."""
    swaps = swapped_arguments(line, crate.types), swapped_inline(line, crate.types)
    return itertools.chain(turned(line), renamed(function, lines, line, crate), *swaps, dropped(line))
