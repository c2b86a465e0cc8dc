"""Bugs in what takes several lines: a struct's fields, a match's arms, a function's answer. Each yields what the bug is, and the lines that it puts for others, by their
numbers; None: the line is dropped."""
import itertools
import re

from bugs.functions import is_code
from bugs.lines import CASE, FIELD, alike, field, with_values_swapped

OPENS = re.compile(r"\b[A-Z]\w*(?:::<\w+>)? \{$")


def swapped_fields(lines, span, types):
    """Of a struct that has a line for each field: the values of two exchanged."""
    for n in span:
        if not OPENS.search(lines[n]):
            continue
        deep = len(lines[n]) - len(lines[n].lstrip()) + 4
        within = itertools.takewhile(lambda k: lines[k].startswith(" " * deep), range(n + 1, span[-1] + 1))
        rows = [k for k in within if lines[k][deep : deep + 1] != " " and field(lines[k].strip().rstrip(","))]
        for i, j in itertools.combinations(rows, 2):
            pair = [field(lines[k].strip().rstrip(",")) for k in (i, j)]
            if alike(pair[0][1], pair[1][1], types):
                told = [f"{' ' * deep}{a}: {v}," for a, v in with_values_swapped(*pair)]
                yield "swapped fields", {i: told[0], j: told[1]}


def swapped_rows(lines, span, types):
    """Of a call that has a line for each argument: two neighbours exchanged."""
    for n in span:
        if re.search(r"\w\($", lines[n]):
            for k in range(n + 1, span[-1]):
                if not (FIELD.match(lines[k]) and FIELD.match(lines[k + 1])):
                    break
                if alike(lines[k].strip(" ,"), lines[k + 1].strip(" ,"), types):
                    yield "swapped arguments", {k: lines[k + 1], k + 1: lines[k]}


class Arm:
    """An arm of a match: its lines, its pattern, and its body where that is on one line with the pattern's end."""

    def __init__(self):
        self.where, self.pattern, self.body = [], "", None

    def take(self, n, line):
        """One more line of it; a pattern's further lines begin with a bar."""
        self.where.append(n)
        if len(self.where) == 1 or line.startswith("|"):
            pattern, arrow, body = line.partition(" => ")
            self.pattern = f"{self.pattern} {pattern}".strip()
            self.body = body.rstrip(",") if arrow and body.endswith(",") else None


def arms_of(lines, span, start):
    """How deep the arms of the match stand that begins on a line, and the arms."""
    deep = len(lines[start]) - len(lines[start].lstrip()) + 4
    arms = []
    for n in itertools.takewhile(lambda k: lines[k].startswith(" " * deep), range(start + 1, span[-1] + 1)):
        if lines[n][deep] not in " |}":
            arms.append(Arm())
        if arms:
            arms[-1].take(n, lines[n][deep:])
    return " " * deep, arms


def covers(other, pattern):
    """Whether a match still has an arm for all that a pattern takes: only plain cases are seen."""
    bound, taken = re.match(r"^([\w:]+)\([a-z_]\w*\)$", other), re.match(r"^([\w:]+)\(", pattern)
    return re.match(r"^[a-z_]\w*$", other) or other == pattern.split(" if ")[0] or bound and taken and bound.group(1) == taken.group(1)


def missed_cases(lines, span):
    """An arm dropped that another takes the place of, or that has another's body, or one of its cases under its neighbour."""
    for start in [n for n in span if re.search(r"\bmatch .*\{$", lines[n])]:
        indent, arms = arms_of(lines, span, start)
        for arm, later in zip(arms, arms[1:] + arms[:1]):
            gone = {n: None for n in arm.where}
            if any(covers(other.pattern, arm.pattern) for other in arms if other.pattern != arm.pattern):
                yield "a case missed", gone
            if not (arm.body and later.body):
                continue
            if arm.body != later.body:
                yield "another case's answer", {**gone, arm.where[0]: f"{indent}{arm.pattern} => {later.body},"}
            kept, bar, last = arm.pattern.rpartition(" | ")
            if bar and len(later.where) == 1:
                told = {arm.where[0]: f"{indent}{kept} => {arm.body},", later.where[0]: f"{indent}{last} | {later.pattern} => {later.body},"}
                yield "a case under another", {**gone, **told}


def exchanged_cases(lines, span):
    """Two cases of an enum that a function names, exchanged all through it."""
    named = [m for n in span if is_code(lines[n]) for m in CASE.findall(lines[n])]
    for one, other in itertools.combinations(dict.fromkeys(named), 2):
        if one[0] == other[0]:
            turn = {"::".join(one): "::".join(other), "::".join(other): "::".join(one)}
            told = {n: CASE.sub(lambda m: turn.get(m.group(0), m.group(0)), lines[n]) for n in span if is_code(lines[n])}
            yield "two cases exchanged", {n: line for n, line in told.items() if line != lines[n]}


def early_answers(function, lines):
    """What a function may answer at once: the answer of its first return, or a plain one of its type."""
    taken = [lines[n].strip() for n in function.span if re.match(r"\s*return\b.*;$", lines[n])]
    _, arrow, given = function.head.rpartition(" -> ")
    given = given.split("\n")[0].strip(" {")
    if not arrow:
        return taken[:1] or ["return;"]
    plain = {"bool": ["return false;", "return true;"], "u16": ["return 0;"], "u32": ["return 0;"], "usize": ["return 0;"]}.get(given, [])
    if given.startswith("Option<"):
        plain = ["return None;"]
    if given.startswith("Result<(),"):
        plain = ["return Ok(());"]
    refusals = re.findall(r"\b(?:Err|ok_or)\(((\w+)::\w+)\)", "\n".join(lines[n] for n in function.span))
    refused = [f"return Err({case});" for case, enum in refusals if enum in given]
    return list(dict.fromkeys(taken[:1] + plain + refused[:1]))


def early(function, lines):
    body = [lines[n].strip() for n in function.span if is_code(lines[n])]
    for answer in early_answers(function, lines) if function.head else []:
        if len(body) > 1 or body != [answer[7:-1]]:
            yield "an early return", {function.span[0]: f"if true {{ {answer} }}\n{lines[function.span[0]]}"}


def in_shape(function, lines, types):
    """All bugs of a function that are not in one line."""
    yield from early(function, lines)
    yield from swapped_fields(lines, function.span, types)
    yield from swapped_rows(lines, function.span, types)
    yield from missed_cases(lines, function.span)
    yield from exchanged_cases(lines, function.span)
