"""The small bugs that tools/plant plants."""
import re

from bugs.functions import functions, is_code
from bugs.lines import CASE, in_line
from bugs.shapes import in_shape

TYPED = re.compile(r"\b([a-z]\w*): &?(?:'\w+ )?(?:mut )?(\[?(?:[A-Z]\w*|u\d+|usize|bool))")


def types_in(code):
    """The types of each parameter and field that some code names."""
    found = {}
    for name, its_type in TYPED.findall(code):
        found.setdefault(name, set()).add(its_type)
    return found


class Crate:
    """What a crate's code names: the cases of each enum, and the types of names, as it has them, or else as another crate has them."""

    def __init__(self, files, others):
        code = "\n".join(files.values())
        self.cases, self.types = {}, {**types_in(others), **types_in(code)}
        for enum, case in CASE.findall(code):
            self.cases.setdefault(enum, set()).add(case)


def bugs(function, lines, crate):
    """All small bugs of a function: what each is, and the lines that it puts for others."""
    for n in function.span:
        line = lines[n]
        if is_code(line):
            for what, told in in_line(function, lines, line, crate):
                yield what, {n: told}
    if function.head and len(function.span):
        yield from in_shape(function, lines, crate.types)


def planted(files, others, wanted):
    """Every bug: its function, what it is, its file, and the file's text with it."""
    crate = Crate(files, others)
    for path, text in sorted(files.items()):
        lines = text.split("\n")
        tests = next((n for n, l in enumerate(lines) if l == "#[cfg(test)]"), len(lines))
        for function in functions(lines[:tests]):
            for what, told in bugs(function, lines, crate) if not wanted or function.name in wanted else ():
                changed = [told.get(n, line) for n, line in enumerate(lines)]
                yield function.name, what, path, "\n".join(l for l in changed if l is not None)
