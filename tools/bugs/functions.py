"""Where the functions of a file stand."""
import re

HEAD = re.compile(r"^( *)(?:pub(?:\([a-z]+\))? )?(?:extern \"C\" )?(?:const )?fn (\w+)")
CONTRACT = re.compile(r"\s*(ensures|requires)\b")
CONST = re.compile(r"^\s*(?:pub(?:\([a-z]+\))? )?const (\w+): \w+ = \d[\d_]*;$")


class Function:
    """A function's name, the lines of its head as one text, and the numbers of its body's lines."""

    def __init__(self, name, head, span):
        self.name, self.head, self.span = name, head, span


def head_end(lines, start, indent):
    """The number of a head's last line, and whether a body follows: the head of a trait's method may end in `;`."""
    for n in range(start, len(lines)):
        line = lines[n]
        if line.endswith((";", "{}")):
            return n, False
        if line == indent + "{" or line.endswith(" {") and not CONTRACT.match(line):
            return n, True
    return len(lines), False


def functions(lines):
    """The functions that have a body, and the constants that are one number."""
    n = 0
    while n < len(lines):
        const, head = CONST.match(lines[n]), HEAD.match(lines[n])
        if const:
            yield Function(const.group(1), "", range(n, n + 1))
        if not head:
            n += 1
            continue
        last, has_body = head_end(lines, n, head.group(1))
        if not has_body:
            n = last + 1
            continue
        end = next((k for k in range(last, len(lines)) if lines[k] == head.group(1) + "}"), len(lines))
        text = "\n".join(l for l in lines[n : last + 1] if not CONTRACT.match(l))
        yield Function(head.group(2), text, range(last + 1, end))
        n = end


def is_code(line):
    return line.strip() and not re.match(r"\s*(//|#\[|ghost\b)", line)
