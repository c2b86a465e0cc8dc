#!/usr/bin/env python3
"""Brings this repository's own definitions and lemmas to snake case, and its types to camel case. Run once, at the top, right after the kit's
port.py: every name that a file of specs/ or proofs/ declares with a '-' in it, but for names of the library. Goals of a function keep their
labels, which the kit gives.

usage: python3 tools/respell.py            rewrites crates/*/{src,specs,proofs} in place, and prints names that fall together
       python3 tools/respell.py --show     prints the names alone
"""
import collections
import os
import re
import sys

WORD = re.compile(r"[^\s(){}\[\].,;:@\"`⌜⌝]+")
HEAD = re.compile(r"^((?:(?:abbrev|unfoldable|opaque|pub|record|data|inductive)\s+)*)([^\s(){}\[\].,;:@]+)\s*(?:[({\[].*)?:(.*)")
INDENTED = re.compile(r"^\s+(?:pub\s+)?((?:[^\s(){}\[\].,;:@]+\s+)+):\s")
GHOST = re.compile(r"^\s*ghost\s+(?:fn\s+)?([\w'-]+)\s*[:=]")
ANSWERED = ("Answers.antt", "Invariants.antt", "Proof.antt", "Choices.antt")
# names that are English words too: in a comment they stand as they are
ENGLISH = set("set-up read-only first-read".split())
# names that would fall together with another, and what they are called instead
APART = {"Reads-from": "ReadsFromLine"}


def files():
    for folder, folders, names in os.walk("crates"):
        folders[:] = [f for f in folders if f not in ("out", "must-fail", "data")]
        for name in sorted(names):
            if name.endswith((".antt", ".rt")):
                yield os.path.join(folder, name)


def declared(path, text):
    """The names that a file declares."""
    if path.endswith(".rt"):
        for line in text.splitlines():
            found = GHOST.match(line)
            if found:
                yield found.group(1)
        return
    answers = os.path.basename(path) in ANSWERED
    inside = False
    for line in text.splitlines():
        line = re.sub(r"--.*", "", line)
        found = HEAD.match(line)
        if found and not line.startswith("use "):
            head, name, after = found.groups()
            inside = "record" in head or "data" in head
            if not (answers and re.search(r"\b(needs|need|goal|rules|Goals|given)\b", after)):
                yield name
        elif re.match(r"\S", line):
            inside = False
        elif inside or not answers:
            found = INDENTED.match(line)
            if found:
                yield from found.group(1).split()


def borrowed(text):
    """The names that a file takes from the library."""
    for names in re.findall(r"use Rattle\.(?:std|std_collections|core|io)\.[\w.]+\.\{([^}]*)\}", text):
        yield from (n.split(" as ")[0].strip() for n in names.split(","))


def respelled(name):
    if name in APART:
        return APART[name]
    if name[0].isupper():
        return "".join(part[:1].upper() + part[1:] for part in re.split(r"[-_]", name))
    return name.replace("-", "_")


def turned(text, names, comment):
    """The text with each name respelled; comment is what begins a comment."""
    lines = []
    for line in text.split("\n"):
        at = line.find(comment)
        code, note = (line, "") if at < 0 else (line[:at], line[at:])
        parts = re.split(r'("(?:[^"\\]|\\.)*")', code) if comment == "//" else [code]
        parts = [p if p.startswith('"') and comment == "//" else WORD.sub(lambda m: names.get(m.group(0), m.group(0)), p) for p in parts]
        note = WORD.sub(lambda m: m.group(0) if m.group(0) in ENGLISH else names.get(m.group(0), m.group(0)), note)
        lines.append("".join(parts) + note)
    return "\n".join(lines)


def main():
    texts = {path: open(path, encoding="utf-8").read() for path in files()}
    own = set()
    library = set()
    words = collections.Counter()
    for path, text in texts.items():
        own.update(declared(path, text))
        library.update(borrowed(text))
        words.update(WORD.findall(text))
    names = {n: respelled(n) for n in own - library if re.search(r"\w-\w", n)}
    together = collections.defaultdict(list)
    for old, new in names.items():
        together[new].append(old)
    for new, olds in sorted(together.items()):
        if len(olds) > 1 or new in words:
            print("together:", ", ".join(sorted(olds)), "->", new, "(stands already)" if new in words else "")
    if "--show" in sys.argv:
        for old in sorted(names):
            print(old, "->", names[old])
        return
    for path, text in texts.items():
        new = turned(text, names, "//" if path.endswith(".rt") else "--")
        if new != text:
            open(path, "w", encoding="utf-8").write(new)
    print(f"{len(names)} names in {len(texts)} files")


main()
