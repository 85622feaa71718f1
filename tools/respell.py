#!/usr/bin/env python3
"""Brings the definitions and lemmas of this repository to snake case, and its types to camel case.

usage: python3 tools/respell.py [--list]     at the top of the repository, once, after port.py

A name that is declared in specs/ or proofs/ and has a dash between its words gets `_` in the dash's place, or, where it begins
with a capital, the next word's capital. Names that answer a goal, names with an operator in them, comments and strings stay.
"""

import glob
import re
import sys

STOP = r"\s(){}\[\];,.:"
TOKEN = re.compile(rf"[^{STOP}]+")
DECLARED = re.compile(
    rf"^\s*(?:(?:abbrev|unfoldable|data|record|ruleset|mutual)\s+)*(?:pub\s+)?(?:(?:data|record|ruleset)\s+)?([^{STOP}]+)\s*(?:[({{][^:]*)*:\s*(\S*)"
)
PLAIN = re.compile(r"^[A-Za-z][\w']*(?:-[\w']+)+$")


def spelled(name):
    words = name.split("-")
    if name[0].isupper():
        return words[0] + "".join(w[0].upper() + w[1:] for w in words[1:])
    return "_".join(words)


def files(ending):
    return sorted(p for p in glob.glob(f"crates/*/*/**/*.{ending}", recursive=True) if "/out/" not in p)


def code(line, mark):
    """The line's code and its comment."""
    at = line.find(mark)
    return (line, "") if at < 0 else (line[:at], line[at:])


def declared():
    found = {}
    for path in files("antt"):
        for line in open(path, encoding="utf-8"):
            text, _ = code(line, "--")
            m = DECLARED.match(text)
            if m and PLAIN.match(m.group(1)) and not m.group(2).startswith(("goal.", "given.")):
                found.setdefault(m.group(1), path)
    return found


def turned(text, names):
    parts = re.split(r'("(?:[^"\\]|\\.)*")', text)
    return "".join(p if i % 2 else TOKEN.sub(lambda m: names.get(m.group(), m.group()), p) for i, p in enumerate(parts))


def main():
    names = {n: spelled(n) for n in declared()}
    tokens = {}
    for path in files("antt") + files("rt"):
        for line in open(path, encoding="utf-8"):
            text, _ = code(line, "--" if path.endswith("antt") else "//")
            for t in TOKEN.findall(text):
                tokens.setdefault(t, set()).add(path)
    for n, to in sorted(names.items()):
        both = tokens.get(to, set()) & tokens.get(n, set())
        if both:
            print(f"falls together: {n} and {to}, in {', '.join(sorted(both))}")
        elif to in tokens and "--list" in sys.argv:
            print(f"also elsewhere: {n} and {to}, in {sorted(tokens[to])[0]}")
    if "--list" in sys.argv:
        return
    for path in files("antt") + files("rt"):
        mark = "--" if path.endswith("antt") else "//"
        with open(path, encoding="utf-8") as f:
            old = f.read()
        lines = []
        for line in old.split("\n"):
            text, said = code(line, mark)
            lines.append(turned(text, names) + said)
        new = "\n".join(lines)
        if new != old:
            with open(path, "w", encoding="utf-8") as f:
                f.write(new)
    for path in sorted(glob.glob("crates/*/must-fail/*.edit")):
        with open(path, encoding="utf-8") as f:
            old = f.read()
        new = "\n".join(turned(l, names) if l.startswith(("old:", "new:")) else l for l in old.split("\n"))
        if new != old:
            with open(path, "w", encoding="utf-8") as f:
                f.write(new)
    print(f"respelled: {len(names)} names")


main()
