#!/usr/bin/env python3
"""Brings the repository's own definitions and lemmas to today's spelling, once.

usage: python3 tools/respell.py [FOLDER]     after port.py, before any edit by hand

Facts and types become camel case (Points-refused: PointsRefused), other words snake case
(clause-number: clause_number). In a lemma a dash stays where it joins two names that both stand
for something (written-append). The names of goals, which Rattle makes, stay; so do the functions,
strings and texts of src/. A name that would fall together with another is listed in APART.
"""

import glob
import os
import re
import sys

ROOT = sys.argv[1] if len(sys.argv) > 1 else "."
HEAD = re.compile(r"^\s*(?:(?:pub|abbrev|unfoldable|opaque|record|data|recursive|mutual|ruleset)\s+)*([^\s:(){}]+)(?:\s[^:]*)?\s:\s")
LOCAL = re.compile(r"\bas ([a-z]+(?:[A-Z][a-z]*)+|[a-z]+(?:-[a-z]+)+)\b")
MEMBER = re.compile(r"^\s*ghost ([a-z]+[A-Z]\w*)\s*[:=]", re.M)
TOKEN = re.compile(r"[^\s(){}\[\],;.λ→×≡≢≤∷:\u03bb\"`]+")
# Words that stand for something of their own, in the library or here.
NAMES = {"length", "append", "drop", "take", "set", "cons", "push", "get_or", "sum", "All", "put", "written", "edited", "entries"}
# Names that would fall together with another one, and what they are called.
APART = {
    "No-fit": "IsNoFit",
    "Not-ready": "IsNotReady",
    "Sheet-begun": "SheetIsBegun",
    "Sheet-ended": "SheetIsEnded",
    "fitted-here": "fits_here",
    "one-book": "one_book_lem",
}


def files(*patterns):
    for p in patterns:
        yield from sorted(glob.glob(os.path.join(ROOT, "crates", p), recursive=True))


def read(p):
    with open(p, encoding="utf-8") as f:
        return f.read()


def heads(p):
    for line in read(p).splitlines():
        m = HEAD.match(line)
        if m:
            yield m.group(1)


def camel(name):
    parts = re.split(r"[-_]", name)
    return "".join(x[:1].upper() + x[1:] for x in parts)


def snake(name):
    return re.sub(r"(?<=[a-z])([A-Z])", lambda m: "_" + m.group(1).lower(), name).replace("-", "_")


def lemma(name, known):
    parts = name.split("-")
    out = parts[0]
    for a, b in zip(parts, parts[1:]):
        out += ("-" if a in known and b in known else "_") + b
    return out


def goals(p):
    """Names that Rattle makes: those stated by goal. in an answer file."""
    return set(re.findall(r"^(?:abbrev )?(?:pub )?(\S+) : goal\.", read(p), re.M))


def gather():
    new = {}
    specs = [n for p in files("*/specs/**/*.antt") for n in heads(p)]
    known = NAMES
    for n in specs:
        if "-" in n:
            new[n] = camel(n) if n[:1].isupper() else snake(n)
    for p in files("*/proofs/**/*.antt"):
        made = goals(p)
        for n in heads(p):
            if "-" in n and n not in made and n not in new:
                new[n] = lemma(n, known) if not n[:1].isupper() else (n if n.split("-")[0] in known else camel(n))
    for p in files("*/src/**/*.rt"):
        for n in MEMBER.findall(read(p)):
            new[n] = snake(n)
    for p in files("*/src/**/*.rt", "*/specs/**/*.antt", "*/proofs/**/*.antt"):
        for line in read(p).splitlines():
            if line.startswith(("use ", "ghost use ")) or " ghost use " in line:
                for n in LOCAL.findall(line):
                    new.setdefault(n, snake(n))
    new.update({k: v for k, v in APART.items() if k in new})
    return {a: b for a, b in new.items() if a != b}


def turn(text, new):
    return TOKEN.sub(lambda m: new.get(m.group(0).rstrip("'"), m.group(0).rstrip("'")) + "'" * (len(m.group(0)) - len(m.group(0).rstrip("'"))) if m.group(0) not in new else new[m.group(0)], text)


def main():
    new = gather()
    where = list(files("*/src/**/*.rt", "*/specs/**/*.antt", "*/proofs/**/*.antt", "*/must-fail/*.edit"))
    there = {t for p in where if not p.endswith(".edit") for t in TOKEN.findall(read(p))}
    for a, b in sorted(new.items()):
        others = [x for x in new if x != a and new[x] == b]
        if (b in there and a not in APART) or others:
            print(f"falls together: {a} -> {b}", " ".join(others))
    for p in where:
        old = read(p)
        text = turn(old, new)
        if text != old:
            with open(p, "w", encoding="utf-8") as f:
                f.write(text)
    print(f"{len(new)} names")


main()
