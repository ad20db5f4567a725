#!/usr/bin/env python3
"""Brings the repository's own definitions and lemmas to snake case, as today's Rattle spells them.

usage: python3 tools/respell.py [ROOT]     once, after port.py, over crates/, README.md and docs/
       python3 tools/respell.py --words [ROOT]   prints each old name and its new one, and writes nothing

A word is turned where it begins with a small letter and has a capital further on: `isFree` is `is_free`. A dash joins two names, and each of them is turned
alone; one that begins with a capital, a fact or a type, stays. `getD` of the older library is today's `get_or`. The names are those that stand in .antt files; in
.rt files they are turned in clauses, `ghost` items and comments, never in a text between quotes. Where two names would become one, nothing is written.
"""

import collections
import glob
import os
import re
import sys

WORD = re.compile(r"[^\W\d][\w']*(?:-[\w'≡≤<+*∷]+)*")
QUOTED = re.compile(r'b?"(?:[^"\\]|\\.)*"')


def turned(name):
    def part(p):
        if p == "getD":
            return "get_or"
        if not re.match(r"[a-z]", p) or not re.search(r"[A-Z]", p):
            return p
        p = re.sub(r"([a-z0-9])([A-Z])", lambda m: m.group(1) + "_" + m.group(2), p)
        return p.lower()

    return "-".join(part(p) for p in name.split("-"))


def files(root, *patterns):
    for p in patterns:
        for f in sorted(glob.glob(os.path.join(root, p), recursive=True)):
            if "/out/" not in f:
                yield f


def antt(root):
    return files(root, "crates/*/specs/**/*.antt", "crates/*/proofs/**/*.antt")


def mapping(root):
    found = set()
    for f in antt(root):
        with open(f, encoding="utf-8") as it:
            found |= set(WORD.findall(it.read()))
    new = {w: turned(w) for w in found if turned(w) != w}
    together = collections.defaultdict(list)
    for w, n in new.items():
        together[n].append(w)
    twice = {n: sorted(ws) for n, ws in together.items() if len(ws) > 1}
    if twice:
        raise SystemExit(f"respell: these would be one name: {twice}")
    return new


def turn(text, new):
    return WORD.sub(lambda m: new.get(m.group(0), m.group(0)), text)


def turn_source(text, new):
    out, at = [], 0
    for line in text.splitlines(keepends=True):
        last, done = 0, []
        code = line.split("//", 1)
        for m in QUOTED.finditer(code[0]):
            done += [turn(line[last : m.start()], new), m.group(0)]
            last = m.end()
        done.append(turn(line[last:], new))
        out.append("".join(done))
    return "".join(out)


def main(argv):
    words = "--words" in argv
    root = next((a for a in argv if not a.startswith("--")), ".")
    new = mapping(root)
    if words:
        print("\n".join(f"{w} {n}" for w, n in sorted(new.items())))
        return 0
    changed = 0
    for f in list(antt(root)) + list(files(root, "crates/*/src/**/*.rt", "README.md", "docs/*.md")):
        with open(f, encoding="utf-8") as it:
            old = it.read()
        text = (turn_source if f.endswith(".rt") else turn)(old, new)
        if text != old:
            with open(f, "w", encoding="utf-8") as it:
                it.write(text)
            changed += 1
    print(f"respell: {len(new)} names, {changed} files")
    return 0


if __name__ == "__main__":
    raise SystemExit(main(sys.argv[1:]))
