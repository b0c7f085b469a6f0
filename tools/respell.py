#!/usr/bin/env python3
"""Spells the repository's own definitions and lemmas in snake case, as the library's are.

usage: python3 tools/respell.py        at the top of the repository, once, after the kit's own script

A word that begins with a small letter and has a capital behind a small letter or a digit is such a name: rulesOf becomes rules_of, sumS becomes sum_s. getD, the
library's former word, becomes get_or. It goes over crates/*/specs, crates/*/proofs, crates/*/src and crates/*/must-fail; what stands between double quotes stays.
It names each word that another word had already.
"""
import glob
import re

WORD = re.compile(r"(?<![\w'·])[a-z][\w'₀-₉]*(?:-[\w'₀-₉]+)*")
QUOTED = re.compile(r'("(?:[^"\\]|\\.)*")')


def part(p):
    if p == "getD":
        return "get_or"
    if not re.match(r"[a-z]", p):
        return p
    return re.sub(r"(?<=[a-z0-9])([A-Z])", lambda m: "_" + m.group(1).lower(), p)


def word(w):
    return "-".join(part(p) for p in w.split("-"))


def main():
    files = []
    for below, ending in (("specs", ".antt"), ("proofs", ".antt"), ("src", ".rt"), ("must-fail", ".edit")):
        files += glob.glob(f"crates/*/{below}/**/*{ending}", recursive=True)
    texts = {}
    words = set()
    for f in sorted(files):
        with open(f, encoding="utf-8") as g:
            texts[f] = g.read()
        words.update(WORD.findall(texts[f]))
    for w in sorted(words):
        if word(w) != w and word(w) in words:
            print(f"{w}: {word(w)} was there before")
    for f, t in texts.items():
        pieces = QUOTED.split(t)
        new = "".join(p if i % 2 else WORD.sub(lambda m: word(m.group()), p) for i, p in enumerate(pieces))
        if new != t:
            with open(f, "w", encoding="utf-8") as g:
                g.write(new)


main()
