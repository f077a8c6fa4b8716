#!/usr/bin/env python3
"""Respells this repository's own definitions and lemmas: 'l1dSetOf' to 'l1d_set_of', 'evictL2-next' to 'evict_l2-next'.

usage: python3 tools/respell.py     at the top of the repository

Functions, lemmas, fields and constructors of specs/ and proofs/ are in snake case, types and modules in upper camel case;
a dash joins two names and stays. It goes by words: each part of a name that begins with a lower-case letter and has a
capital behind it turns, in every .antt file, in the clauses and comments of .rt files (Rust's own names have no such
word), in the must-fail edits and in the pages. Strings and words of LEAVE stay. A second run changes nothing.
It stops where two names would fall together. A lemma that would get the name of the definition that it speaks of ends in
'_lem': LEMMAS names those, with the files that know them.
"""

import collections
import os
import re
import sys

PART = re.compile(r"(?<![A-Za-z0-9_'])[a-z][a-z0-9]*(?:[A-Z][a-z0-9]*)+(?![A-Za-z0-9_])")
STRING = re.compile(r'"(?:\\.|[^"\\\n])*"')
LEAVE = {"x7F", "getD"}
# lemmas that would fall together with a definition, and the files that declare or cite them
LEMMAS = {
    "at_first": ["dropped_lines/proofs/Words", "dropped_lines/proofs/Runs", "dropped_lines/proofs/ChipWords"],
    "digits_value": ["traces/proofs/ShortRuns"],
    "frame_step": ["agreement/proofs/Frames"],
    "fresh_ok": ["two_runs/proofs/Behaviour", "two_runs/proofs/ChipBoth"],
    "read_done": ["unaligned/specs/Meets"],
    "write_done": ["unaligned/specs/Meets"],
    "read_up": ["agreement/proofs/Unaligned", "agreement/proofs/Frames", "agreement/proofs/Bounds", "unaligned/specs/Meets"],
    "write_up": ["agreement/proofs/Unaligned", "agreement/proofs/Bounds", "unaligned/specs/Meets"],
}
FOLDERS = ("crates",)
PAGES = ("README.md", "docs")


def snake(word):
    return re.sub(r"(?<=[a-z0-9])([A-Z])", lambda m: "_" + m.group(1).lower(), word).lower()


def files():
    for top in FOLDERS:
        for folder, dirs, names in os.walk(top):
            dirs[:] = sorted(d for d in dirs if d not in ("out", "data"))
            for n in sorted(names):
                if n.endswith((".antt", ".rt", ".edit")):
                    yield os.path.join(folder, n)


def pages():
    for top in PAGES:
        if os.path.isfile(top):
            yield top
        for folder, _, names in os.walk(top):
            for n in sorted(names):
                if n.endswith(".md"):
                    yield os.path.join(folder, n)


def turned(text, words):
    return PART.sub(lambda m: snake(m[0]) if m[0] in words else m[0], text)


def own_lemmas(path, text, words):
    """The lemmas of LEMMAS in this file; where the definition has its new name already, nothing is to be done."""
    here = path[len("crates/") : -len(".antt")]
    for w, where in LEMMAS.items():
        if here in where and any(snake(v) == w for v in words):
            text = re.sub(rf"(?<![A-Za-z0-9_'-]){w}(?![A-Za-z0-9_'-])", w + "_lem", text)
    return text


def outside_strings(text, words):
    out, at = [], 0
    for m in STRING.finditer(text):
        out += [turned(text[at : m.start()], words), m[0]]
        at = m.end()
    return "".join(out) + turned(text[at:], words)


def main():
    texts = {}
    for p in files():
        with open(p, encoding="utf-8") as f:
            texts[p] = f.read()
    words = set()
    for p, t in texts.items():
        if p.endswith(".antt"):
            words |= set(PART.findall(t))
    for p, t in texts.items():
        if p.endswith(".rt"):
            words |= set(PART.findall(STRING.sub("", t)))
    for p, t in texts.items():
        if p.endswith(".edit"):
            words |= set(PART.findall("\n".join(l for l in t.split("\n") if l.startswith(("old:", "new:")))))
    words -= LEAVE
    new = collections.defaultdict(set)
    for w in words:
        new[snake(w)].add(w)
    if any(len(v) > 1 for v in new.values()):
        print("fall together:", [sorted(v) for v in new.values() if len(v) > 1])
        return 1
    for p in pages():
        with open(p, encoding="utf-8") as f:
            texts[p] = f.read()
    n = 0
    for p, t in texts.items():
        u = outside_strings(t, words) if p.endswith(".rt") else turned(own_lemmas(p, t, words), words)
        if u != t:
            n += 1
            with open(p, "w", encoding="utf-8") as f:
                f.write(u)
    print(f"{len(words)} words, {n} files")
    return 0


if __name__ == "__main__":
    sys.exit(main())
