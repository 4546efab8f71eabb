#!/usr/bin/env python3
"""Brings the repository's own definitions and lemmas to today's spelling: words in snake case, types in camel case.

usage: python3 tools/respell.py [--dry]        at the top, once, after the kit's own scripts

It reads which words the files of specs/ and proofs/ bind (definitions, lemmas, constructors, fields, parameters, locals), and turns each
that is spelled with a hyphen or a capital inside, wherever it stands in .antt files, in the ghost parts of .rt files, and between
backticks in README.md and docs/. A word that only a proof's goals name (after 'c.', 'l.' or 'goal.', and the answers themselves) is made
by Rattle from the code, and stays. A line 'together:' names each two words that are spelled alike from now on, and the files that have
both; OTHER gives a lemma another name where one file would bring in both.
"""

import collections
import os
import re
import sys

WORD = re.compile(r"(?<![A-Za-z0-9_'-])[A-Za-z_][A-Za-z0-9_']*(?:-[A-Za-z0-9_']+)*")
BOUND = [
    re.compile(r"^\s*(?:pub\s+)?(?:abbrev\s+|data\s+|record\s+)?(?:pub\s+)?(?P<names>[A-Za-z][\w'-]*(?: [A-Za-z][\w'-]*)*)\s*(?::(?!=)|\(|\{)", re.M),
    re.compile(r"[({](?P<names>[A-Za-z][\w'-]*(?: [A-Za-z][\w'-]*)*) : "),
    re.compile(r"\blet (?P<names>[A-Za-z][\w'-]*) (?::|=)"),
    re.compile(r"λ (?P<names>[A-Za-z][\w'-]*(?: [A-Za-z][\w'-]*)*)\."),
    re.compile(r"\bas (?P<names>[a-z][\w'-]*)\b"),
    re.compile(r"^(?P<names>[A-Za-z][\w'-]*(?: [a-z][\w'-]*)*) =", re.M),
]
GIVEN = re.compile(r"\bgoal\.(?P<name>[\w'-]+)")
LABEL = re.compile(r"\b(?:requires|ensures)\*? ([a-z][a-z0-9]*(?:_[a-z0-9]+)+) \{")

# Lemmas that would fall together with a definition.
OTHER = {"is-frame": "frame_fits", "on-beat": "beat_is_heard", "on-reply": "reply_is_heard", "on-tick": "tick_passes"}


def snake(word):
    if word in OTHER:
        return OTHER[word]
    if word[0].isupper():
        return "".join(w[:1].upper() + w[1:] for w in word.split("-"))
    word = re.sub(r"([a-z0-9'])([A-Z])", r"\1_\2", word)
    word = re.sub(r"([A-Z])([A-Z])", r"\1_\2", word)
    return word.replace("-", "_").lower()


def odd(word):
    return "-" in word or (word[0].islower() and any(c.isupper() for c in word))


def texts(root):
    for folder, dirs, files in os.walk(os.path.join(root, "crates")):
        dirs[:] = sorted(d for d in dirs if d not in ("out", "data"))
        for f in sorted(files):
            if f.endswith((".rt", ".antt")):
                yield os.path.join(folder, f)


def read(path):
    with open(path, encoding="utf-8") as f:
        return f.read()


def code(text):
    """An .antt text without its comments."""
    return re.sub(r"(?m)(^|\s)--( .*)?$", "", text)


def main():
    root = os.getcwd()
    paths = [p for p in texts(root)]
    bound, given, labels, there = set(), set(), set(), collections.defaultdict(set)
    for p in paths:
        t = read(p)
        if p.endswith(".rt"):
            labels |= {m[1] for m in LABEL.finditer(t)}
            continue
        t = code(t)
        given |= {m["name"] for m in GIVEN.finditer(t)}
        for form in BOUND:
            for m in form.finditer(t):
                bound |= set(m["names"].split())
        for m in WORD.finditer(t):
            there[m[0]].add(p)
    words = {w: snake(w) for w in bound if odd(w) and w not in given}
    words |= {w.replace("_", "-"): w for w in labels}
    both = collections.defaultdict(set)
    for old, new in words.items():
        both[new].add(old)
        if new in there:
            both[new].add(new)
    fall = {new: olds for new, olds in both.items() if len(olds) > 1}
    for new, olds in sorted(fall.items()):
        files = [there[o] for o in olds]
        shared = [p for p in files[0] if all(p in f for f in files)]
        print(f"together: {new}: {', '.join(sorted(olds))}" + (f"; in {', '.join(os.path.relpath(p, root) for p in shared)}" if shared else "; in no one file"))
    if "--dry" in sys.argv:
        for old, new in sorted(words.items()):
            print(f"{old} {new}")
        return 0

    def turn(t, plain):
        def one(m):
            w = m[0]
            if w not in words or (not plain and "-" in w):
                return w
            before = t[max(0, m.start() - 200) : m.start()]
            path = re.search(r"[\w'.-]*\.$", before)
            if path and re.match(r"(c|l|goal|g)\.", path[0]) and w.replace("-", "_") not in labels and w not in fields:
                return w
            return words[w]

        return WORD.sub(one, t)

    fields = set()
    for p in paths:
        if p.endswith(".antt"):
            for m in re.finditer(r"(?m)^\s+pub ([\w'-]+) :", code(read(p))):
                fields.add(m[1])
    for p in paths:
        t = read(p)
        new = turn(t, True) if p.endswith(".antt") else "\n".join(l if l.lstrip().startswith("//") else turn(l, l.lstrip().startswith("ghost")) for l in t.split("\n"))
        if new != t:
            with open(p, "w", encoding="utf-8") as f:
                f.write(new)
    pages = [os.path.join(root, "README.md")] + [os.path.join(root, "docs", f) for f in sorted(os.listdir(os.path.join(root, "docs"))) if f.endswith(".md")]
    for p in pages:
        t = read(p)
        new = re.sub(r"`[^`\n]+`", lambda m: turn(m[0], True), t)
        if new != t:
            with open(p, "w", encoding="utf-8") as f:
                f.write(new)
    return 0


sys.exit(main())
