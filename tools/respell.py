#!/usr/bin/env python3
"""Respells this repository's own words in definitions, clauses and proofs: `fooBar` becomes `foo_bar`, as the toolchain's converter
left them (it respells only some). Words of the code in src/ (functions, fields, constants), types, modules, exported names, texts, inputs
and outputs keep theirs. With --list it says what it would write and changes nothing.

usage: tools/respell.py [--list]      at the top of the repository
"""

import collections
import glob
import re
import sys

# A word of the language: letters, digits, and what joins them.
WORD = re.compile(r"[A-Za-z_][\w'\u2080-\u2089?]*(?:[-\u2192]+[\w'\u2080-\u2089?*]+)*")
# A comment, a text in quotes, or a word.
PIECE = re.compile(r"--[^\n]*|\"(?:\\.|[^\"\\\n])*\"|" + WORD.pattern)
# Facts are spelled as types, and these were not.
FACTS = {"readAt": "ReadAt", "laterAt": "LaterAt", "writtenAt": "WrittenAt"}


def snake(word):
    """`word`, with each part between dashes in snake case where it begins with a small letter."""
    if word in FACTS:
        return FACTS[word]
    parts = re.split(r"([-\u2192]+)", word)
    return "".join(part_in_snake(p) for p in parts)


def part_in_snake(part):
    if not part[:1].islower() or not re.search(r"[a-z0-9][A-Z]", part):
        return part
    part = re.sub(r"([a-z0-9])([A-Z])", r"\1_\2", part)
    return re.sub(r"[A-Z]+", lambda m: m.group(0).lower(), part)


def files():
    for form in ("specs", "proofs"):
        yield from sorted(glob.glob(f"crates/*/{form}/**/*.antt", recursive=True))
    yield from sorted(glob.glob("crates/*/src/**/*.rt", recursive=True))


def turned(path, text, seen):
    def of(m):
        word = m.group(0)
        to = snake(word)
        if to != word:
            seen[(word, to)] += 1
        return to

    def piece(m):
        # A text in quotes stays; a comment's words are turned, also between quotes.
        return m.group(0) if m.group(0).startswith('"') else WORD.sub(of, m.group(0))

    if path.endswith(".antt"):
        return PIECE.sub(piece, text)
    # In code: `ghost use` lines and clauses alone. Clauses stand between a signature and its body, each in braces.
    out, at = [], 0
    for m in re.finditer(r"(?m)^ghost use [^;]*;|^\s*(?:requires|ensures)\*?(?: \w+)? \{|^\s*ghost \w+: \{", text):
        if m.start() < at:
            continue
        end = m.end()
        if not m.group(0).startswith("ghost use"):
            depth = 1
            while depth:
                depth += {"{": 1, "}": -1}.get(text[end], 0)
                end += 1
        out += [text[at:m.start()], WORD.sub(of, text[m.start():end])]
        at = end
    return "".join(out + [text[at:]])


def main():
    seen, before = collections.Counter(), collections.defaultdict(set)
    texts = {p: open(p, encoding="utf-8").read() for p in files()}
    words = collections.Counter(w for t in texts.values() for w in WORD.findall(t))
    new = {p: turned(p, t, seen) for p, t in texts.items()}
    for word, to in sorted(seen):
        before[to].add(word)
    for to, ws in sorted(before.items()):
        if len(ws) > 1 or to in words:
            print(f"look: {to} is also {', '.join(sorted(ws))}; it stood {words[to]} times before")
    if sys.argv[1:] == ["--list"]:
        for (word, to), n in sorted(seen.items()):
            print(f"{word} {to} {n}")
        return
    for p, t in new.items():
        if t != texts[p]:
            open(p, "w", encoding="utf-8").write(t)
    print(f"{len(before)} words in {sum(t != texts[p] for p, t in new.items())} files")


main()
