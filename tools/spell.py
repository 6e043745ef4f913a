#!/usr/bin/env python3
"""Spells the names that the texts below crates/ declare as today's Rattle does: words in snake case, so no dash and no capital inside.

usage: python3 tools/spell.py [--check]      at the top of the repository, once, behind port.py

A name turns where a file of specs/ or proofs/ declares it, at each use in code, clauses and must-fail edits and in code spans of comments. It stays where a file
imports a name so spelled from another library, and where only the proof of one function declares it. Types, modules, functions of src/, strings, inputs and
outputs keep their names. A lemma that would get the name of the definition that it is about gets _lem behind it. --check writes nothing.
"""
import collections
import os
import re
import sys

TOKEN = r'[^\s(){}.;,@"«»`\[\]]+'
HEAD = r"^[ \t]*(?:(?:pub|abbrev|unfoldable|unfolding|private)[ \t]+)*"
DECLARED = re.compile(rf"(?m){HEAD}({TOKEN})[ \t]*(?:\{{[^{{}}\n]*\}}[ \t]*|\([^()\n]*\)[ \t]*)*:(?=\s)")
HELD = re.compile(rf"(?m){HEAD}(?:record|data)[ \t]+({TOKEN})")
USE = re.compile(r"\buse[ \t]+([^\s;{]+)(?:\{([^}]*)\})?")
QUIET = re.compile(r'"(?:[^"\\\n]|\\.)*"|--[^\n]*|//[^\n]*')
SPAN = re.compile(r"`[^`\n]*`")
# Lemmas that have the name that a definition gets: the files that mean the lemma, by the beginning of their path.
LEMMAS = {
    "all_hold": ["timing/proofs/"],
    "items_at": ["joining/proofs/Accepting"],
    "joined_by": ["joining/proofs/"],
    "line_read": ["form/proofs/NumberLines", "net_card/proofs/start_lines/"],
    "met_by": ["schedule/proofs/"],
    "not_after": ["firing/proofs/Clocks"],
    "told_text": ["form/proofs/", "cards/proofs/"],
    "two_runs": ["ranking/proofs/"],
}
# Words that a clause or a proof may not use for a name, so a name stays if it would become one.
KEPT = {"record", "ruleset", "data", "open", "use", "as", "let", "in", "rw", "at", "where"}


def files(root, ends):
    for folder, dirs, names in os.walk(os.path.join(root, "crates")):
        dirs[:] = sorted(d for d in dirs if d != "out")
        for name in sorted(names):
            if name.endswith(ends):
                yield os.path.join(folder, name)


def snake(name):
    words = re.sub(r"(?<=[a-z0-9])([A-Z])(?![A-Z])", lambda m: "_" + m[1].lower(), name)
    words = re.sub(r"(?<=[a-z0-9])([A-Z])", r"_\1", words) if not words[:1].isupper() else words
    return words.replace("-", "_")


def turned(name):
    """A declared name in snake case, or itself if it needs no change: a type keeps its capitals."""
    if name[:1].isupper():
        return name.replace("-", "_")
    return snake(name).lower() if re.search(r"[a-z0-9][A-Z]|-", name) else name


def read(path):
    with open(path, encoding="utf-8") as f:
        return f.read()


def imported(text, own):
    """The names that a text imports from libraries that are not this repository's."""
    found = set()
    for path, items in USE.findall(text):
        if any(path.startswith(f"Rattle.{c}.") for c in own):
            continue
        for item in items.split(","):
            word = item.split(" as ")[-1].strip()
            if word:
                found.add(word)
    return found


def table(root, own):
    names = collections.defaultdict(set)
    for path in files(root, ".antt"):
        text = QUIET.sub("", read(path))
        for pattern in (DECLARED, HELD):
            for m in pattern.finditer(text):
                if not path.endswith("/Proof.antt") or m[1].endswith("-spec"):
                    names[m[1]].add(path)
    rows = {n: turned(n) for n in names if turned(n) != n and re.match(r"[A-Za-z]", n)}
    definitions = {turned(n) for n in names if "-" not in n}
    for old, new in sorted(rows.items()):
        if "-" in old and new in definitions:
            rows[old] = new + "_lem"
            print("lemma:", old, "is now", rows[old])
        if rows[old] in KEPT:
            print("left:", old, "would be a word of the language")
            del rows[old]
    return rows


def turn(text, rows, stay):
    rows = {o: n for o, n in rows.items() if o not in stay}
    token = re.compile(r'(?<![^\s(){}.;,@"«»`\[\]←])' + TOKEN)
    word = lambda m: rows.get(m[0], m[0])
    code = lambda it: token.sub(word, it)
    parts, at = [], 0
    for m in QUIET.finditer(text):
        parts.append(code(text[at : m.start()]))
        parts.append(m[0] if m[0].startswith('"') else SPAN.sub(lambda s: code(s[0]), m[0]))
        at = m.end()
    parts.append(code(text[at:]))
    return "".join(parts)


def main(words):
    root = os.getcwd()
    own = sorted(os.listdir(os.path.join(root, "crates")))
    rows = table(root, own)
    for path in files(root, (".antt", ".rt", ".edit")):
        text = read(path)
        stay = imported(text, own)
        short = os.path.relpath(path, os.path.join(root, "crates"))
        lemmas = {old: old + "_lem" for old, begins in LEMMAS.items() if short.startswith(tuple(begins))}
        new = turn(text, {**rows, **lemmas}, stay)
        tokens = set(re.findall(TOKEN, QUIET.sub("", text)))
        for old in sorted(tokens & set(rows)):
            if old not in stay and rows[old] in tokens and rows[old] not in lemmas:
                print("look:", os.path.relpath(path, root), old, "and", rows[old], "stand in one file")
        if new != text and "--check" not in words:
            with open(path, "w", encoding="utf-8") as f:
                f.write(new)
    print(len(rows), "names")


if __name__ == "__main__":
    main(sys.argv[1:])
