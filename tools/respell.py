#!/usr/bin/env python3
"""Brings the repository's own definitions and lemmas to Rattle's spelling, once, after the port's script.

usage: tools/respell.py [ROOT]

A name is written in snake case, with a type's name in it as it stands; a dash stays only between two names of definitions or types, and
everywhere else a word is added with `_`. A lemma that would have a definition's name gets `_lem`. It rewrites the .antt files, the clauses and `ghost use` lines of the .rt files, the must-fail edits,
and what docs/ and README.md write in backticks. Functions of src/, strings and comments of the code keep their names. It prints each name
that falls together with another in a file.
"""
import os
import re
import sys

ROOT = sys.argv[1] if len(sys.argv) > 1 else os.path.join(os.path.dirname(os.path.abspath(__file__)), "..")
NAME = r"[^\s(){}\[\],;.:=λ→×|↦?«»\"`+*<≤≡∷∙⊎]+"
TOKEN = re.compile(NAME)
HEAD = re.compile(r"^(\s*)((?:(?:pub|abbrev|unfoldable)\s+)*)(record|data|ruleset)?\s*(" + NAME + r")(\s.*|$)")
WORDS = {"length", "take", "drop", "append", "set", "map", "get_or", "reverse", "replicate", "min", "max", "flatten", "filter"}
OLDER = {"getD": "get_or"}
# lemmas that would have the name of what they speak of
BESIDE = {"start_first", "read_back", "name_in"}


def antt(root):
    for folder, dirs, names in os.walk(os.path.join(root, "crates")):
        dirs[:] = sorted(d for d in dirs if d != "out")
        for name in sorted(names):
            if name.endswith(".antt"):
                yield os.path.join(folder, name)


def read(path):
    with open(path, encoding="utf-8") as f:
        return f.read()


def declared(root):
    """The names that the specs and the lemma files declare: all of them, and of those the definitions and types."""
    names, defs = set(), set()
    for path in antt(root):
        if path.endswith(("/Proof.antt", "/Answers.antt", "/Invariants.antt")):
            continue
        for line in read(path).split("\n"):
            m = HEAD.match(line)
            if not m or m[4] in ("use", "where", "unfolding", "--", "let", "in", "elim", "pub", "module", "mod", "_"):
                continue
            if m[3] or re.match(r"\s+:(\s|$)", m[5]) or re.match(r"^\s*(pub\s+)?(record|data)\b", line):
                names.add(m[4])
                if m[3] in ("record", "data") or "abbrev" in m[2] or "unfoldable" in m[2]:
                    defs.add(m[4])
    return names, defs


def snake(part):
    for old, new in OLDER.items():
        part = re.sub(rf"{old}(?![a-z])", new, part)
    if re.match(r"[A-Z][a-z]", part):
        return part
    return re.sub(r"(?<=[a-z0-9'])([A-Z])", lambda m: "_" + m[1].lower(), part)


def respelled(name, defs):
    parts = [snake(p) for p in name.split("-")]
    if "" in parts:
        return name
    out = parts[0]
    for i, part in enumerate(parts[1:], 1):
        left, right = "-".join(parts[:i]), part
        dash = (parts[i - 1] in defs or left in defs) and right in defs
        out += ("-" if dash else "_") + part
    return out


def clauses(text):
    """The stretches of a .rt file that are antt: ghost uses, and the braces of clauses and ghost items."""
    for m in re.finditer(r"\bghost use [^;]*;", text):
        yield m.span()
    for m in re.finditer(r"\b(?:requires|ensures)\*?(?: \w+)? \{|\bghost \w+(?: =|:) \{", text):
        depth, i = 1, m.end()
        while depth:
            depth += {"{": 1, "}": -1}.get(text[i], 0)
            i += 1
        yield m.start(), i


def main():
    names, defs = declared(ROOT)
    seen = {respelled(d, set()) for d in defs if "-" not in d} | WORDS
    table = {n: respelled(n, seen) for n in sorted(names)}
    table = {n: t for n, t in table.items() if n != t}
    made = {}
    for n, t in table.items():
        made.setdefault(t, []).append(n)
    for t, ns in sorted(made.items()):
        if len(ns) > 1:
            for n in ns:
                if "-" in n:
                    table[n] = t + "_lem"
    table.update({n: n + "_lem" for n in BESIDE if n in names})

    def one(m):
        n, text, (a, b) = m[0], m.string, m.span()
        if n in BESIDE and (text[a - 1 : a] == "." or text[b : b + 1] == "."):
            return n
        return table.get(n, n)

    def turn(text):
        return TOKEN.sub(one, text)

    def put(path, text, new):
        if new != text:
            with open(path, "w", encoding="utf-8") as f:
                f.write(new)

    for path in antt(ROOT):
        text = read(path)
        tokens = set(TOKEN.findall("\n".join(x for x in text.split("\n") if not x.lstrip().startswith("--"))))
        for t in sorted(tokens & set(table)):
            if table[t] in tokens and table[t] not in table:
                print(f"{path}: {t} becomes {table[t]}, which the file has")
        new = "\n".join(line if line.lstrip().startswith("--") else turn(line) for line in text.split("\n"))
        put(path, text, new)
    for folder, dirs, files in os.walk(os.path.join(ROOT, "crates")):
        dirs[:] = sorted(d for d in dirs if d != "out")
        for name in sorted(files):
            path = os.path.join(folder, name)
            if name.endswith(".rt"):
                text = read(path)
                new, at = "", 0
                for a, b in sorted(clauses(text)):
                    if a < at:
                        continue
                    new += text[at:a] + turn(text[a:b])
                    at = b
                put(path, text, new + text[at:])
            elif name.endswith(".edit"):
                text = read(path)
                if "file: specs/" in text:
                    put(path, text, turn(text))
    final = {table.get(n, n) for n in names}
    docs = [os.path.join(ROOT, "README.md")]
    for folder, dirs, files in os.walk(os.path.join(ROOT, "docs")):
        docs += [os.path.join(folder, f) for f in files if f.endswith(".md")]
    for path in docs:
        text = read(path)

        def word(m):
            return TOKEN.sub(lambda n: respelled(n[0], seen) if respelled(n[0], seen) in final else n[0], m[0])

        put(path, text, re.sub(r"`[^`\n]+`", word, text))


if __name__ == "__main__":
    main()
