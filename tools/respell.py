#!/usr/bin/env python3
"""Brings this repository's own definitions and lemmas to snake case, after port.py: isEntry and is-entry become is_entry.

usage: tools/respell.py      at the top of the repository, once, right after port.py

It goes by spelling. A name turns where it is declared here, in a .antt file of specs/ or proofs/; in a file that imports a name of that
spelling from elsewhere (the kit's), it stays there. Turned are .antt files, .rt files' clauses and `ghost use` items, and code spans of comments.
Types, functions of src/ and exported C names keep their spelling: none of them is in camel case with a small first letter, or has a dash.
The crate `bytes` becomes `byte_words`, since the kit has a library of the old name.
"""
import collections
import glob
import os
import re
import subprocess

WORD = re.compile(r"[^\s(){}.;,@\"«»\x60\[\]|]+")
SIGNATURE = re.compile(r"^\s*(?:(?:abbrev|unfoldable|pub|irrelevant)\s+)*((?:[^\s(){}.,:;λ→=]+\s+)+):\s")
CAMEL = re.compile(r"[a-z0-9₀-₉][A-Z]")
# A lemma whose name would fall together with that of a definition says that it is the law of it.
LAW = "_law"


def snake(name):
    spaced = re.sub(r"(?<=[a-z0-9₀-₉])(?=[A-Z])|(?<=[A-Z])(?=[A-Z][a-z])", "_", name)
    return spaced.lower().replace("-", "_") if spaced[0].islower() else name


def files(*kinds):
    return sorted(f for k in kinds for f in glob.glob("crates/*/" + k, recursive=True) if "/out/" not in f)


def declared():
    """Each name with a small first letter that a file of specs/ or proofs/ declares. Names that Rattle makes are typed `tie.` or `goal.` and stay."""
    found = collections.defaultdict(set)
    for f in files("specs/**/*.antt", "proofs/**/*.antt"):
        for line in open(f, encoding="utf-8"):
            m = SIGNATURE.match(line)
            if m and not re.search(r":\s+(tie|goal)\.", line):
                for name in m.group(1).split():
                    if name[0].islower():
                        found[name].add(f)
            for m in re.finditer(r"[({]((?:[^\s(){}.,:;λ→=]+\s+)+):\s", line):
                for name in m.group(1).split():
                    if name[0].islower() and CAMEL.search(name):
                        found[name].add(f)
    return found


def imported(text):
    """The names that a file imports from the kit."""
    names = set()
    for m in re.finditer(r"use\s+([^\s{;]+)\.\{([^}]*)\}", text):
        if not OWN.match(m.group(1)):
            names |= {w for part in m.group(2).split(",") for w in part.replace(" as ", " ").split()}
    return names


def spellings(names):
    """From each name that turns to what it becomes."""
    table = {n: snake(n) for n in names if CAMEL.search(n)}
    definitions = set(table.values())
    for n in names:
        if n not in table:
            s = snake(n)
            table[n] = s + LAW if s in definitions or n != s and s in names else s
    return {n: s for n, s in table.items() if n != s}


def turn(text, table, kept):
    """What stands behind a dot is a field, or a name that Rattle makes of a function's: there only camel case and dashes turn."""

    def one(m):
        made = text[m.start() - 1 : m.start()] == "." or text[m.end() : m.end() + 1] == "."
        if m[0] in kept or m[0] not in table:
            return m[0]
        if made and table[m[0]].endswith(LAW):
            return m[0] if snake(m[0]) == m[0] else snake(m[0])
        return table[m[0]]

    return WORD.sub(one, text)


def turn_antt(text, table, kept):
    out = []
    for line in text.split("\n"):
        code, dashes, comment = line.partition("--") if line.lstrip().startswith("--") or " -- " in line else (line, "", "")
        comment = re.sub(r"\x60[^\x60]*\x60", lambda m: turn(m[0], table, kept), comment)
        camel = {k: v for k, v in table.items() if "-" not in k}
        comment = WORD.sub(lambda m: camel.get(m[0], m[0]), comment)
        strings = re.split(r'("(?:[^"\\]|\\.)*")', code)
        out.append("".join(s if i % 2 else turn(s, table, kept) for i, s in enumerate(strings)) + dashes + comment)
    return "\n".join(out)


def turn_rt(text, table, kept):
    """Camel words turn anywhere but in strings; words with a dash only in clauses and imports, where no minus stands without blanks."""
    pieces = re.split(r'("(?:[^"\\\n]|\\.)*")', text)
    return "".join(s if i % 2 else turn(s, table, kept) for i, s in enumerate(pieces))


def main():
    global OWN
    own = [os.path.basename(d) for d in glob.glob("crates/*")]
    OWN = re.compile(r"Rattle\.(" + "|".join(map(re.escape, own)) + r")\b")
    table = spellings(declared())
    together = sorted(n for n, s in table.items() if s.endswith(LAW))
    print("laws that fell together with a definition:", *together)
    for f in files("specs/**/*.antt", "proofs/**/*.antt", "src/**/*.rt"):
        text = open(f, encoding="utf-8").read()
        kept = imported(text)
        new = (turn_rt if f.endswith(".rt") else turn_antt)(text, table, kept)
        new = re.sub(r"\bRattle\.bytes\b", "Rattle.byte_words", new)
        if f.endswith(".rt"):
            new = re.sub(r"\buse bytes::", "use byte_words::", new)
            new = re.sub(r"(?<![\w.:])bytes::", "byte_words::", new)
        if new != text:
            open(f, "w", encoding="utf-8").write(new)
    if os.path.isdir("crates/bytes"):
        subprocess.run(["git", "mv", "crates/bytes", "crates/byte_words"], check=True)
    listed = open("crates.txt", encoding="utf-8").read()
    open("crates.txt", "w", encoding="utf-8").write(re.sub(r"(?m)^bytes(?=:)|(?<=\s)bytes(?=\s|$)", "byte_words", listed) if "\nbytes:" in listed else listed)
    print(len(table), "names")


if __name__ == "__main__":
    main()
