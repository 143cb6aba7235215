#!/usr/bin/env python3
"""Respells the repository's own names of specs/ and proofs/: words in snake case, facts in camel case.

usage: python3 tools/respell.py [ROOT]

Run once, at the top, after /opt/rattle/port/port.py. A name is one that a file of specs/ or proofs/ defines, or that a
`use` line gives by `as`, or that stands in BY_HAND. Functions, strings and comments of src/ keep their text. It stops,
with nothing written, where two names would fall together in one file.
"""

import os
import re
import sys

# names of variables and of clauses, which no line defines; names with a question mark; names that would fall together
BY_HAND = {
    "Counts-differ": "CountsApart",
    "bool?": "bool_cases",
    "same?": "same_cases",
    "paused?": "is_paused",
    "ended?": "is_ended",
    "no-file": "no_file",
    "no-space": "no_space",
    "not-kept": "not_kept",
    "in-store": "in_store",
    "hand-lawful": "hand_lawful",
    "text-fits": "text_fits",
    "texts-fit": "texts_fit",
}

WORD = re.compile(r"[A-Za-z][^\s(){}\[\];,.\"@⟦⟧«»:]*")
DEFINES = re.compile(
    r"\s*(?:(?:abbrev|unfoldable|pub|data|record|ruleset)\s+)*"
    r"([^\s:(){}]+(?:\s+[^\s:(){}]+)*?)\s+(?:\{[^}]*\}\s*|\([^)]*\)\s*)*:\s+(\S.*)$"
)
ALIAS = re.compile(r"\bas ([A-Za-z][\w'?]*(?:-[\w'?]+)+)")


def files(root, *endings):
    for folder, dirs, names in os.walk(os.path.join(root, "crates")):
        dirs[:] = sorted(d for d in dirs if d != "out")
        for name in sorted(names):
            if name.endswith(endings):
                yield os.path.join(folder, name)


def read(path):
    with open(path, encoding="utf-8") as f:
        return f.read()


def respelled(name):
    parts = name.split("-")
    if name[0].isupper():
        return "".join(p[0].upper() + p[1:] for p in parts)
    return "_".join(parts)


def table(root):
    """Each old name with its new one."""
    found = dict(BY_HAND)
    for path in files(root, ".antt", ".rt"):
        for line in read(path).split("\n"):
            if line.lstrip().startswith(("//", "-- ")):
                continue
            for alias in ALIAS.findall(line):
                found.setdefault(alias, respelled(alias))
            if path.endswith(".rt") or line.lstrip().startswith("use "):
                continue
            m = DEFINES.match(line)
            if m and not m.group(2).startswith("goal."):
                for name in m.group(1).split():
                    if WORD.fullmatch(name) and "-" in name[1:]:
                        found.setdefault(name, respelled(name))
    return found


def turn(text, names):
    return WORD.sub(lambda m: names.get(m.group(0), m.group(0)), text)


def turn_line(path, line, names):
    """A line with its names turned: comments only between back quotes, strings never."""
    mark = "//" if path.endswith(".rt") else "--"
    if line.lstrip().startswith(mark):
        return re.sub(r"`[^`]*`", lambda m: turn(m.group(0), names), line)
    if path.endswith(".edit") and not line.startswith(("old: ", "new: ")):
        return line
    if path.endswith(".antt"):
        return turn(line, names)
    return "".join(p if p.startswith('"') else turn(p, names) for p in re.split(r'(b?"(?:[^"\\]|\\.)*")', line))


def bare_words(path, text):
    """The words of a file that stand alone: no field, no part of a path, no function of the code."""
    text = "\n".join(l for l in text.split("\n") if not l.lstrip().startswith(("//", "--")))
    text = re.sub(r"\.[\w'-]+|[\w'-]+(?=\.)|\b[\w'-]+(?= = )", " ", text)
    if path.endswith(".rt"):
        text = re.sub(r"\bfn \w+|\w+(?=\()|\bpub \w+(?=: )", " ", text)
    return set(WORD.findall(text))


def main(root):
    names = table(root)
    clashes, written = [], []
    for path in files(root, ".antt", ".rt", ".edit"):
        old = read(path)
        if path.endswith((".antt", ".rt")):
            words = bare_words(path, old)
            into = {}
            for w in words:
                into.setdefault(names.get(w, w), []).append(w)
            clashes += [f"{path}: {sorted(v)} would all be {k}" for k, v in into.items() if len(v) > 1]
        new = "\n".join(turn_line(path, line, names) for line in old.split("\n"))
        if new != old:
            written.append((path, new))
    if clashes:
        print("\n".join(clashes))
        return 1
    for path, new in written:
        with open(path, "w", encoding="utf-8") as f:
            f.write(new)
    print(f"{len(names)} names, {len(written)} files")
    return 0


if __name__ == "__main__":
    raise SystemExit(main(sys.argv[1] if len(sys.argv) > 1 else "."))
