#!/usr/bin/env python3
"""Brings the names that this repository declares in specs/ and proofs/ to today's spelling, as 'handedOut' and 'handed-out' to 'handed_out'.

usage: respell.py table > respell.tsv   lists what the definitions and lemmas of crates/ want: old name, new name
       respell.py [FOLDER]              applies respell.tsv, beside this file, to crates/, README.md and docs/ below FOLDER
A row turns in specs/ and proofs/, in clauses and 'ghost use' items of src/, in must-fail edits, and in the code spans of comments and pages.
It stays where a file imports the name from another library, or is a function's proof that declares it as one of its goals.
Functions of src/, strings, inputs and outputs are not touched.
"""

import os
import re
import sys

HERE = os.path.dirname(os.path.realpath(__file__))
WORD = re.compile(r"[^\s(){}.;,@\"«»\[\]|:=]+")
DECLARED = re.compile(r"^(\s*)(?:abbrev |unfoldable |opaque |instance |pub |private )*([a-z][\w'-]*) +(?:[({].*)?:(?!=)", re.M)
DECLARED_ALONE = re.compile(r"^(\s*)(?:abbrev |unfoldable |opaque |pub |private )*([a-z][\w'-]*) :\s*$", re.M)
USE = re.compile(r"^use ([^\s{;]+?)\.?(?:\{([^}]*)\})?$", re.M)
GHOST = re.compile(r"ghost\s+use\b[^;]*;|(?:requires|ensures)\*?\s*(?:\w+\s*)?\{")
def crates(root):
    return sorted(c for c in os.listdir(os.path.join(root, "crates")) if os.path.isdir(os.path.join(root, "crates", c, "src")))


def files(root, ending, *parts):
    for c in crates(root):
        for part in parts:
            for folder, dirs, names in os.walk(os.path.join(root, "crates", c, part)):
                dirs[:] = sorted(d for d in dirs if d != "out")
                for n in sorted(names):
                    if n.endswith(ending):
                        yield os.path.join(folder, n)


def read(path):
    with open(path, encoding="utf-8") as f:
        return f.read()


def is_walk(path):
    return os.path.basename(path) in ("Proof.antt", "Answers.antt", "Invariants.antt")


def code(text):
    """The text without comments."""
    return re.sub(r"--[^\n]*", "", text)


def declared(text):
    return {m.group(2) for r in (DECLARED, DECLARED_ALONE) for m in r.finditer(code(text))}


def snake(name):
    name = re.sub(r"(?<=[a-z0-9'])(?=[A-Z])", "_", name).lower()
    return name.replace("-", "_")


def table(root):
    names = set()
    for path in files(root, ".antt", "specs", "proofs"):
        if not is_walk(path):
            names |= declared(read(path))
    rows = {n: snake(n) for n in sorted(names) if snake(n) != n}
    # A lemma that would have a definition's name gets '_lem'.
    for old, new in rows.items():
        if "-" in old and (new in names or any(it != old and rows[it] == new for it in rows)):
            rows[old] = new + "_lem"
    for old, new in list(rows.items()):
        if new in names:
            rows[new] = new + "_lem"
    return dict(sorted(rows.items())), names


def foreign(text, own):
    """The names that a file imports from a library that is not of this repository."""
    found = set()
    for m in USE.finditer(text):
        parts = m.group(1).split(".")
        if not (parts[0] == "Rattle" and len(parts) > 1 and parts[1] in own):
            found |= set(re.findall(r"[^\s,{}]+", m.group(2) or parts[-1]))
    return found


def turned(text, rows, skip, after_dot):
    def one(m):
        word = m.group(0)
        if word not in rows or word in skip:
            return word
        if m.start() and text[m.start() - 1] == "." and not after_dot(word):
            return word
        return rows[word]

    return WORD.sub(one, text)


def spans(text, rows):
    return re.sub(r"`[^`\n]*`", lambda m: turned(m.group(0)[1:-1], rows, (), lambda w: True).join("``"), text)


def antt(path, text, rows, own):
    walk = is_walk(path)
    skip = foreign(text, own) | (declared(text) if walk else set())
    out = []
    for line in text.split("\n"):
        head, mark, tail = line.partition("--") if line.lstrip().startswith("--") else (line, "", "")
        out.append(turned(head, rows, skip, lambda w: not walk or not "-" in w) + mark + spans(tail, rows))
    return "\n".join(out)


def rt(text, rows):
    out, at = [], 0
    for m in iter(lambda: GHOST.search(text, at), None):
        out.append(re.sub(r"//[^\n]*", lambda c: spans(c.group(0), rows), text[at : m.start()]))
        end = m.end()
        if m.group(0).endswith("{"):
            depth = 1
            while depth:
                depth += {"{": 1, "}": -1}.get(text[end], 0)
                end += 1
        out.append(turned(text[m.start() : end], rows, (), lambda w: True))
        at = end
    out.append(re.sub(r"//[^\n]*", lambda c: spans(c.group(0), rows), text[at:]))
    return "".join(out)


def edit(text, rows, own):
    target = re.search(r"^file: (.*)$", text, re.M)
    in_antt = bool(target) and target.group(1).strip().endswith(".antt")

    def line(m):
        return m.group(1) + (turned(m.group(2), rows, (), lambda w: True) if in_antt else rt(m.group(2), rows))

    return re.sub(r"^((?:old|new): )(.*)$", line, text, flags=re.M)


def write(path, text, old):
    if text != old:
        with open(path, "w", encoding="utf-8") as f:
            f.write(text)


def apply(root):
    rows = dict(line.rstrip("\n").split("\t") for line in open(os.path.join(HERE, "respell.tsv"), encoding="utf-8"))
    own = set(crates(root))
    for path in files(root, ".antt", "specs", "proofs"):
        old = read(path)
        write(path, antt(path, old, rows, own), old)
    for path in files(root, ".rt", "src"):
        old = read(path)
        write(path, rt(old, rows), old)
    for path in files(root, ".edit", "must-fail"):
        old = read(path)
        write(path, edit(old, rows, own), old)
    pages = [os.path.join(root, "README.md")]
    for folder, _, names in os.walk(os.path.join(root, "docs")):
        pages += [os.path.join(folder, n) for n in names if n.endswith(".md")]
    for path in pages:
        if os.path.exists(path):
            old = read(path)
            write(path, spans(old, rows), old)


def main(argv):
    if argv[:1] == ["table"]:
        rows, _ = table(argv[1] if len(argv) > 1 else ".")
        for old, new in rows.items():
            print(f"{old}\t{new}")
    else:
        apply(argv[0] if argv else ".")


if __name__ == "__main__":
    main(sys.argv[1:])
