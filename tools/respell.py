#!/usr/bin/env python3
"""Spells this repository's own definitions and laws as Rattle's style asks: words in snake case.

usage: respell.py [--table] [FOLDER]

Reads respell.tsv beside this file: a row for each name, the old spelling, a tab, the new one. Run once, right after the kit's port.py,
at the top of the repository (or on FOLDER). --table writes respell.tsv anew from the names that the files of specs/ and proofs/ declare.
What turns: whole words of .antt and .rt files outside quoted text, in comments the code spans and names in camel case; in .md files the
code spans; in .edit files the lines 'old:' and 'new:'. A word that a file imports from a library of the kit stays in that file.
"""
import collections
import os
import re
import sys

HERE = os.path.dirname(os.path.realpath(__file__))
TABLE = os.path.join(HERE, "respell.tsv")
WORD = re.compile(r'[^\s(){}.;,@"«»`]+')
DECLARED = re.compile(r"^ *(?:(?:unfoldable|abbrev|pub|mutual) )*([^\s(){}.;,@\"«»]+) :(?= |$)")
CAMEL = re.compile(r"^[a-z][A-Za-z0-9]*[A-Z][A-Za-z0-9]*'*$")
IMPORT = re.compile(r"\buse ([^\s;{]+)\{([^}]*)\}", re.S)


def files(root, endings):
    for folder, dirs, names in os.walk(root):
        dirs[:] = sorted(d for d in dirs if d not in ("out", ".git", "target", "tools"))
        for n in sorted(names):
            if n.endswith(endings):
                yield os.path.join(folder, n)


def crates(root):
    return set(os.listdir(os.path.join(root, "crates")))


def of_function(path):
    """Whether the file is in the folder of a function's proof."""
    return "/" in path.split("/proofs/", 1)[1] if "/proofs/" in path else False


def plain(name):
    words = re.sub(r"([a-z0-9])([A-Z])", lambda m: m[1] + "_" + m[2].lower(), name) if CAMEL.match(name) else name
    return words.replace("-", "_")


def table(root):
    declared = set()
    for p in files(os.path.join(root, "crates"), ".antt"):
        if of_function(p):
            continue
        with open(p, encoding="utf-8") as f:
            for line in f:
                m = DECLARED.match(line)
                if m and not line.lstrip().startswith("--"):
                    declared.add(m[1])
    rows = {}
    turn = sorted(n for n in declared if re.match(r"^[A-Za-z0-9_'-]+$", n) and plain(n) != n and not (n[0].isupper() and re.search(r"[a-z]", n)))
    # A definition has its name before a law, which gets `_lem` where both would have one.
    # The same where the new name is a crate's, or a word that some file has from the kit.
    taken = dict.fromkeys(crates(root))
    for p in files(os.path.join(root, "crates"), ".antt"):
        with open(p, encoding="utf-8") as f:
            taken |= dict.fromkeys(imported(f.read(), crates(root)))
    for n in sorted(turn, key=lambda n: ("-" in n, n)):
        new = plain(n)
        if new in taken:
            new += "_lem"
        taken[new] = n
        rows[n] = new
    # A law that has the spelling already, of which a definition becomes the name.
    for n in turn:
        if rows[n] in declared and "-" not in n:
            rows[rows[n]] = rows[n] + "_lem"
        elif rows[n] in declared:
            rows[n] += "_lem"
    with open(TABLE, "w", encoding="utf-8") as f:
        for n in sorted(rows):
            f.write(f"{n}\t{rows[n]}\n")


def rows():
    with open(TABLE, encoding="utf-8") as f:
        return dict(line.rstrip("\n").split("\t") for line in f)


def imported(text, own):
    """The words that the text imports from the kit."""
    found = set()
    for m in IMPORT.finditer(text):
        path = m[1].split(".")
        if not (path[0] == "Rattle" and len(path) > 1 and path[1] in own):
            found |= {w.split(" as ")[-1].strip() for w in m[2].split(",")}
    return found


def words(text, names):
    return WORD.sub(lambda m: names.get(m[0], m[0]), text)


def outside_quotes(text, names):
    parts = re.split(r'("(?:[^"\\\n]|\\.)*")', text)
    return "".join(p if i % 2 else words(p, names) for i, p in enumerate(parts))


def comment(text, names):
    parts = re.split(r"(`[^`\n]*`)", text)
    camel = {a: b for a, b in names.items() if CAMEL.match(a)}
    return "".join(words(p, names) if i % 2 else words(p, camel) for i, p in enumerate(parts))


def code(text, names, mark):
    out = []
    for line in text.split("\n"):
        cut = re.match(rf'((?:[^"\n]|"(?:[^"\\\n]|\\.)*")*?)((?:^|(?<=\s)){re.escape(mark)}.*)$', line)
        if cut:
            out.append(outside_quotes(cut[1], names) + comment(cut[2], names))
        else:
            out.append(outside_quotes(line, names))
    return "\n".join(out)


def turn(root):
    names, own = rows(), crates(root)
    met = collections.Counter()
    for p in files(root, (".antt", ".rt", ".md", ".edit")):
        with open(p, encoding="utf-8") as f:
            text = f.read()
        if p.endswith(".md"):
            new = "".join(words(q, names) if i % 2 else q for i, q in enumerate(re.split(r"(`[^`\n]*`)", text)))
        elif p.endswith(".edit"):
            new = "\n".join(outside_quotes(l, names) if l.startswith(("old:", "new:")) else comment(l, names) for l in text.split("\n"))
        else:
            kit = imported(text, own)
            here = {a: b for a, b in names.items() if a not in kit}
            present = set(WORD.findall(text))
            for a, b in here.items():
                if a in present and b in present and b not in here:
                    met[f"{p}: {a} meets {b}"] += 1
                if a in present and a in kit:
                    met[f"{p}: {a} is the kit's"] += 1
            new = code(text, here, "--" if p.endswith(".antt") else "//")
        if new != text:
            with open(p, "w", encoding="utf-8") as f:
                f.write(new)
    for m in sorted(met):
        print("look:", m)


if __name__ == "__main__":
    words_given = [a for a in sys.argv[1:] if a != "--table"]
    top = words_given[0] if words_given else "."
    if "--table" in sys.argv:
        table(top)
    else:
        turn(top)
