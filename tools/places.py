#!/usr/bin/env python3
"""Finds places where the code could say a thing once.

    python3 tools/places.py twins      functions whose texts are one, but for constants, numbers, literals, types and the names of locals
    python3 tools/places.py shapes     the same, but for the names of the functions that they call, too
    python3 tools/places.py together   parameters that stand together in three functions or more, and mostly there
    python3 tools/places.py facts      the words that open a fact of a `requires`, in three contracts or more

It reads the .rt files below crates/*/src of the folder that it is run in.
"""
import collections
import glob
import itertools
import re
import sys

WORDS = set("if else while let mut return match for in as true false bool usize u8 u16 u32 u64".split())


def functions():
    """Gives, of each function, the crate, the name, what stands between its name and its body, and the body."""
    for path in sorted(glob.glob("crates/*/src/**/*.rt", recursive=True)):
        text = re.sub(r"(?m)^\s*//.*\n", "", open(path, encoding="utf-8").read())
        for found in re.finditer(r'(?ms)^( *)(?:pub )?(?:extern "C" )?fn (\w+)(.*?)^\1\}$', text):
            head, brace, body = found.group(3).partition(f"\n{found.group(1)}{{\n")
            if brace:
                yield path.split("/")[1], found.group(2), head, body


def parameters(head):
    inner = re.match(r"(?:<[^>]*>)?\((.*?)\)", head.replace("\n", " "))
    return [it.strip() for it in inner.group(1).split(",") if it.strip()] if inner else []


def shape(head, body, keeps_calls):
    """Gives the body with constants, numbers and literals left out, and its locals numbered in the order in which they come."""
    body = re.sub(r"b'(\\.|[^'])'|b?\"[^\"]*\"", "#", body)
    body = re.sub(r"(?:[A-Z]\w*::)+\w+|\b[A-Z]\w*|\b\d\w*", "#", body)
    local = {it.split(":")[0].strip() for it in parameters(head)}
    local |= set(re.findall(r"let (?:mut )?(\w+)|for (\w+)", body) and sum(re.findall(r"let (?:mut )?(\w+)|for (\w+)", body), ()))
    names = {}

    def numbered(word):
        it = word.group()
        is_named = it in local if keeps_calls else it not in WORDS
        return names.setdefault(it, f"x{len(names)}") if is_named else it

    return " ".join(re.sub(r"\b[a-z_]\w*\b", numbered, body).split())


def alike(keeps_calls):
    groups = collections.defaultdict(list)
    for crate, name, head, body in functions():
        groups[shape(head, body, keeps_calls)].append(f"{crate}::{name}")
    groups = {it: where for it, where in groups.items() if len(where) > 1 and len(it) > 4}
    for it, where in sorted(groups.items(), key=lambda pair: -len(pair[0])):
        print(*where, "|", it[:120])
    print(len(groups), "groups")


def together():
    heads = [set(re.sub(r"^(?:p|t|scratch): &(?:mut )?\[u16\]", "words", it) for it in parameters(head)) for _, _, head, _ in functions()]
    one, sets = collections.Counter(), collections.Counter()
    for head in heads:
        one.update(head)
        for size in (2, 3):
            sets.update(itertools.combinations(sorted(head), size))
    for it, number in sorted(sets.items(), key=lambda pair: (-len(pair[0]), -pair[1])):
        if number > 2 and number >= 0.6 * max(one[name] for name in it):
            print(number, *(f"{name} ({one[name]})" for name in it), sep=" | ")


def facts():
    found = collections.Counter()
    for _, _, head, _ in functions():
        for clause in re.findall(r"requires (?:\w+ )?\{(.*)\}", head):
            found.update(set(re.findall(r"(?<![\w.])[A-Z]\w*(?= [a-z])", clause)))
    for word, number in found.most_common():
        if number > 2:
            print(number, word)


if __name__ == "__main__":
    ways = {"twins": lambda: alike(True), "shapes": lambda: alike(False), "together": together, "facts": facts}
    if len(sys.argv) != 2 or sys.argv[1] not in ways:
        sys.exit(__doc__)
    ways[sys.argv[1]]()
