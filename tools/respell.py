#!/usr/bin/env python3
"""Respells the repository's own definitions and lemmas: words in snake case, types in camel case.

Run once at the top, after the toolchain's own script. It renames each name that a file of specs/ or
proofs/ declares with a dash, in every .antt, .rt, .edit and .md file, strings of code apart.
`respell.py --list` prints the renamings and changes nothing.
"""
import glob
import os
import re
import sys

TOKEN = re.compile(r"[A-Za-z_][A-Za-z0-9_'-]*")
DECLARED = re.compile(
    r"\s*(?:(?:unfoldable|abbrev|record|data|ruleset|pub)\s+)*([A-Za-z_][A-Za-z0-9_'-]*)(?:\s+[({].*)?\s*:\s(.*)"
)


def antt_files():
    return sorted(glob.glob("crates/*/specs/**/*.antt", recursive=True) + glob.glob("crates/*/proofs/**/*.antt", recursive=True))


# the logic has an ones_in of a number's binary digits, and both are used side by side
OTHER = {"ones-in": "ones_among", "ones-in-append": "ones_among_append", "ones-in-le": "ones_among_le"}

# lemmas that the toolchain's script gave the spelling of the function whose contract they prove
LEMMAS = {"first_finds", "rank_rises"}


def functions():
    """The crates' functions, by name."""
    found = set()
    for path in glob.glob("crates/*/src/**/*.rt", recursive=True):
        found |= set(re.findall(r"\bfn (\w+)", open(path, encoding="utf-8").read()))
    return found


def respelled(name):
    if name in OTHER:
        return OTHER[name]
    if name[0].isupper():
        return "".join(part[0].upper() + part[1:] for part in name.split("-"))
    return name.replace("-", "_")


def renamings():
    names, lemmas, taken = set(), set(), functions()
    for path in antt_files():
        for line in open(path, encoding="utf-8"):
            m = DECLARED.match(line)
            # the answers to goals are named by the toolchain
            if m and "-" in m.group(1) and not m.group(2).startswith("goal.") and not m.group(2).startswith("given."):
                names.add(m.group(1))
                if "/proofs/" in path and line.startswith("pub "):
                    lemmas.add(m.group(1))
    names = {n for n in names if not n.startswith(("invariant-", "decreases-", "loop-", "returns-"))}
    # a lemma that would have its function's name
    return {n: respelled(n) + ("_lem" if n in lemmas and respelled(n) in taken else "") for n in sorted(names)}


def turn(text, new):
    text = re.sub(r"«([^»]*)»", lambda m: new[m.group(1)] if m.group(1) in new else m.group(0), text)
    return TOKEN.sub(lambda m: new.get(m.group(0), m.group(0)), text)


def turn_code(text, new):
    parts = re.split(r'("(?:[^"\\\n]|\\.)*")', text)
    return "".join(p if p.startswith('"') else turn(p, new) for p in parts)


def rename_crate(old, new):
    """The toolchain has a library of the old name."""
    if not os.path.isdir("crates/" + old):
        return
    os.rename("crates/" + old, "crates/" + new)
    for path in glob.glob("crates/**/*.antt", recursive=True) + glob.glob("crates/**/*.rt", recursive=True) + ["crates.txt"]:
        text = open(path, encoding="utf-8").read()
        out = re.sub(r"\bRattle\.%s\." % old, "Rattle.%s." % new, text)
        out = re.sub(r"\b%s::" % old, new + "::", out)
        if path == "crates.txt":
            out = re.sub(r"\b%s\b" % old, new, out)
        if out != text:
            open(path, "w", encoding="utf-8").write(out)


def main():
    if "--list" not in sys.argv:
        rename_crate("bytes", "byte_items")
    new = renamings()
    if "--list" in sys.argv:
        for a, b in new.items():
            print(a, b)
        return
    for path in antt_files() + sorted(glob.glob("docs/*.md")) + ["README.md"]:
        text = open(path, encoding="utf-8").read()
        out = turn(text, new)
        if path.endswith(".antt"):
            # not behind a dot, where it is the folder of the function's proof
            out = re.sub(r"(?<![\w.'-])(%s)(?![\w.'-])" % "|".join(sorted(LEMMAS)), r"\1_lem", out)
        if out != text:
            open(path, "w", encoding="utf-8").write(out)
    for path in sorted(glob.glob("crates/*/src/**/*.rt", recursive=True)) + sorted(glob.glob("crates/*/must-fail/*.edit")):
        text = open(path, encoding="utf-8").read()
        out = turn_code(text, new)
        if out != text:
            open(path, "w", encoding="utf-8").write(out)


main()
