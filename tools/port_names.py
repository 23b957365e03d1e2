#!/usr/bin/env python3
"""Spells the repository's own definitions, lemmas and fields in snake case, and its facts in upper camel case.

usage: python3 tools/port_names.py [--write]    at the top, once, after the toolchain's own port

A name is taken from where it is declared, in specs/ and proofs/. It is respelled wherever it stands as a whole
word in a proof file or in the clauses of src/; text in quotes and comments of src/ stay. The dash after `length`
joins two names, and stays too. Names that would fall together with another of their file are listed; where there
are any, nothing is written but with --write: a definition and the function of src/ that it speaks of may have one name.
The crate hex, whose name a library of the toolchain has, becomes hexadecimal.
"""

import os
import re
import sys

DECLARED = re.compile(r"^\s*(?:(?:abbrev|unfoldable|pub|record|data|ruleset)\s+)*([A-Za-z][\w'-]*)(?=\s*(?:\(.*\)|\{.*\})?\s*:)")
WORD = re.compile(r"(?<![\w'-])[A-Za-z_][\w'-]*")
QUOTED = re.compile(r'"(?:[^"\\]|\\.)*"|//[^\n]*|b?\'(?:[^\'\\]|\\.)\'')


def files(ends):
    for folder, dirs, names in os.walk("crates"):
        dirs[:] = sorted(d for d in dirs if d not in ("out", "must-fail"))
        for name in sorted(names):
            if name.endswith(ends):
                yield os.path.join(folder, name)


def spelled(name):
    if "-" not in name and not (name[0].isupper() and "_" in name):
        return name
    if name[0].isupper():
        return "".join(part[:1].upper() + part[1:] for part in re.split("[-_]", name))
    if name.startswith("length-"):
        return "length-" + name[7:].replace("-", "_")
    return name.replace("-", "_")


def rename_crate(old, new):
    os.rename(f"crates/{old}", f"crates/{new}")
    for path in [*files((".antt", ".rt")), "crates.txt"]:
        text = open(path, encoding="utf-8").read()
        if path == "crates.txt":
            turned = re.sub(rf"\b{old}\b", new, text)
        else:
            turned = re.sub(rf"\bRattle\.{old}\.", f"Rattle.{new}.", re.sub(rf"\buse {old}::", f"use {new}::", text))
        if turned != text:
            open(path, "w", encoding="utf-8").write(turned)


def main():
    texts = {p: open(p, encoding="utf-8").read() for p in files((".antt", ".rt"))}
    own = set()
    for path, text in texts.items():
        if path.endswith(".antt"):
            for line in text.splitlines():
                m = DECLARED.match(line)
                if m and "goal." not in line:
                    own.add(m.group(1))
        else:
            own.update(re.findall(r"\bas ([a-z][\w'-]*-[\w'-]*)", text))
    turned = {n: spelled(n) for n in own if spelled(n) != n}
    clash = []
    for path, text in texts.items():
        words = set(WORD.findall(text))
        for old, new in turned.items():
            if old in words and new in words:
                clash.append(f"{path}: {old} and {new}")
    for line in clash:
        print("fall together?", line)
    if clash and "--write" not in sys.argv:
        return 1
    turn = lambda text: WORD.sub(lambda m: turned.get(m.group(0), m.group(0)), text)
    for path, text in texts.items():
        if path.endswith(".antt"):
            new = turn(text)
        else:
            at, parts = 0, []
            for m in QUOTED.finditer(text):
                parts += [turn(text[at:m.start()]), m.group(0)]
                at = m.end()
            new = "".join(parts) + turn(text[at:])
        if new != text:
            open(path, "w", encoding="utf-8").write(new)
    for old in sorted(turned):
        print(old, "->", turned[old])
    if os.path.isdir("crates/hex"):
        rename_crate("hex", "hexadecimal")
    return 0


sys.exit(main())
