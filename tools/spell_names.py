#!/usr/bin/env python3
"""Spells the repository's own definitions and lemmas as today's Rattle does.

    python3 tools/spell_names.py        at the top of the repository, once, after port.py; --dry changes nothing

Words go into snake case (`first-slot` becomes `first_slot`), types into camel case (`Octet-tidy` becomes `OctetTidy`).
A name of the repository is one that stands in a file of specs/ or a lemma file of proofs/ and is not taken from the
library. Names of the library stay, and so do those that the check makes for the goals of a function. Prose in comments
stays but for what is quoted there.
"""
import re
import sys
from pathlib import Path

WORD = re.compile(r"(?<![A-Za-z0-9_'·◌-])[A-Za-z][A-Za-z0-9_']*(?:-[A-Za-z0-9_']+)+(?![A-Za-z0-9_'·◌-])")
USE = re.compile(r"^\s*(?:pub )?(?:ghost )?use ([^\s{]+?)\.?\{(.*?)\}", re.M)


def holds_definitions(path):
    """Whether the file stands right in specs/ or proofs/, so that no name in it is a goal of a function."""
    return path.suffix == ".antt" and path.parent.name in ("specs", "proofs")


def library_names(text):
    """The names that a file takes from the library."""
    names = set()
    for module, listed in USE.findall(text):
        if module.startswith("Rattle.std") or not module.startswith("Rattle."):
            for item in listed.split(","):
                names.update(re.split(r"\s+as\s+", item.strip()))
    return names


def spelled(name):
    parts = name.split("-")
    if name[0].isupper():
        return "".join(p[0].upper() + p[1:] for p in parts)
    return "_".join(parts)


def in_code(text, mark, change):
    """The text with its code changed, and in its comments what is quoted."""
    lines = []
    for line in text.split("\n"):
        code, sign, prose = line.partition(mark)
        lines.append(change(code) + sign + re.sub(r"`[^`]*`", lambda m: change(m.group(0)), prose))
    return "\n".join(lines)


def main():
    files = sorted(p for p in Path("crates").rglob("*") if p.suffix in (".antt", ".rt", ".edit") and "out" not in p.parts)
    texts = {p: p.read_text() for p in files}
    taken = {p: library_names(text) for p, text in texts.items()}
    own = set()
    for p, text in texts.items():
        if holds_definitions(p):
            in_code(text, "--", lambda code: own.update(WORD.findall(code)) or code)
        for module, listed in USE.findall(text):
            own.update(WORD.findall(" ".join(re.findall(r"\sas\s+(\S+?)(?:,|$)", listed))))
    own -= {name for p in texts if holds_definitions(p) for name in taken[p]}
    after = {}
    for p, text in texts.items():
        kept = set(taken[p])
        if p.suffix == ".antt" and not holds_definitions(p):
            kept.update(re.findall(r"\bgoal\.([A-Za-z0-9_'-]+)", text))
        change = lambda code: WORD.sub(lambda m: spelled(m[0]) if m[0] in own and m[0] not in kept else m[0], code)
        after[p] = in_code(text, "--" if p.suffix == ".antt" else "//", change)
    stands = {w for t in texts.values() for w in re.findall(r"[A-Za-z][A-Za-z0-9_']*", t)}
    pairs = {}
    for name in sorted(own):
        pairs.setdefault(spelled(name), []).append(name)
    for name, olds in pairs.items():
        if len(olds) > 1:
            print("fall together:", name, olds)
        elif name in stands:
            print("stands already:", olds[0], "->", name)
    changed = [p for p in files if after[p] != texts[p]]
    print(len(own), "names,", len(changed), "files")
    if "--dry" not in sys.argv:
        for p in changed:
            p.write_text(after[p])


main()
