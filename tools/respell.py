#!/usr/bin/env python3
"""Respells the repository's own definitions and lemmas: words in snake case, types in camel case.

usage: python3 tools/respell.py [--dry]     at the top of the repository, once

What a file of specs/ or proofs/ defines (definitions, lemmas, fields, constructors, names given by `as`) is turned
wherever it stands in .antt files and in clauses and ghost items of .rt files; no must-fail edit names one. Names of
goals, which the check makes, and names of the libraries stay. Prints the names that fall together with another.
"""

import collections
import glob
import os
import re
import sys

WORD = re.compile(r"[^\s(){}\[\],;.:@\"`|]+")
DEFINED = re.compile(r"^(?:(?:pub|abbrev|unfoldable|data|record)\s+)*([^\s:(){}]+)\s*(?:\([^)]*\)\s*|\{[^}]*\}\s*)*:\s*(.*)")
TYPE = re.compile(r"^(?:pub\s+)?(?:data|record)\s+([^\s:(){}]+)")
INSIDE = re.compile(r"^\s+(?:(?:pub|abbrev)\s+)*([^\s:(){}|=]+) : ")
IMPORT = re.compile(r"(?:ghost )?use ([\w.'+-]+)\.\{([^}]*)\}")


def crates():
    return sorted(os.path.basename(os.path.dirname(p)) for p in glob.glob("crates/*/src"))


def is_own(path):
    return re.match(r"Rattle\.(%s)\." % "|".join(crates()), path + ".") is not None


def new_name(name):
    if name[0].isupper():
        return "".join(part[:1].upper() + part[1:] for part in re.split("[-_]", name))
    name = name.replace("-", "_")
    return re.sub(r"(?<=[a-z0-9])([A-Z])", lambda m: "_" + m.group(1).lower(), name)


def read(path):
    with open(path, encoding="utf-8") as f:
        return f.read()


def names(files):
    """The names that the repository defines, and those that it takes from the libraries."""
    own, kit = set(), set()
    for path in files:
        text = read(path)
        for m in IMPORT.finditer(text):
            for item in m.group(2).split(","):
                words = item.split()
                if len(words) == 3:
                    own.add(words[2])
                if words and not is_own(m.group(1)):
                    kit.add(words[0])
        if not path.endswith(".antt"):
            continue
        for line in text.split("\n"):
            m = DEFINED.match(line)
            if m and m.group(2).strip() != "goal." + m.group(1):
                own.add(m.group(1))
            m = TYPE.match(line)
            if m:
                own.add(m.group(1))
            m = INSIDE.match(line)
            if m and not line.strip().startswith(("let ", "elim ")):
                own.add(m.group(1))
    return own - {"let", "use"}, kit


def turned(own, kit):
    out = {}
    for name in own:
        if name in kit or not re.match(r"[A-Za-zℤℕ]", name) or not re.search(r"[A-Za-z]{2}|-", name):
            continue
        to = new_name(name)
        if to != name and ("-" in name or re.search(r"[a-z][A-Z]", name)):
            out[name] = to
    return out


def turn_words(text, table):
    return WORD.sub(lambda m: table.get(m.group(0), m.group(0)), text)


def turn_antt(text, table):
    return "\n".join(line if line.lstrip().startswith("--") else turn_words(line, table) for line in text.split("\n"))


def turn_rt(text, table):
    """Hyphens stand only in ghost text; comments and strings stay."""
    out = []
    for line in text.split("\n"):
        code = line.lstrip()
        if code.startswith("//") or '"' in line:
            out.append(line)
        else:
            out.append(turn_words(line, table))
    return "\n".join(out)


def main():
    files = sorted(glob.glob("crates/**/*.antt", recursive=True) + glob.glob("crates/**/*.rt", recursive=True))
    own, kit = names(files)
    table = turned(own, kit)
    taken = collections.Counter(table.values())
    for old, new in sorted(table.items()):
        why = [w for w, there in (("own", new in own), ("twice", taken[new] > 1), ("library", new in kit)) if there]
        if why:
            print(f"falls together: {old} -> {new} ({', '.join(why)})")
    print(f"{len(table)} names turn")
    if "--dry" in sys.argv:
        print(" ".join(f"{a}->{b}" for a, b in sorted(table.items())))
        return
    for path in files:
        text = read(path)
        new = turn_antt(text, table) if path.endswith(".antt") else turn_rt(text, table)
        if new != text:
            with open(path, "w", encoding="utf-8") as f:
                f.write(new)


if __name__ == "__main__":
    main()
