#!/usr/bin/env python3
"""Brings the repository's own names of specs/ and proofs/ to snake case, after the toolchain's port script has run.

usage: tools/respell.py [--list]      at the top of the repository

Definitions, lemmas, record fields and helpers that this repository declares in .antt files lose the dashes and the humps
of the older spelling: `means-after` becomes `means_after`, `mostBytes` becomes `most_bytes`. Facts and types (in upper
camel case), the names of goals, of invariants and of measures, names of source code and names of the library stay.
Two names that would fall together with another stand in SPECIAL. `--list` prints the names and writes nothing.
"""

import os
import re
import sys
import collections

SPECIAL = {"row-at-getD": "row_at_get_or", "key_of": "requested_key", "left_out": "left_out_lem"}
CRATES = set(os.listdir("crates")) if os.path.isdir("crates") else set()
TOKEN = re.compile(r"[^\s(){}\[\];,`\"⟦⟧«»]+")
DECLARED = re.compile(r"^\s*(?:(?:abbrev|unfoldable)\s+)?(?:pub\s+)?(?:(?:data|record)\s+)?([^\s:(){};,.=]+)\s*(?:[({][^)}]*[)}]\s*)*:\s")
GOAL = re.compile(r":\s*goal\.")


def texts(endings):
    for top in ("crates",):
        for folder, folders, files in os.walk(top):
            folders[:] = sorted(f for f in folders if f != "out")
            for name in sorted(files):
                if name.endswith(endings):
                    yield os.path.join(folder, name)


def spelled(name):
    if name in SPECIAL:
        return SPECIAL[name]
    name = name.replace("-", "_")
    return re.sub(r"([a-z0-9])([A-Z])", lambda m: m.group(1) + "_" + m.group(2).lower(), name)


def own_names():
    names = collections.defaultdict(set)
    for path in texts((".antt",)):
        with open(path, encoding="utf-8") as file:
            for line in file:
                if line.startswith(("use ", "--", "pub mod", "mod ")) or GOAL.search(line):
                    continue
                found = DECLARED.match(line)
                if found:
                    name = found.group(1)
                    if name[0].isalpha() and name[0].islower() and spelled(name) != name:
                        names[name].add(path)
    return names


# What a file takes from the library keeps its name there.
def from_library(text):
    taken = set()
    for path, words in re.findall(r"(?m)^\s*(?:ghost )?use ([\w.]+)\.\{(.*)\}", text):
        if not path.startswith("Rattle.") or path.split(".")[1] not in CRATES:
            taken.update(words.split(", "))
    return taken


# A step of a function's proof, a goal and a variable of a loop are named after the code, and keep their names.
STEPS = ("c", "goal", "l", "w")


def turned(line, names):
    def one(match):
        word = match.group(0)
        parts = word.split(".")
        if len(parts) == 1:
            return names.get(word, word)
        if parts[0] in STEPS:
            return word
        if parts[0] in names:
            parts[0] = names[parts[0]]
        return ".".join(parts[:1] + [names.get(part, part) for part in parts[1:]])

    return TOKEN.sub(one, line)


def main():
    found = own_names()
    names = {name: spelled(name) for name in found}
    if set(names) <= set(SPECIAL):
        print("respell: the names are in snake case already: nothing to do")
        return 0
    if "--list" in sys.argv:
        for name in sorted(names):
            print(name, names[name], *sorted(found[name]))
        return 0
    paths = list(texts((".antt", ".rt", ".edit")))
    paths += ["README.md"] + [os.path.join("docs", f) for f in sorted(os.listdir("docs")) if f.endswith(".md") and not f.startswith("PORT")]
    for path in paths:
        with open(path, encoding="utf-8") as file:
            old = file.read()
        lines = []
        taken = from_library(old)
        here = {name: new for name, new in names.items() if name not in taken}
        for line in old.splitlines(keepends=True):
            if path.endswith(".md"):
                line = re.sub(r"`[^`]*`", lambda m: turned(m.group(0), here), line)
            else:
                line = turned(line, here)
            lines.append(line)
        new = "".join(lines)
        if new != old:
            with open(path, "w", encoding="utf-8") as file:
                file.write(new)
    return 0


if __name__ == "__main__":
    raise SystemExit(main())
