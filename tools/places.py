#!/usr/bin/env python3
"""Counts the places of each point of docs/DESIGN-PASS.md in crates/*/src, and lists them.

    tools/places.py [COMMIT]

Without a commit the checkout is read. A place is a line (of points 5 and 2: a group of functions) that the pattern of a
point finds; docs/DESIGN-PASS.md says of each what became of it.
"""
import collections
import pathlib
import re
import subprocess
import sys

ROOT = pathlib.Path(__file__).resolve().parent.parent


def sources(commit):
    """The text of each source file, by its path."""
    if commit is None:
        return {str(p.relative_to(ROOT)): p.read_text() for p in sorted(ROOT.glob("crates/*/src/**/*.rt"))}
    git = ["git", "-C", str(ROOT)]
    names = subprocess.check_output(git + ["ls-tree", "-r", "--name-only", commit, "crates"], text=True).split()
    names = [n for n in names if re.match(r"crates/\w+/src/.*\.rt$", n)]
    return {n: subprocess.check_output(git + ["show", f"{commit}:{n}"], text=True) for n in names}


def matches(texts, pattern, skip=None):
    """Each line of code that a pattern finds."""
    found = []
    for name, text in texts.items():
        for number, line in enumerate(text.split("\n"), 1):
            code = line.split("//")[0]
            if re.search(pattern, code) and not (skip and re.search(skip, code)):
                found.append(f"{name}:{number}: {line.strip()}")
    return found


def opening(piece, at):
    """The parenthesis of the parameters, past those of the bounds."""
    depth = 0
    while piece[at] != "(" or depth:
        if piece[at - 1] != "-":
            depth += {"<": 1, ">": -1}.get(piece[at], 0)
        at += 1
    return at


def functions(texts):
    """Each function: its file, its name, its parameters, and its text up to the next one."""
    out = []
    for name, text in texts.items():
        starts = [m for m in re.finditer(r"^\s*(?:pub(?:\(crate\))? )?fn (\w+)", text, re.M)]
        for m, after in zip(starts, starts[1:] + [None]):
            piece = text[m.start():after.start() if after else len(text)]
            depth, begin = 0, opening(piece, m.end() - m.start())
            for end in range(begin, len(piece)):
                depth += {"(": 1, ")": -1}.get(piece[end], 0)
                if depth == 0:
                    break
            parts, level, word = [], 0, ""
            for letter in piece[begin + 1:end] + ",":
                level += {"<": 1, "(": 1, "[": 1, ">": -1, ")": -1, "]": -1}.get(letter, 0)
                if letter == "," and level <= 0:
                    parts.append(re.sub(r"\s+", " ", word.strip()))
                    word, level = "", 0
                else:
                    word += letter
            out.append((name, m.group(1), [p for p in parts if ":" in p], piece))
    return out


def together(texts):
    """Pairs of parameters that three or more functions take, the test functions aside."""
    takers = collections.defaultdict(list)
    for name, function, parts, _ in functions(texts):
        if "/samples/" in name:
            continue
        parts = [re.sub(r"^mut ", "", p) for p in parts]
        for i, one in enumerate(parts):
            for other in parts[i + 1:]:
                takers[one, other].append(f"{name.split('/')[1]}:{function}")
    return [f"{a} and {b}: {len(w)}: {' '.join(w)}" for (a, b), w in sorted(takers.items(), key=lambda x: -len(x[1])) if len(w) >= 3]


def clauses(texts):
    """Clauses whose text, the names of vectors aside, stands in the contracts of three or more functions."""
    takers = collections.defaultdict(set)
    for name, function, _, piece in functions(texts):
        for clause in re.findall(r"(?:requires|ensures)(?: \w+)? \{ (.*) \}$", piece, re.M):
            shape = re.sub(r"vec_(len|capacity) [\w.]+\.(old|new)", r"vec_\1 V.\2", clause)
            if re.search(r"vec_(len|capacity) V\.\w+ [≡≤] ", shape):
                shape = re.sub(r"([≡≤]) .*", r"\1 ..", shape)
            takers[shape].add(f"{name.split('/')[1]}:{function}")
    return [f"{{ {c} }}: {len(w)}: {' '.join(sorted(w))}" for c, w in sorted(takers.items(), key=lambda x: -len(x[1])) if len(w) >= 3]


def bodies(texts):
    """Functions whose bodies are the same text, types and constants aside."""
    same = collections.defaultdict(list)
    for name, function, _, piece in functions(texts):
        body = piece[piece.find("{\n"):] if "\n{" in piece or "{\n" in piece else ""
        body = piece.split("\n{\n")[-1] if "\n{\n" in piece else body
        body = body.split("\n}")[0]
        shape = re.sub(r"\b(\d[\d_]*|[A-Z]\w*)\b", "_", re.sub(r"//.*", "", body))
        shape = re.sub(r"\s+", " ", shape).strip()
        if len(shape) > 40:
            same[shape].append(f"{name.split('/', 1)[1]}:{function}")
    return [f"{len(w)}: {' '.join(w)}" for w in same.values() if len(w) > 1]


POINTS = {
    "1 own enums": lambda t: matches(t, r"^(pub(\(crate\))? )?enum "),
    "1 numbers for refusals and kinds": lambda t: matches(t, r"-> (Option<)?u8\b|Refused\(|refusal: |: u8,$|rows\[\d\]", r"fn digit"),
    "1 flags in structs": lambda t: matches(t, r"^\s+(pub(\(crate\))? )?\w+: bool,$"),
    "1 parameters that are flags": lambda t: matches(t, r"fn .*\b(queued|past|aimed): bool"),
    "2 functions of one body": bodies,
    "2 types of one shape": lambda t: matches(t, r"^pub struct \w+\(pub \w+\);"),
    "3 counters and indices": lambda t: matches(t, r"\bwhile [a-z]\w* [<>]|for \w+ in 0\.\.|\b\w+ [+-]= 1;|\.enumerate\(\)|wrapping_add\(1\);$"),
    "4 comparing by hand": lambda t: matches(t, r"fn compare|\.compare\(|impl Ordered for|matches!\(.*Ordering::"),
    "4 printing and converting by hand": lambda t: matches(t, r"fn (show|number|read|digit|at)\w*\b.*[(<]|fn \w+_name\("),
    "5 parameters that travel together": together,
    "5 clauses of three or more functions": clauses,
    "6 parallel or counted buffers, searches by hand": lambda t: matches(t, r"while low < high|\bat: usize,|room: usize,|shares: Vec|\[u64; 6\]|touched|quickest: &"),
    "7 stand-ins for closures, and switches": lambda t: matches(t, r"^pub trait (RowRule|Probe|Ranking|Paired)|^impl.* (RowRule|Probe|Ranking|Paired)<.* for |match change|match by \{|match name \{"),
}


def main():
    texts = sources(sys.argv[1] if len(sys.argv) > 1 else None)
    for point, find in POINTS.items():
        found = find(texts)
        print(f"== {point}: {len(found)}")
        for place in found:
            print(f"   {place}")


main()
