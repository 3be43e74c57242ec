#!/usr/bin/env python3
"""Brings the repository's own names to the spelling of the installed Rattle: words in snake case, types in upper camel case.

usage: respell.py [--check] [FOLDER]     FOLDER is the top of the repository, by default the folder above this script's

Run it once, after /opt/rattle/port/port.py. It renames each name with a dash that a file of crates/*/specs or crates/*/proofs declares, and each function's
name that proof files write with dashes, in .rt, .antt and .edit files, comments too, and in the backticks of .md files. A name that a file brings in from
the library keeps its spelling there, and so does a name that Rattle makes (goals, steps, invariants). --check only prints: the names, and those that fall together.
"""
import collections
import os
import re
import sys

PART = r"[^\s(){}\[\]:;,.\"`«»@]+"
WORD = re.compile(r"(?<![\w'-])[A-Za-z][\w']*(?:-[\w']+)+(?![\w'-])")
MARKS = r"(?:(?:pattern|unfoldable|abbrev|pub) )*"
FUNCTION = re.compile(r"/(Proof|Answers|Invariants)\.antt$")


def files(root):
    for folder, dirs, names in os.walk(root):
        dirs[:] = sorted(d for d in dirs if d not in ("out", ".git", "target"))
        for name in sorted(names):
            if name.endswith((".rt", ".antt", ".edit", ".md")):
                yield os.path.join(folder, name)


def read(path):
    with open(path, encoding="utf-8", newline="") as f:
        return f.read()


def without_comments(path, text):
    return re.sub(r"//[^\n]*" if path.endswith(".rt") else r"--[^\n]*", "", text)


def declared(path, text):
    """Yields the names that an .antt file declares: definitions, types, fields, constructors, and what a let or a where gives."""
    text = without_comments(path, text)
    for m in re.finditer(rf"(?m)^({MARKS})({PART})\s*(?:\{{[^}}\n]*\}}\s*)?:\s+(\S+)", text):
        yield m[2]
    for m in re.finditer(rf"(?m)^{MARKS}(?:data|record|ruleset) ({PART})", text):
        yield m[1]
    for m in re.finditer(rf"(?m)^\s+(?:pub )?({PART}) :\s", text):
        yield m[1]
    for m in re.finditer(rf"\blet ({PART}) [:=]", text):
        yield m[1]
    for m in re.finditer(rf"[(λ{{]\s*((?:{PART} )+):", text):
        yield from m[1].split()


def made(text):
    """The names that a proof of a function declares of the kinds that Rattle makes: its goals, invariants and measures."""
    for m in re.finditer(rf"(?m)^{MARKS}({PART})\s*(?:\{{[^}}\n]*\}}\s*)?:\s+(?:tie|goal|given)\.", text):
        yield m[1]


def functions(path, text):
    for m in re.finditer(r"\bfn (\w+)", without_comments(path, text)):
        yield m[1]


def library_names(text):
    """The names that a file brings in from outside the repository's crates, which keep their spelling in it."""
    out = set()
    for m in re.finditer(rf"(?m)^\s*(?:pub |ghost |unfoldable )*use ((?:{PART}\.)+)\{{([^}}]*)\}}", text):
        head = m[1].split(".")
        if head[0] != "Rattle" or head[1] in ("std", "core"):
            out.update(w.split(" as ")[0].strip() for w in m[2].split(","))
    return out


def respelled(name):
    first, *rest = name.split("-")
    if first[0].isupper():
        return first + "".join(r[:1].upper() + r[1:] for r in rest)
    return "_".join([first, *rest])


def main(argv):
    check = "--check" in argv
    argv = [a for a in argv if a != "--check"]
    root = argv[0] if argv else os.path.join(os.path.dirname(os.path.abspath(__file__)), "..")
    texts = {p: read(p) for p in files(root)}
    own = collections.defaultdict(set)
    for path, text in texts.items():
        if path.endswith(".antt"):
            for name in declared(path, text):
                if "-" in name.strip("-") and WORD.fullmatch(name):
                    own[name].add(path)
        if path.endswith(".rt"):
            for name in functions(path, text):
                if "_" in name:
                    own[name.replace("_", "-")].add(path)
    ours = {name for path, text in texts.items() if path.endswith(".antt") and not FUNCTION.search(path) for name in declared(path, text)}
    goals = {name for path, text in texts.items() if path.endswith(".antt") for name in made(text)}
    for name in sorted(goals & ours):
        if "-" in name:
            print("a goal and a name of ours:", name)
    table = {name: respelled(name) for name in own if name not in goals or name in ours}
    new_of = collections.defaultdict(set)
    for old, new in table.items():
        new_of[new].add(old)
    for new, olds in sorted(new_of.items()):
        if len(olds) > 1:
            print("fall together:", new, sorted(olds), sorted({p for o in olds for p in own[o]}))
    for path, text in texts.items():
        kept = library_names(text)
        words = set(re.findall(PART, text))

        def turn(m):
            word = m[0]
            return word if word in kept or word not in table else table[word]

        if path.endswith(".md"):
            new = re.sub(r"`[^`\n]+`", lambda m: WORD.sub(turn, m[0]), text)
        else:
            mark = "//" if path.endswith(".rt") else "--"
            lines = []
            for line in text.split("\n"):
                code, dash, comment = line.partition(mark)
                if '"' in code and path.endswith(".rt"):
                    lines.append(line)
                    continue
                lines.append(WORD.sub(turn, code) + dash + WORD.sub(turn, comment))
            new = "\n".join(lines)
        if new != text:
            for old in {w for w in WORD.findall(without_comments(path, text)) if w in table and w not in kept}:
                if table[old] in words and not path.endswith(".md"):
                    print("stood already:", os.path.relpath(path, root), old, "->", table[old])
            if not check:
                with open(path, "w", encoding="utf-8", newline="") as f:
                    f.write(new)
    if check:
        print(len(table), "names")
    return 0


if __name__ == "__main__":
    raise SystemExit(main(sys.argv[1:]))
