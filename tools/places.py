#!/usr/bin/env python3
"""Counts, in the sources of a tree (crates/*/src), the places that docs/DESIGN-PASS.md speaks of: places.py [--list] [FOLDER]"""
import collections
import glob
import re
import sys

show = "--list" in sys.argv
rest = [a for a in sys.argv[1:] if a != "--list"]
root = rest[0] if rest else "."
tests = {"searches", "model", "edits", "readers", "calls", "cases"}
found = collections.defaultdict(list)


def crate(path):
    return path[len(root):].strip("/").split("/")[1]


def functions(text):
    """name, parameters, what follows the parameters, body"""
    for m in re.finditer(r"\bfn (\w+)(<[^>{]*>)?\(", text):
        depth, i = 1, m.end()
        while depth and i < len(text):
            depth += {"(": 1, ")": -1}.get(text[i], 0)
            i += 1
        inside = text[m.end():i - 1].strip().rstrip(",")
        end = text.find("\n}\n", i)
        inner = text.find("\n    }\n", i)
        if text[: m.start()].split("\n")[-1].startswith("    ") and inner > 0:
            end = inner
        yield m.group(1), [p.strip() for p in re.split(r",(?![^<\[(]*[>\])])", inside) if p.strip()], text[i:end]


for path in sorted(glob.glob(root + "/crates/*/src/**/*.rt", recursive=True)):
    text = open(path).read()
    c = crate(path)
    where = path[len(root):].strip("/").replace("crates/", "").replace("/src", "")
    for m in re.finditer(r"^(?:pub(?:\(crate\))? )?enum (\w+)[^{]*\{(.*?)^\}", text, re.S | re.M):
        if "{" in m.group(2) or "(" in m.group(2):
            found["1a enums with a value in a case"].append((c, f"{where} {m.group(1)}"))
    for m in re.finditer(r"^(?:pub(?:\(crate\))? )?struct (\w+)[^{;]*\{(.*?)^\}", text, re.S | re.M):
        if re.search(r"^\s+(?:pub(?:\(crate\))? )?(number: u32|(held|ok|settled|laid|denser): (bool|u32)),", m.group(2), re.M):
            found["1b structs with a refusal number or a flag"].append((c, f"{where} {m.group(1)}"))
    for name, params, after in functions(text):
        head = after.split("{\n")[0] if "{\n" in after else after
        if re.search(r"-> u32\s", head + " ") and re.search(r"refusal|Read |BodyRead", head):
            found["1c functions that answer a refusal number"].append((c, f"{where} {name}"))
        if len(params) >= 7:
            found["5a functions of seven parameters and more"].append((c, f"{where} {name}"))
        sized = [p for p in params if re.match(r"(n|m|len|count|k): (usize|u32)$", p)]
        if sized and any(re.search(r": &(mut )?(\[|str)", p) for p in params):
            found["6 a slice with its length beside"].append((c, f"{where} {name}"))
    for m in re.finditer(r"^\s*(while .*|loop|.*\bloop) \{$", text, re.M):
        found["3 loops by while or loop"].append((c, f"{where}:{text[:m.start()].count(chr(10)) + 1} {m.group(1).strip()}"))
    for m in re.finditer(r" as (u8|u16|u32|u64|usize|i64|f64)\b", text):
        line = text[:m.start()].count("\n") + 1
        if not text.split("\n")[line - 1].lstrip().startswith("//"):
            found["4a casts"].append((c, f"{where}:{line}"))
    for m in re.finditer(r"\bfn (same\w*|equal\w*|lesser|greater|copy|clear|digits|write_number|print_number)\(", text):
        found["4b equality, order, copying, printing by hand"].append((c, f"{where} {m.group(1)}"))
    clauses = collections.Counter(re.sub(r"requires [a-z_0-9]+ \{", "requires {", l.strip()) for l in re.findall(r"^\s+requires .*$", text, re.M))
    for clause, k in clauses.items():
        found["5b clauses (requires)"] += [(c, clause)] * k

both = collections.Counter(x for x in found["5b clauses (requires)"])
found["5b clauses that stand three times and more in a crate"] = [(c, q) for (c, q), k in both.items() if k >= 3 for _ in range(k)]
for key in sorted(found):
    items = found[key]
    t = sum(1 for x in items if x[0] in tests)
    print(f"{key}: {len(items)} ({len(items) - t} in the product, {t} in what only tests)")
    if show and not key.startswith("5b clauses (req"):
        for _, x in items:
            print("    " + x)
