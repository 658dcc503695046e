#!/usr/bin/env python3
"""Counts places that an older language leaves in code: python3 tools/places.py [TREE] [-v]

TREE is a checkout (default: this one); -v prints each place. One line a point, named by what is looked for.
The counts are of texts, so each place still has to be read; docs/DESIGN-PASS.md says what became of them.
"""
import collections
import glob
import os
import re
import sys

tree = next((a for a in sys.argv[1:] if not a.startswith("-")), ".")
verbose = "-v" in sys.argv
files = sorted(glob.glob(os.path.join(tree, "crates/*/src/*.rt")))
text = {os.path.relpath(f, tree): open(f, encoding="utf-8").read() for f in files}


def code_lines(source):
    """The lines of a file with their numbers, comments and clauses left out."""
    for number, line in enumerate(source.split("\n"), 1):
        bare = line.strip()
        if not bare.startswith(("//", "ghost ", "ensures", "requires", "decreases")):
            yield number, line


def by_pattern(pattern):
    found = []
    for name, source in text.items():
        for number, line in code_lines(source):
            if re.search(pattern, line):
                found.append((name, number, line.strip()))
    return found


def functions():
    """Each function: file, name, parameters, clauses, body."""
    for name, source in text.items():
        for m in re.finditer(r"^( *)(?:pub(?:\(crate\))? )?fn (\w+)", source, re.M):
            indent = m.group(1)
            end = source.find("\n" + indent + "}\n", m.start())
            stop = source.find(";\n", m.start())
            brace = re.compile(r"^" + indent + r"(?:.*\) (?:-> .*)?)?\{$|\{$", re.M).search(source, m.start())
            if brace is None or (0 <= stop < brace.end()):
                head = source[m.start():stop]
                yield name, m.group(2), head, head, ""
                continue
            head = source[m.start():brace.end() - 1]
            yield name, m.group(2), head, head, source[brace.end():end]


def parameters(head):
    m = re.search(r"\(((?:[^()]|\([^()]*\))*)\)", head)
    parts = re.findall(r"(\w+): ([^,]+(?:\([^)]*\))?)", m.group(1)) if m else []
    return frozenset((a, b.strip()) for a, b in parts)


def shape(body):
    """A body with its names of types and methods, its numbers and its texts left out."""
    body = re.sub(r"//.*", "", body)
    body = re.sub(r'b?"[^"]*"', "T", body)
    body = re.sub(r"\b(?:0x)?\d[\d_a-f]*\b", "N", body)
    body = re.sub(r"\b[A-Z]\w*\b", "C", body)
    body = re.sub(r"\b(?:u8|u16|u32|u64|usize)\b", "U", body)
    return re.sub(r"\s+", " ", body).strip()


def twins():
    groups = collections.defaultdict(list)
    for name, fn, head, _, body in functions():
        if "#[test]" in text[name] and "_checks" in name or "/checks/" in name:
            continue
        s = shape(body)
        if len(s) > 24:
            groups[s].append((name, fn))
    return [(g[0][0], len(g), " = ".join(f"{os.path.basename(n)}:{f}" for n, f in g)) for g in groups.values() if len(g) > 1]


def repeated_clauses():
    seen = collections.defaultdict(set)
    for name, fn, head, clauses, _ in functions():
        for m in re.finditer(r"(ensures|requires)(?: \w+)? \{ (.*) \}\s*$", clauses, re.M):
            clause = re.sub(r"\b(?:self|joiner|shelf|table|out)\.", "x.", m.group(2))
            clause = re.sub(r"hexed .*", "hexed ..", clause)
            seen[clause].add((name, fn))
    return [(sorted(w)[0][0], len(w), c) for c, w in seen.items() if len(w) > 2]


def summaries():
    """Functions from a value's fields to what clauses see, as they stand in clauses of three or more functions."""
    seen = collections.defaultdict(set)
    for name, fn, head, clauses, _ in functions():
        for word in re.findall(r"\b(\w+_of) (?:self|table|result|c|t)\b", clauses):
            seen[word].add((name, fn))
    return [(sorted(w)[0][0], len(w), c) for c, w in seen.items() if len(w) > 2]


def travellers():
    seen = collections.defaultdict(set)
    for name, fn, head, _, _ in functions():
        if "_checks" in name or "/checks/" in name:
            continue
        names = frozenset(n for n, _ in parameters(head))
        if len(names) > 1:
            seen[names].add((name, fn))
    together = collections.defaultdict(set)
    keys = list(seen)
    for a in keys:
        for b in keys:
            both = a & b
            if len(both) > 1:
                together[both] |= seen[a] | seen[b]
    return [(sorted(w)[0][0], len(w), ", ".join(sorted(c))) for c, w in together.items() if len(w) > 2]


def buffers():
    found = []
    for name, source in text.items():
        for m in re.finditer(r"struct (\w+)[^{;]*\{(.*?)\n\}", source, re.S):
            fields = re.sub(r"//.*", "", m.group(2))
            if re.search(r": \[[^;\]]+; [^\]]+\]", fields) and re.search(r"\b(?:len|count|head): usize", fields):
                found.append((name, source.count("\n", 0, m.start()) + 1, "struct " + m.group(1)))
    return found


answers = []
for f in sorted(glob.glob(os.path.join(tree, "crates/*/proofs/**/Answers.antt"), recursive=True)):
    for number, line in enumerate(open(f, encoding="utf-8"), 1):
        if re.match(r"pub \S+ : goal\.", line):
            answers.append((os.path.relpath(f, tree), number, line.strip()))

POINTS = [
    ("1 own enums (each to be read: has it the shape of Option or Result?)", by_pattern(r"\benum \w+")),
    ("1 a number for a kind: a field or parameter, or a literal byte that says which kind", by_pattern(r"\b(?:kind|change|code): u8\b|\(0x0\d,|, 0x0\d\b")),
    ("1 an answer that goes nowhere or stands for none", by_pattern(r"let _ = |\(_\) => 0\b|Closed => 0\b")),
    ("2 functions of one shape", twins()),
    ("2 the same test, written out again", by_pattern(r"if (?:count >= COUNT_END|feed > 0|feed >= MOST_FEEDS)\b")),
    ("3 loops over an index", by_pattern(r"\bfor \w+ in [\w.()]*\.\.|\bwhile \w+ [<>]|\bfor \(i, ")),
    ("3 a `while let` over a reader", by_pattern(r"while let ")),
    ("4 conversions and texts by hand", by_pattern(r"fn (?:from_code|code|as_\w+|words|number|cmp|partial_cmp|eq|clone)\b")),
    ("4 a match or `let .. else` that only passes an error on", by_pattern(r"^\s*return (?:None|Err\(Refusal::(?:Malformed|NoFeed)\));|Ok\(\w+\) => Ok\(\w+\),|else \{ return None")),
    ("5 clauses that three functions or more repeat", repeated_clauses()),
    ("5 summaries in clauses of three functions or more", summaries()),
    ("5 parameters that travel together through three functions or more", travellers()),
    ("6 arrays with a length beside", buffers()),
    ("7 dyn, function pointers, boxed closures; an enum of steps", by_pattern(r"\bdyn |: fn\(|Box<|enum (?:Move|Step|Op|Mode)\b")),
    ("8 answers to goals", answers),
]

for title, found in POINTS:
    print(f"{len(found):4}  {title}")
    if verbose and not title.startswith("8"):
        for place in found:
            print("        ", *place)
