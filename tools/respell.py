#!/usr/bin/env python3
"""Brings the names of this repository's own definitions, lemmas, records and their fields to the spelling of
today's Rattle: words in snake case, types and facts in camel case. Run it once, at the top of the checkout,
right after the toolchain's port.py; a second run finds nothing to do.

It renames in .rt, .antt and must-fail .edit files, and in docs and README between backticks. It keeps the names
of functions of src/, exported names, strings, comments (but for facts and quoted names in them), and every name
that Rattle or std made. With --list it prints the table of names and changes nothing.
"""

import os
import re
import sys

HEAD = re.compile(r"^ *(?:(?:unfoldable|abbrev) )?(?:pub )?(?:(?:record|data) )?([^\s:(){},;=]+)")
WORD = re.compile(r"[A-Za-z_][A-Za-z0-9_'\u2032]*(?:-[A-Za-z0-9_'\u2032+*\u2262]+)*")
USED = re.compile(r"^\s*(?:pub )?(?:ghost )?use (\S+)\.\{([^}]*)\}")
MADE = re.compile(r"w\.$")  # what follows names a fact of a branch, which Rattle made


def files(root, ends):
    for folder, dirs, names in os.walk(os.path.join(root, "crates")):
        dirs[:] = sorted(d for d in dirs if d != "out")
        for n in sorted(names):
            if n.endswith(ends):
                yield os.path.join(folder, n)


def read(path):
    with open(path, encoding="utf-8") as f:
        return f.read()


def respelled(name):
    if "-++" in name:  # the dash joins a word and an operator
        return name
    if name[0].isupper():
        return re.sub(r"-(\w)", lambda m: m.group(1).upper(), name)
    name = name.replace("-", "_")
    return re.sub(r"(?<=[a-z0-9])([A-Z])", lambda m: "_" + m.group(1).lower(), name)


def signature(line):
    """The name that a line gives a type to, and that type, or None: a name, arguments in brackets, a colon."""
    m = HEAD.match(line)
    if not m or m.group(1) in ("use", "module", "let", "elim"):
        return None
    i = m.end()
    while True:
        while line[i:i + 1] == " ":
            i += 1
        if line[i:i + 1] in ("(", "{") and line[i:i + 1]:
            depth = 0
            while i < len(line):
                depth += {"(": 1, "{": 1, ")": -1, "}": -1}.get(line[i], 0)
                i += 1
                if depth == 0:
                    break
        elif line[i:i + 2] == ": " or line[i:] == ":":
            return m.group(1), line[i + 1:].strip()
        else:
            return None


def declared(root):
    """Every name that the repository itself gives in specs/ and proofs/, with the files that give it."""
    found = {}
    for path in files(root, ".antt"):
        for line in read(path).splitlines():
            s = signature(line)
            if s and not s[1].startswith("goal."):  # those names are Rattle's
                found.setdefault(s[0], set()).add(path)
    return found


def table(root):
    found = declared(root)
    names = {n: respelled(n) for n in found if respelled(n) != n}
    for old, new in sorted(names.items()):
        if new in found:
            raise SystemExit(f"respell: {old} would fall together with {new}: {sorted(found[old])} {sorted(found[new])}")
    if len(set(names.values())) != len(names):
        raise SystemExit("respell: two names fall together")
    # a name that some file brings in from elsewhere means something else there
    own = tuple(f"Rattle.{c}." for c in os.listdir(os.path.join(root, "crates")))
    for path in files(root, (".rt", ".antt")):
        for m in map(USED.match, read(path).splitlines()):
            if m and not (m.group(1) + ".").startswith(own):
                for n in re.split(r"[,\s]+", m.group(2)):
                    if n in names:
                        raise SystemExit(f"respell: {path} takes {n} from {m.group(1)}")
                    if n in names.values():
                        raise SystemExit(f"respell: {path} takes {n} from {m.group(1)}, and one of ours gets that name")
    return names


def in_code(text, names):
    return WORD.sub(lambda m: m.group(0) if MADE.search(text[:m.start()]) else names.get(m.group(0), m.group(0)), text)


def in_comment(text, names):
    """In prose only what is no English: facts, and what stands between backticks."""
    facts = {o: n for o, n in names.items() if o[0].isupper()}
    return re.sub(r"`[^`\n]+`", lambda m: in_code(m.group(0), names), in_code(text, facts))


def code_line(line, mark, names):
    """A line of code, of which the strings stay, and its comment."""
    out, i, quoted = [], 0, False
    start = 0
    while i < len(line):
        ch = line[i]
        if quoted:
            if ch == "\\":
                i += 1
            elif ch == '"':
                quoted = False
                out.append(line[start:i + 1])
                start = i + 1
        elif ch == '"':
            out.append(in_code(line[start:i], names))
            start, quoted = i, True
        elif line.startswith(mark, i) and (i == 0 or line[i - 1].isspace()):
            out.append(in_code(line[start:i], names))
            return "".join(out) + in_comment(line[i:], names)
        i += 1
    return "".join(out) + (line[start:] if quoted else in_code(line[start:], names))


def turn(path, names):
    old = read(path)
    if path.endswith(".md"):
        new = "".join(re.sub(r"`[^`\n]+`", lambda m: in_code(m.group(0), names), l) for l in old.splitlines(keepends=True))
    elif path.endswith(".edit"):
        # a pair of texts of code, and lines for people
        new = "".join(code_line(l, "//", names) if re.match(r"(old|new):", l) else in_comment(l, names) for l in old.splitlines(keepends=True))
    else:
        mark = "//" if path.endswith(".rt") else "--"
        new = "".join(code_line(l, mark, names) for l in old.splitlines(keepends=True))
    if new != old:
        with open(path, "w", encoding="utf-8") as f:
            f.write(new)
    return new != old


def main(argv):
    root = os.path.dirname(os.path.dirname(os.path.abspath(__file__)))
    names = table(root)
    if argv == ["--list"]:
        for old, new in sorted(names.items()):
            print(f"{old} {new}")
        return 0
    pages = [os.path.join(root, "README.md")] + [os.path.join(root, "docs", n) for n in sorted(os.listdir(os.path.join(root, "docs"))) if n.endswith(".md") and not n.startswith("PORT")]
    changed = sum(turn(p, names) for p in [*files(root, (".rt", ".antt", ".edit")), *pages])
    print(f"respell: {len(names)} names, {changed} files")
    return 0


if __name__ == "__main__":
    raise SystemExit(main(sys.argv[1:]))
