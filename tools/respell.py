#!/usr/bin/env python3
"""Respells the repository's own definitions and lemmas: words in snake case, so that one style stands in every file.

usage: respell.py            at the top of the repository: respells the files of crates/ in place
       respell.py --list     prints the pairs, old and new, and changes nothing

Own names are those that a file of specs/ or of proofs/ (not a proof of one function) declares: definitions, lemmas, fields of
records and constructors. A name's humps and dashes become underscores; a name that begins with a capital is a type's, in camel
case. A name that a file takes from a library stays as it is there. Names that would fall together are in APART.
"""

import collections
import os
import re
import sys

WORD = re.compile(r"[^\s(){}\[\];,.\"«»:]+")
HEAD = re.compile(r"((?:(?:pub|abbrev|unfoldable)\s+)*)(?:(?:data|record)\s+)?([^\s(){}\[\];,.\"«»:]+)(?:\s*[({][^:]*)?\s*:(?:\s|$)")
FIELD = re.compile(r"(?:[;{]\s*)?(?:pub\s+)?([^\s(){}\[\];,.\"«»:]+)\s*:\s")
USE = re.compile(r"(?:pub |ghost )?use\s+([^\s{;]+?)(?:\.\{([^}]*)\}|\s+as\s+\S+)?;?\s*$")

# old name: new name, where the rule alone would make two names one
APART = {
    "bytesLe": "le_bytes",
    "length-bytesLe": "length_le_bytes",
    "leOf-bytesLe": "le_of_le_bytes",
    "T-true": "T_true",
}


def files():
    for folder, dirs, names in os.walk("crates"):
        dirs[:] = sorted(d for d in dirs if d not in ("out", "must-fail"))
        for n in sorted(names):
            if n.endswith((".antt", ".rt")):
                yield os.path.join(folder, n)


def text(path):
    with open(path, encoding="utf-8") as f:
        return f.read()


def of_one_function(path):
    return bool(re.search(r"/proofs/.+/(Proof|Answers|Invariants)\.antt$", path))


def declared(source):
    """The names that a file declares: at its left edge or in a module of it, and in its records and data."""
    inside = 0
    for line in source.split("\n"):
        code = line.split("-- ")[0]
        if not code.strip():
            continue
        depth = len(code) - len(code.lstrip(" "))
        bare = code.strip()
        if inside and depth >= inside:
            field = FIELD.match(bare)
            if field:
                yield field.group(1)
            continue
        inside = depth + 1 if re.match(r"((pub|abbrev) )*(data|record)\b", bare) else 0
        if re.match(r"(pub )?(use|mod|module|unfolding|import)\b", bare):
            continue
        head = HEAD.match(bare)
        if head and (depth == 0 or in_module(source, line)):
            yield head.group(2)


def in_module(source, line):
    """Whether an indented line is a declaration: it is marked, or a clause of the same name stands below it at the same place."""
    m = re.match(r"(\s+)((?:(?:pub|abbrev|unfoldable) )*)([^\s(){}]+) : ", line)
    return bool(m) and bool(m.group(2) or re.search(r"(?m)^" + m.group(1) + re.escape(m.group(3)) + r"(?= )[^:\n]* =(\s|$)", source))


def respelled(name):
    if name in APART:
        return APART[name]
    parts = [p for p in name.split("-") if p]
    if name[0].isupper():
        # a type, in camel case
        return "".join(p[0].upper() + p[1:] for p in parts)
    out = []
    for p in parts:
        if p[0].islower():
            p = re.sub(r"(?<=[a-z0-9'₀-₉])([A-Z])", lambda m: "_" + m.group(1).lower(), p)
            p = re.sub(r"^_", "", p)
        out.append(p)
    return "_".join(out)


def foreign(source, crates):
    """The names that a file takes from libraries."""
    found = set()
    for line in source.split("\n"):
        m = USE.match(line.strip())
        if not m or not m.group(2):
            continue
        path = m.group(1).split(".")
        if path[0] == "Rattle" and len(path) > 1 and path[1] in crates:
            continue
        for item in m.group(2).split(","):
            found.add(item.split(" as ")[-1].strip())
            found.add(item.split(" as ")[0].strip())
    return found


def pairs(paths, crates):
    own = collections.OrderedDict()
    for p in paths:
        if p.endswith(".antt") and not of_one_function(p):
            for n in declared(text(p)):
                own[n] = True
        elif p.endswith(".antt"):
            for n in re.findall(r"(?m)^([a-z][^\s(){}]*) : (?!tie\.|goal\.)", text(p)):
                own[n] = True
    odd = [n for n in own if re.search(r"[A-Za-z0-9'₀-₉]-[A-Za-z0-9]", n) or (n[0].islower() and re.search(r"[a-z0-9'₀-₉][A-Z]", n))]
    table = {n: respelled(n) for n in odd}
    taken = collections.Counter(table.values())
    for n in odd:
        # a lemma that would have its definition's name
        if n not in APART and "-" in n and (taken[table[n]] > 1 or table[n] in own):
            table[n] += "_lem"
    return table, set(own)


def turned(source, table, rust, goals):
    """The text with its names respelled; what Rattle names (the goals of a file, a step of `c`) keeps its name."""

    def word(m):
        w = m.group(0)
        before = source_line[: m.start()]
        if w in goals or re.search(r"(?<![\w'-])(c|l|goal|tie)\.$", before):
            return w
        return table.get(w, w)

    out = []
    for line in source.split("\n"):
        mark = "//" if rust else "--"
        at = 0 if line.lstrip().startswith(mark) else line.find(" " + mark + " ")
        source_line, note = (line, "") if at < 0 else (line[:at], line[at:])
        code = WORD.sub(word, source_line)
        note = WORD.sub(lambda m: table.get(m.group(0), m.group(0)) if "-" not in m.group(0) else m.group(0), note)
        out.append(code + note)
    return "\n".join(out)


def main(argv):
    if argv and argv != ["--list"]:
        asked = argv[0] in ("-h", "--help")
        print(__doc__, file=sys.stdout if asked else sys.stderr)
        return 0 if asked else 2
    if not os.path.isdir("crates"):
        print("respell.py: no folder crates here: run it at the top of the repository", file=sys.stderr)
        return 2
    crates = set(os.listdir("crates"))
    paths = list(files())
    table, own = pairs(paths, crates)
    new = collections.defaultdict(list)
    for a, b in table.items():
        new[b].append(a)
    bad = [(b, a) for b, a in new.items() if len(a) > 1 or (b in own and b not in table)]
    if "--list" in argv:
        for a, b in table.items():
            print(a, b)
    for b, a in bad:
        print(f"falls together: {b} <- {a}" + (" and a name that is there" if b in own else ""), file=sys.stderr)
    if "--list" in argv:
        return 0
    changed = 0
    for p in paths:
        source = text(p)
        skip = foreign(source, crates)
        here = {a: b for a, b in table.items() if a not in skip}
        goals = set(re.findall(r"(?<![\w'-])goal\.([^\s(){}]+)", source)) if of_one_function(p) else set()
        after = turned(source, here, p.endswith(".rt"), goals)
        if after != source:
            changed += 1
            with open(p, "w", encoding="utf-8") as f:
                f.write(after)
    print(f"{len(table)} names respelled, {changed} files changed")
    return 0


if __name__ == "__main__":
    raise SystemExit(main(sys.argv[1:]))
