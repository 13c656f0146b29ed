"""The rules by which tools/places.py finds places: tests on one function or type, and keys that bring twins and fellows together."""

import collections
import itertools
import re

import rt_source
from rt_source import fields

NUMBER = r"(?:u8|u16|u32|u64|usize)"


# ---- tests on one function or one type

def numbers_only(f):
    return bool(f.params) and all(re.fullmatch(NUMBER, t) for _, t in f.params)


def slices(f):
    return [n for n, t in f.params if re.match(r"&(mut )?\[", t)]


def marked(parts):
    """A mark beside the value that it says is there: `has…`, `any…` or `given` before another field or parameter."""
    return any(re.match(r"(has|any|given)", n) and t in ("bool", "u8") for n, t in parts[:-1])


def marks_inside(t):
    return marked(t.parts if t.kind == "struct" else []) or \
        t.kind == "enum" and any(marked(fields(v)) for _, v in t.parts)


def two_variants(t):
    return t.kind == "enum" and len(t.parts) == 2 and any(v for _, v in t.parts)


def mixed(t):
    refusal = re.compile(r"(Broken|Stop|Nothing|NotIo|Unknown|Unread|No[A-Z]|Too[A-Z]|OutOf|Fails)")
    return t.kind == "enum" and 3 <= len(t.parts) <= 8 and any(refusal.match(n) for n, _ in t.parts) \
        and any(v and not refusal.match(n) for n, v in t.parts)


def bare_number(f):
    own = re.search(r"(return|=>) ([2-9]|255)\b[;,]", f.body)
    return f.result == "u64" and not by_match(f) and (own or ("out", "&mut [u8]") in f.params and not f.crate.startswith("run_"))


def kind_number(f):
    return any(n in ("kind", "what", "letter", "call") and t == "u8" for n, t in f.params)


def same_field(f):
    """Two values compared field by field, or two slices byte by byte (word by word)."""
    return re.search(r"\b\w+\.(\w+) [!=]= \w+\.\1\b|\w\[[^].]*\] [!=]= \w+\[[^].]*\]|u64_at\([^)]*\) (==|\^) \w+::u64_at", f.body)


def least_or_most(f):
    plain = re.sub(r"\s+", " ", f.body)
    m = re.search(r"if ([\w.]+) <=? ([\w.]+) \{ (?:return )?([\w.]+);? \} (?:else \{ )?([\w.]+)(?: \})? \}$", plain)
    return m and sorted(m.group(1, 2)) == sorted(m.group(3, 4)) or re.search(r"if (\w+) < \w+ \{ return false; \} \1 <= ", plain)


def by_match(f):
    """One match on an own type whose arms are words, numbers, a part of it or a value made of them."""
    arms = re.fullmatch(r"\{\s*match \w+ \{(.*)\}\s*\}", f.body, re.S)
    arm = r"\s*[\w:]+\s*(\{[^}]*\}|\([^)]*\)|) => ([^(){},]+|[A-Z][\w:]*\(\w+\)|\w+\(0x[^)]*\)|[A-Z][\w:]* \{[^{}]*\})"
    return arms and f.params and "::" in arms.group(1) and re.fullmatch(r"(%s,\s*)+(%s)?\s*" % (arm, arm), arms.group(1))


def from_numbers(f):
    """Numbers made into an own type; the answer of a check is none."""
    return numbers_only(f) and re.fullmatch(r"[A-Z]\w+", f.result) and not re.search(r"(Check|Turn)::", f.body)


def cast(f):
    return re.fullmatch(r"\{\s*\w+ as \w+\s*\}", f.body)


def bytes_by_hand(f):
    return re.search(r"\(b0 as u|/ 256\) as u8|/ 256 / 256", f.body)


def prints(f):
    return any(t.startswith("&impl") and t.endswith("rint") or t == "&R" for _, t in f.params) and \
        re.search(r"\btext::\w+\(|\bwords\(|\bwrite_all\(", f.body)


def loops(f):
    return re.findall(r"\b(?:while|loop|for _ in)\b[^{]*\{", f.body)


def counted(f):
    """A while whose condition holds a name that the loop moves by itself."""
    return any(re.search(r"\b%s (\+=|= %s \+)" % (n, n), f.body)
               for head in loops(f) if head.startswith("while") for n in re.findall(r"\b[a-z]\w*\b(?!\()", head[5:]))


def counted_slice(f):
    """A slice and, beside it, how many of its items or bytes count."""
    return slices(f) and any(n in ("n", "m", "k") and t == "usize" for n, t in f.params) and not prints(f)


def stretch(parts):
    """Two numbers that say where a stretch of some slice starts and how long it is, or where it ends."""
    names = {n for n, t in parts if re.fullmatch(NUMBER, t)}
    pairs = (("start", "len"), ("datastart", "datalen"), ("at", "size"), ("at", "left"), ("from", "to"), ("offset", "size"))
    return "next" not in names and any({a, b} <= names for a, b in pairs)


def stretch_type(t):
    return stretch(t.parts) if t.kind == "struct" else any(stretch(fields(v)) for _, v in t.parts)


def row_number(f):
    return slices(f) and ("i", "usize") in f.params


def column(f):
    return re.search(r"\b(INSTANCES|SIZES|KINDS|MARKS|DATA) \+ [a-z]", f.body)


def search(f):
    """A loop that leaves as soon as it has found what it looks for."""
    return re.match(r"Found|bool|Stream|Option", f.result) and any(
        re.search(r"\breturn\b", f.body[f.body.index(h) + len(h):]) for h in loops(f))


def switch(f):
    """A match on a letter or a number, or two or more ifs on one, whose arms call functions."""
    arms = re.findall(r"((?:\bS+|\b\d\w*(?:\.\.=\w+)?)(?: \| [\dS]+)*) => (?:\{\s*if|(?:\w+::)*[a-z]\w*\()", f.body)
    ifs = collections.Counter(re.findall(r"if (\w+) == \d\w* \{[^}]*return (?:\w+::)*[a-z]\w*\(", f.body))
    return len(" | ".join(arms).split(" | ")) > 1 or any(c > 1 for c in ifs.values())


# ---- keys of functions and types that belong together

def shape(f):
    """Parameters, result and body with types, numbers and names put out of sight, so that twins look the same."""
    body = re.sub(r"\{ return ([^;{}]*); \} ([^;{}]*) \}$", r"{ \1 } else { \2 } }", re.sub(r"\s+", " ", f.body))
    names, kept = {}, ("if", "else", "match", "let", "mut", "while", "loop", "for", "in", "return", "as")
    words = []
    for w in re.findall(r"[A-Za-z_][\w:]*[\w]|\w+|[^\s\w]", " ".join(t for _, t in f.params) + "->" + f.result + body):
        plain = re.fullmatch(NUMBER + r"|[A-Z]\w*(::\w+)*|(\w+::)+[A-Z_]+", w)
        words.append(w if w in kept or not re.match(r"\w", w) else "N" if re.match(r"\d|true$|false$", w) else "T" if plain
                     else names.setdefault(w, "v%d" % len(names)))
    return [" ".join(words).replace(", )", " )")]


def type_shape(t):
    parts = sorted(re.sub(r"\w+", "T", v) if t.kind == "enum" else v for _, v in t.parts)
    return [str(parts)] if t.kind == "struct" or two_variants(t) else []


def stem(f):
    """The name without its size: u8_at and u32_at are u_at, head_one and head_two are head."""
    cut = re.sub(r"\d+|_(one|two|alone|bytes|words|blocks|short)$", "", f.name)
    return [f.crate + " " + cut] if cut != f.name else []


def without_brackets(fact):
    fact = re.sub(r"\s+", " ", fact).strip()
    more = fact.count("(") - fact.count(")")
    if more:
        return without_brackets(fact[1:] if more > 0 else fact[:-1])
    whole = fact.startswith("(") and rt_source.close_of(fact, 0) == len(fact)
    return without_brackets(fact[1:-1]) if whole else fact


def facts(f):
    """The parts of the requires clauses; the name of a slice is put out of sight."""
    names = r"\b(%s)\.(now|old)\b" % ("|".join(slices(f)) or "-")
    return sorted({re.sub(names, "s", without_brackets(c)) for c in f.requires.split("×")} - {""})


def together(fns):
    """The largest groups of three or more parameters, alike in name and type, that stand in three or more functions."""
    all_params = [frozenset(f.params) for f in fns]
    parts = {a & b for a, b in itertools.product(set(all_params), repeat=2) if len(a & b) > 2}
    often = [p for p in parts if sum(p <= q for q in all_params) > 2]
    return [p for p in often if not any(p < q for q in often)]


def parameters(fns):
    found = together(fns)
    return lambda f: [", ".join(sorted(n for n, _ in p)) for p in found if p <= set(f.params)]


# ---- the rules: point, name, whether of functions or types, test; grouped rules: key, and how many make a group

RULES = [
    (1, "option or result", "type", two_variants),
    (1, "values and refusals mixed", "type", mixed),
    (1, "mark in a type", "type", marks_inside),
    (1, "mark among parameters", "fn", lambda f: marked(f.params)),
    (1, "number as answer", "fn", bare_number),
    (1, "number as kind", "fn", kind_number),
    (3, "index counted", "fn", counted),
    (3, "other loops", "fn", lambda f: loops(f) and not counted(f)),
    (4, "equality", "fn", same_field),
    (4, "order", "fn", least_or_most),
    (4, "from a type by match", "fn", by_match),
    (4, "from numbers", "fn", from_numbers),
    (4, "cast", "fn", cast),
    (4, "bytes of a number", "fn", bytes_by_hand),
    (4, "printing", "fn", prints),
    (6, "slice and count", "fn", counted_slice),
    (6, "stretch in a type", "type", stretch_type),
    (6, "stretch among parameters", "fn", lambda f: stretch(f.params)),
    (6, "slice and row number", "fn", row_number),
    (6, "column of parallel arrays", "fn", column),
    (6, "search by hand", "fn", search),
    (7, "switch", "fn", switch),
]

GROUPED = [
    (2, "functions of one shape", "fn", lambda fns: shape, 2),
    (2, "names but for a size", "fn", lambda fns: stem, 2),
    (2, "types of one shape", "type", lambda types: type_shape, 2),
    (5, "fact", "fn", lambda fns: facts, 3),
    (5, "parameters together", "fn", parameters, 3),
]
