"""Reads the `.rt` files of crates/*/src, of the checkout or of a commit, into functions and types, for tools/places.py."""

import collections
import glob
import io
import re
import subprocess
import sys
import tarfile

SKIPPED = re.compile(r'//[^\n]*|b?"(?:\\.|[^"\\])*"|b\'(?:\\.|[^\'\\])\'|\'\\?[^\'\w]\'')
CLAUSE = re.compile(r"\s*(requires|ensures|invariant|decreases|where)\b")
Fn = collections.namedtuple("Fn", "crate file line name params result requires body")
Type = collections.namedtuple("Type", "crate file line kind name parts")


def working_files():
    for path in sorted(glob.glob("crates/*/src/**/*.rt", recursive=True)):
        with open(path, encoding="utf-8") as f:
            yield path, f.read()


def committed_files(commit):
    made = subprocess.run(["git", "archive", commit, "crates"], capture_output=True)
    if made.returncode:
        sys.exit("places.py: no such commit: " + commit)
    with tarfile.open(fileobj=io.BytesIO(made.stdout)) as tar:
        for path in sorted(tar.getnames()):
            if re.fullmatch(r"crates/\w+/src/.*\.rt", path):
                yield path, tar.extractfile(path).read().decode("utf-8")


def blanked(text):
    """The text without comments, and with strings and letters as S of the same length, so that offsets stay."""
    return SKIPPED.sub(lambda m: re.sub(r"[^\n]", " " if m.group().startswith("//") else "S", m.group()), text)


def close_of(text, at):
    """Where the bracket that opens at `at` has closed."""
    pairs = {"{": "}", "(": ")", "<": ">"}
    depth = 0
    for i in range(at, len(text)):
        depth += (text[i] == text[at]) - (text[i] == pairs[text[at]])
        if depth == 0:
            return i + 1
    return len(text)


def functions(path, text, bare):
    for m in re.finditer(r"\bfn (\w+)", bare):
        at = close_of(bare, m.end()) if bare[m.end()] == "<" else m.end()
        end = close_of(bare, at)
        result = re.compile(r"\s*->\s*([^{\n]*?)\s*(?=[{\n])").match(bare, end)
        params, at, requires = bare[at + 1:end - 1], result.end() if result else end, ""
        while CLAUSE.match(bare, at):
            word, opens = CLAUSE.match(bare, at).group(1), bare.index("{", at)
            at = close_of(bare, opens)
            requires += text[opens + 1:at - 1] + " × " if word == "requires" else ""
        opens = bare.find("{", at)
        yield Fn(path.split("/")[1], path, bare.count("\n", 0, m.start()) + 1, m.group(1), fields(params),
                 result.group(1) if result else "", requires, bare[opens:close_of(bare, opens)])


def fields(text):
    """Names and types of a list of parameters or fields."""
    return re.findall(r"(?:pub |mut )?(\w+): ((?:&(?:'\w+ )?(?:mut )?)?(?:\[[^\]]*\]|impl \w+|[\w:]+))", text)


def types(path, bare):
    for m in re.finditer(r"^(?:pub )?(enum|struct) (\w+)(?:<[^>]*>)?\s*([{(])", bare, re.M):
        inside = bare[m.end():close_of(bare, m.end() - 1) - 1]
        if m.group(1) == "enum":
            parts = re.findall(r"(\w+)\s*(\([^)]*\)|\{[^}]*\}|)\s*(?:,|$)", inside)
        else:
            parts = fields(inside) or fields(re.sub(r"(pub )?(\w+)", r"of: \2", inside))
        yield Type(path.split("/")[1], path, bare.count("\n", 0, m.start()) + 1, m.group(1), m.group(2), parts)


def read(files):
    fns, kinds = [], []
    for path, text in files:
        bare = blanked(text)
        fns += functions(path, text, bare)
        kinds += types(path, bare)
    return fns, kinds
