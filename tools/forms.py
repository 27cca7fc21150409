#!/usr/bin/env python3
"""Counts in crates/*/src the places where a form of an older language stands: `tools/forms.py`, and with a word the places of that row.

Each row is a pattern over the code without comments and clauses; the rows `shapes` and `facts` compare whole functions."""
import collections
import glob
import re
import sys

ROWS = [
    ("1 enum", r"\benum \w+"),
    ("1 flag beside a value", r"\b(?:done|known|over): bool"),
    ("1 sentinel", r"\bconst (?:NONE|UNKNOWN)\b"),
    ("1 number code", r"\b(?:format|code|kind|sign|align|given|has_precision|is_signed): u(?:32|64)\b"),
    ("2 name with a size", r"\bfn \w*(?:\d|byte|half|word)\(|\bstruct [UI]\d+;"),
    ("3 while", r"\bwhile\b"),
    ("3 for over numbers", r"\bfor \w+ in [\w.()]+\.\."),
    ("4 conversion", r"\bfn (?:\w+_from|\w*_of|of_\w+|number|value)\("),
    ("4 byte by byte", r"\bfn (?:wide|signed_\w+|byte|half|word)\("),
    ("6 buffer and how much of it is used", r"&(?:mut )?\[u8; 4096\], \w+: usize|\[Part; 12\], count: usize|into: &mut \[u64; 40\]"),
    ("6 buffer and the place where a text ends", r"&mut \[u8\], end: usize"),
    ("7 the same loop around another step", r"\bfn (?:play|answer_labelled)\("),
]


def code(file):
    """The text of a file without comments and clauses."""
    text = re.sub(r"//[^\n]*", "", open(file).read())
    text = re.sub(r"\n +(?:requires|ensures)(?: \w+)? \{[^\n]*", "", text)
    text = re.sub(r"\n *ghost [^\n]*", "", text)
    return re.sub(r"\(\n\s+", "(", re.sub(r",\n\s+", ", ", text))


def files():
    return sorted(glob.glob("crates/*/src/**/*.rt", recursive=True))


def functions():
    """Each function: its crate, its name, its parameters and its body."""
    for file in files():
        text = code(file)
        for m in re.finditer(r"\bfn (\w+)", text):
            body = re.compile(r"\s\{\n").search(text, m.end())
            if body is None or ";" in text[m.end() : body.start()].replace("; ", ""):
                continue
            start = body.end() - 2
            depth, end = 0, start
            for end in range(start, len(text)):
                depth += {"{": 1, "}": -1}.get(text[end], 0)
                if depth == 0:
                    break
            yield file.split("/")[1], m.group(1), text[m.end() : body.start()], text[start : end + 1]


def shapes():
    """Functions that are the same once names, numbers and number types are left out."""
    kept = {"if", "else", "return", "while", "for", "match", "let", "mut", "as", "T", "N"}
    groups = collections.defaultdict(list)
    for crate, name, params, body in functions():
        t = re.sub(r"\b(?:u8|u16|u32|u64|usize|i8|i16|i32|i64)\b", "T", params + body)
        t = re.sub(r"0x[0-9a-f_]+|\b\d[\d_]*(?:u64)?\b|b'.'|\b[A-Z0-9]{2,}\b", "N", t)
        t = re.sub(r"\b\w+\b", lambda w: w.group(0) if w.group(0) in kept else "w", t)
        groups[re.sub(r"\s+", "", t)].append(f"{crate}::{name}")
    for group in sorted(groups.values(), key=len, reverse=True):
        for name in group[1:]:
            yield f"{name} as {group[0]}"


def facts():
    """What a `requires` says in three functions or more."""
    found = collections.Counter()
    for file in files():
        for clause in re.findall(r"\n +requires(?: \w+)? \{(.*)\}", open(file).read()):
            for fact in clause.split(" × "):
                found[re.sub(r"\b(?:out|buf)\b", "buf", fact.strip().strip("()"))] += 1
    for fact, n in found.most_common():
        if n > 2:
            yield f"{n} of: {fact}"


def rows():
    for name, pattern in ROWS:
        yield name, [f"{f.split('/')[1]}: {m.group(0)}" for f in files() for m in re.finditer(pattern, code(f))]
    yield "2 shapes", list(shapes())
    yield "5 facts", list(facts())


for name, places in sorted(rows()):
    print(f"{len(places):4} {name}")
    if len(sys.argv) > 1 and sys.argv[1] in name:
        print("".join(f"       {p}\n" for p in places), end="")
