#!/usr/bin/env python3
"""Names of this repository's own definitions and lemmas in snake case, in clauses, definitions, proofs, edits and docs.

Run once at the top of the repository, after the kit's port.py. A word in lower camel case gets underscores; a dash still joins two names. Functions of
src/, exported names and strings have no such words and stay. TAKEN has the names that would fall together with a function of src/.
"""
import glob
import re

TAKEN = {
    "inType": "is_in_type",  # kinds::in_type
    "letterOf": "exponent_letter",  # framed_exponents::letter_of
    "ofPattern": "pattern_outcome",  # outcomes::of_pattern
    "ofValue": "value_outcome",  # beside pattern_outcome
    "optionsKnown": "known_options",  # writing::options_known
    "precisionFrom": "given_precision",  # edge::precision_from
}
# Words of C and of Rust that stand in the docs.
KEEP = {"libFuzzer"}
DOCS = ["README.md"] + sorted(glob.glob("docs/*.md"))
FILES = sorted(
    glob.glob("crates/*/src/*.rt")
    + glob.glob("crates/*/specs/**/*.antt", recursive=True)
    + glob.glob("crates/*/proofs/**/*.antt", recursive=True)
    + glob.glob("crates/*/must-fail/*.edit")
    + DOCS
)
# A whole part of a name: not inside another word, and a letter of a string such as b'E' is none.
PART = re.compile(r"(?<![A-Za-z0-9_'])[a-z][a-z0-9]*(?:[A-Z][A-Za-z0-9]*)+(?![A-Za-z0-9_])")


def spelled(match):
    word = match.group(0)
    if word in KEEP:
        return word
    if word in TAKEN:
        return TAKEN[word]
    return re.sub(r"(?<=[a-z0-9])([A-Z])", lambda m: "_" + m.group(1).lower(), word)


for name in FILES:
    with open(name, encoding="utf-8") as file:
        old = file.read()
    new = PART.sub(spelled, old)
    if new != old:
        with open(name, "w", encoding="utf-8") as file:
            file.write(new)
        print("respelled:", name)
