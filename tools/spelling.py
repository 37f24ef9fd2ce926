#!/usr/bin/env python3
"""Brings the repository's own definitions and laws to today's spelling: words in snake case, types and modules in camel case.

usage: tools/spelling.py [FOLDER]

Run once, after /opt/rattle/port/port.py, at the top of the repository or on a copy of it at FOLDER. It goes by the names that the
files of specs/ and proofs/ define: one that begins with a small letter and has a capital inside gets an underscore and the small letter
in its place, everywhere but in compare/. Names of src/, of C and in strings have no such form, so they stay. Nine laws inside one proof
whose names would fall together with a definition get their hyphen back, as they had it before port.py. It was run on the tree of the
port, and the files that it names are those of then.
"""
import glob
import os
import re
import sys

os.chdir(sys.argv[1] if len(sys.argv) > 1 else ".")

# A law inside a proof, whose name a definition of specs/ is to have
TOGETHER = {
    "crates/record_writing/proofs/put_entries/Proof.antt": ["entry_in"],
    "crates/record_reading/proofs/StoreSteps.antt": ["entry_in"],
    "crates/searching/proofs/RestLaws.antt": ["rest_from"],
    "crates/tables/proofs/LookupLaws.antt": ["no_bits"],
    "crates/values/proofs/NewtonLaws.antt": ["sum_below"],
    "crates/error_bound/proofs/SumBound.antt": ["sum_below"],
    "crates/lines/proofs/SlotLaws.antt": ["last_line"],
    "crates/entries/proofs/MeaningLaws.antt": ["odd_number"],
    "crates/record_reading/proofs/WholeSets.antt": ["offset_at"],
    "crates/filling/proofs/EntryLaws.antt": ["offset_at"],
    "crates/record_storage/proofs/AfterRecords.antt": ["held_back"],
    "crates/sizing/proofs/FewestLaws.antt": ["all_hold"],
    "crates/values/proofs/WidthLaws.antt": ["all_hold"],
}
# Names that port.py turned in .rt and .antt, and not in the edits
TURNED = {"getD": "get_or", "isEmpty": "is_empty", "bytesOf": "bytes_of", "wordAt": "word_at"}

WORD = re.compile(r"[^\s(){}\[\],;.:`\"|]+")
DEFINES = re.compile(r"\s*(?:(?:unfoldable|abbrev|pub|record|data|mutual)\s+)*([^\s:({=]+)\s*(?:[({].*)?:\s")


def read(path):
    with open(path, encoding="utf-8") as f:
        return f.read()


def write(path, text, was):
    if text != was:
        with open(path, "w", encoding="utf-8") as f:
            f.write(text)


def snake(name):
    return re.sub(r"(?<=[a-z0-9])([A-Z])", lambda m: "_" + m.group(1).lower(), name)


antt = glob.glob("crates/*/specs/**/*.antt", recursive=True) + glob.glob("crates/*/proofs/**/*.antt", recursive=True)
for path, laws in TOGETHER.items():
    text = was = read(path)
    for law in laws:
        text = re.sub(r"(?<![\w.'-])%s(?![\w.'-])" % law, law.replace("_", "-"), text)
    write(path, text, was)

own = set()
for path in antt:
    for line in read(path).split("\n"):
        m = DEFINES.match(line)
        if m and m.group(1)[0].islower() and re.search(r"[a-z0-9][A-Z]", m.group(1)):
            own.add(m.group(1))

others = glob.glob("crates/*/src/*.rt") + glob.glob("crates/*/must-fail/*.edit") + glob.glob("docs/*.md") + glob.glob("*.md")
for path in antt + others:
    turned = {w: snake(w) for w in own}
    if path.endswith(".edit"):
        turned.update(TURNED)
    text = was = read(path)
    text = WORD.sub(lambda m: turned.get(m.group(0), m.group(0)), text)
    write(path, text, was)
