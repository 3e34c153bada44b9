#!/usr/bin/env python3
"""Counts the places of docs/DESIGN-PASS.md in crates/*/src: python3 tools/design-counts.py [COMMIT]"""
import collections
import re
import subprocess
import sys

COMMIT = sys.argv[1] if len(sys.argv) > 1 else None


def sources():
    """Crate and text of each source file, of the work tree or of a commit."""
    listed = ["git", "ls-tree", "-r", "--name-only", COMMIT] if COMMIT else ["git", "ls-files"]
    for path in subprocess.run(listed, capture_output=True, text=True, check=True).stdout.split():
        if not re.fullmatch(r"crates/\w+/src/\w+\.rt", path):
            continue
        if COMMIT:
            show = ["git", "show", f"{COMMIT}:{path}"]
            yield path.split("/")[1], subprocess.run(show, capture_output=True, text=True, check=True).stdout
        else:
            yield path.split("/")[1], open(path, encoding="utf-8").read()


def code(text):
    """The lines that are neither comments nor clauses."""
    for line in text.split("\n"):
        if not re.match(r"\s*(//|ghost use|requires|ensures|where)", line):
            yield line


def count(pattern):
    found = collections.Counter()
    for crate, text in SOURCES:
        found[crate] += sum(len(re.findall(pattern, line)) for line in code(text))
    return +found


SOURCES = list(sources())
for point, what, pattern in (
    (1, "numbers for kinds, refusals, endings", r"const [A-Z_]+: u(?:8|64) = \d+;"),
    (1, "answers and fields that are a refusal's number", r"refusal: u8|-> u8 *$|cause != 0|ending: u8"),
    (3, "loops with while", r"\bwhile\b"),
    (3, "steps of a counter by hand", r"\b(?:i|j|k|n|x|day|counted|written) \+= 1;"),
    (4, "conversions with as", r"\bas (?:u8|u16|u64|usize)\b"),
    (6, "a length beside an array", r"^    pub (?:n|waiting): u"),
):
    found = count(pattern)
    print(f"{point}  {what}: {sum(found.values())}", dict(found))

facts = collections.defaultdict(set)
for crate, text in SOURCES:
    for name, clauses in re.findall(r"fn (\w+)[^{]*?((?:\n\s+(?:requires|ensures)[^\n]*)+)", text):
        for clause in re.findall(r"requires (?:\w+ )?\{ (.*) \}", clauses):
            for fact in clause.split(" × "):
                facts[re.sub(r"\.(now|old)", "", fact.strip("() "))].add(f"{crate}::{name}")
often = sorted(((len(where), fact) for fact, where in facts.items() if len(where) > 2), reverse=True)
print(f"5  facts that three or more functions require: {len(often)}", [f"{n} {fact}" for n, fact in often])
