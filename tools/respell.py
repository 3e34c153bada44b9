#!/usr/bin/env python3
"""Brings the definitions and lemmas of this repository to today's spelling: snake case for words.

usage: python3 tools/respell.py [ROOT]       rewrites crates/*/{src,specs,proofs,must-fail} in place
       python3 tools/respell.py --list [ROOT]  prints OLD NEW for each name, and rewrites nothing

Run it once, right after port.py. It renames what specs/ and the lemma files of proofs/ declare: functions, lemmas,
constructors and fields. A dash stays only between two names that are declared, as in `member-append`. Types, modules and
what Rattle source names keep their spelling. A name that would fall together with another of the same file is reported.
"""
import os
import re
import sys

WORD = re.compile(r'[^\s(){}.;,@"«»`\[\]\\]+')
HEAD = re.compile(r"^\s*(?:(?:abbrev|unfoldable|opaque|instance|ruleset|pub|private)\s+)*((?:[^\s(){}.;,@\"«»`\[\]\\]+\s+)+?):(?:\s|$)")
KEYS = {"abbrev", "unfoldable", "opaque", "pub", "data", "record", "where", "let", "in", "module", "use", "ghost", "λ", "unfolding", "mutual"}
IDENT = re.compile(r"^[A-Za-z][\w'′₀-₉-]*$")


def snake(w):
    w = w.replace("′", "'")
    if w[0].isupper():
        return w  # a type, or a lemma that begins with one: only its later parts are words
    w = re.sub(r"([a-z0-9])([A-Z])", lambda m: m.group(1) + "_" + m.group(2).lower(), w)
    return w


# Names that would fall together with another of their file: (a crate's files, old, new).
FIRST = [
    ("", "held_by", "is_held_by"),
    ("clause/proofs", "with_item", "item_stored"),
    ("drain/proofs/Oldest", "to_item", "item_planned"),
    ("drain/proofs/Oldest", "to-session", "session_planned"),
    ("room/proofs/Theorem", "goes_on", "phase_goes_on"),
    ("agreement/proofs", "to_held", "to_held_read"),
    ("waits/proofs", "one_more", "one_more_is"),
]

# Names with a dash that would become the name of a definition.
NAMED = {
    "well-formed": "is_well_formed",
    "sessions-of": "sessions_are",
    "items-of": "items_are",
    "of-machine": "is_of_machine",
    "of-member": "is_of_member",
    "of-victim": "is_of_victim",
    "session-acts": "session_acting",
    "sizes-fit": "all_sizes_fit",
    "with-session": "session_stored",
    "no-cycle": "has_no_cycle",
    "no-message": "has_no_message",
    "under-way": "is_under_way",
    "in-range": "is_in_range",
}


def files(root, ends):
    for folder, dirs, names in os.walk(os.path.join(root, "crates")):
        dirs[:] = sorted(d for d in dirs if d not in ("out", "target"))
        for n in sorted(names):
            if n.endswith(ends):
                yield os.path.join(folder, n)


def declares(path, root):
    rel = os.path.relpath(path, os.path.join(root, "crates")).split(os.sep)
    return path.endswith(".antt") and (rel[1] == "specs" or (rel[1] == "proofs" and len(rel) == 3))


def gather(root):
    words, fields = set(), set()
    imported = set()
    for p in files(root, (".antt", ".rt")):
        text = open(p, encoding="utf-8").read()
        for m in re.finditer(r"^\s*(?:ghost )?use ([^\s{;]+?)\.\{([^}]*)\}", text, re.M):
            if not own(m.group(1), root):
                imported |= {x.strip() for x in m.group(2).split(",")}
        if not declares(p, root):
            continue
        for line in text.split("\n"):
            code = line.split("--")[0]
            m = HEAD.match(code)
            if not m:
                continue
            for w in m.group(1).split():
                if IDENT.match(w) and w not in KEYS:
                    words.add(w)
    return words, imported


def own(module, root):
    parts = module.split(".")
    return parts[0] == "Rattle" and len(parts) > 1 and os.path.isdir(os.path.join(root, "crates", parts[1]))


def plan(root):
    words, imported = gather(root)
    base = {snake(w) for w in words if "-" not in w} | {w for w in imported if "-" not in w}
    base |= {"append", "cons", "nil", "zero", "suc"}
    turned = {}
    for w in sorted(words):
        new = snake(w)
        if "-" in new:
            parts = new.split("-")
            out = parts[0]
            for a, b in zip(parts, parts[1:]):
                join = "-" if a in base and b in base else "_"
                out += join + b
            new = out
        new = NAMED.get(w, new)
        if new != w:
            turned[w] = new
    return turned, imported


def turn_code(text, turned, skip):
    def one(m):
        w = m.group(0)
        return turned.get(w, w) if w not in skip else w

    return WORD.sub(one, text)


def split_comment(line, mark):
    i = line.find(mark)
    return (line, "") if i < 0 else (line[:i], line[i:])


def turn(path, text, turned, root):
    skip = set()
    for m in re.finditer(r"^\s*(?:ghost )?use ([^\s{;]+?)\.\{([^}]*)\}", text, re.M):
        if not own(m.group(1), root):
            skip |= {x.strip() for x in m.group(2).split(",")}
    camel = {k: v for k, v in turned.items() if "-" not in k}
    mark = "//" if path.endswith(".rt") else "--"
    out = []
    for line in text.split("\n"):
        if path.endswith(".edit"):
            out.append(turn_code(line, turned, skip))
            continue
        code, note = split_comment(line, mark)
        out.append(turn_code(code, turned, skip) + re.sub(r"[A-Za-z][\w']*", lambda m: camel.get(m.group(0), m.group(0)), note))
    return "\n".join(out)


def main(argv):
    listing = "--list" in argv
    rest = [a for a in argv if a != "--list"]
    root = os.path.abspath(rest[0] if rest else ".")
    turned, imported = plan(root)
    if listing:
        for k, v in turned.items():
            print(k, v)
        return 0
    for p in files(root, (".antt", ".rt", ".edit")):
        with open(p, encoding="utf-8") as f:
            text = f.read()
        rel = os.path.relpath(p, os.path.join(root, "crates"))
        for start, old, to in FIRST:
            if rel.startswith(start) and p.endswith(".antt"):
                text = WORD.sub(lambda m: to if m.group(0) == old else m.group(0), text)
        new = turn(p, text, turned, root)
        if new != text:
            before = set(WORD.findall("\n".join(l.split("--")[0].split("//")[0] for l in text.split("\n"))))
            many = {}
            for w in before & set(turned):
                many.setdefault(turned[w], []).append(w)
            for v, ks in many.items():
                if len(ks) > 1:
                    print(f"falls together: {rel}: {ks}")
            for w in sorted(before):
                v = turned.get(w)
                if v and v in before and not p.endswith(".edit"):
                    print(f"falls together: {os.path.relpath(p, root)}: {w} and {v}")
            with open(p, "w", encoding="utf-8") as f:
                f.write(new)
    by_new = {}
    for k, v in turned.items():
        by_new.setdefault(v, []).append(k)
    for v, ks in by_new.items():
        if len(ks) > 1:
            print(f"two names become one: {ks} -> {v}")
    return 0


raise SystemExit(main(sys.argv[1:]))
