#!/usr/bin/env python3
"""Spells the repository's own definitions and lemmas as the rest of its texts are spelled now.

usage: tools/respell.py            at the top of the repository: rewrites crates/ in place and prints what it did
       tools/respell.py --map      only prints the rows: old, a tab, new

Words (definitions that give a value), fields and constructors are in snake case; facts (definitions that give a type), types and
modules in upper camel case; a lemma keeps the dashes between the names that it joins, and each of those is in snake case.
A name that another name of the same file would fall together with keeps its spelling, with a line 'left:'.
"""

import collections
import os
import re
import sys

NAME = r'[^\s(){}.;,@"«»]+'
TOKEN = re.compile(NAME)
HEAD = re.compile(r"^( *)((?:(?:abbrev|unfoldable|pub|record|data|private) +)*)(" + NAME + r")((?: (?:\{[^{}\n]*\}|\([^()\n]*\)))*) :(?= |$)")
PLAIN = re.compile(r"[A-Za-z][\w'-]*$")
CLAUSE = re.compile(r"\b(?:requires|ensures)\*?(?: \w+)? \{|\bghost \w+: \{|\bghost use\b")


def files(root):
    for folder, dirs, names in os.walk(os.path.join(root, "crates")):
        dirs[:] = sorted(d for d in dirs if d != "out")
        for n in sorted(names):
            if n.endswith((".antt", ".rt")):
                yield os.path.join(folder, n)


def snake(name):
    return re.sub(r"(?<=[a-z0-9])[A-Z]+(?![a-z])|(?<=[a-z0-9])[A-Z]", lambda m: "_" + m[0].lower(), name)


def camel(name):
    return "".join(p[:1].upper() + p[1:] for p in re.split(r"[-_]", name) if p)


def generated(path):
    """A file of one function's proof: its labels are the check's."""
    return re.search(r"/proofs/.*/(Answers|Invariants|Proof)\.antt$|/proofs/\S+/(Answers|Invariants)/", path)


def declared(text):
    """Each name that a text declares: its words before it, and whether it gives a type."""
    lines = text.split("\n")
    block = None
    for i, line in enumerate(lines):
        if line.strip() and block is not None and len(line) - len(line.lstrip()) <= block:
            block = None
        m = HEAD.match(line)
        if not m or not PLAIN.match(m[3]):
            if re.match(r" *(pub )?(record|data) ", line):
                block = len(line) - len(line.lstrip())
            continue
        words, name = m[2].split(), m[3]
        whole = line[m.end():]
        j = i + 1
        while j < len(lines) and lines[j].strip() and len(lines[j]) - len(lines[j].lstrip()) > len(m[1]) and block is None:
            whole += " " + lines[j].strip()
            j += 1
        whole = re.sub(r"\s--.*", "", whole)
        gives_type = bool(re.search(r"(^|→)\s*Type(\s+[\w\d]+)?( where)?\s*$", whole.strip()))
        if "record" in words or "data" in words:
            kind = "type"
        elif block is not None:
            kind = "field"
        elif "abbrev" in words or "unfoldable" in words:
            kind = "fact" if gives_type else "word"
        else:
            kind = "lemma"
        yield kind, name
        if "record" in words or "data" in words:
            block = len(m[1])


def respelled(kinds, name):
    if "type" in kinds or "fact" in kinds:
        return camel(name)
    if name[0].isupper():
        return name
    if "word" in kinds or "field" in kinds:
        return snake(name).replace("-", "_")
    return snake(name)


def clause_text(text):
    """The text of a .rt file with all but its clauses and 'ghost use' items blanked."""
    out = []
    for line in text.split("\n"):
        out.append(line if CLAUSE.search(line) else "")
    return "\n".join(out)


def main(argv):
    root = "."
    texts = {p: open(p, encoding="utf-8").read() for p in files(root)}
    kinds = collections.defaultdict(collections.Counter)
    for p, t in texts.items():
        if p.endswith(".antt") and not generated(p):
            for kind, name in declared(t):
                kinds[name][kind] += 1
    tokens, rust, alone = {}, {}, {}
    for p, t in texts.items():
        code = t if p.endswith(".antt") else clause_text(t)
        code = re.sub(r"(^|\s)--.*", "", code)
        tokens[p] = set(TOKEN.findall(code))
        alone[p] = set(re.findall(r"(?<![^\s(){},;@])" + NAME + r"(?!\.[^\s])", code))
        if p.endswith(".rt"):
            code = "\n".join("" if CLAUSE.search(l) else l for l in t.split("\n"))
            code = re.sub(r"//.*", "", code)
            rust[p] = set(re.findall(r"\b(\w+)\b(?!\()", code)) - set(re.findall(r"\bfn (\w+)", code)) | set(re.findall(r"\b(?:mod|const|static) (\w+)", code))
    rows = {}
    for name, k in kinds.items():
        new = respelled(k, name)
        if new != name:
            rows[name] = new
    back = collections.defaultdict(set)
    for old, new in rows.items():
        back[new].add(old)
    where = collections.defaultdict(set)
    for p, ts in tokens.items():
        for t in ts:
            if t in rows:
                where[t].add(p)
    keep, taken = {}, set()
    for old, new in sorted(rows.items()):
        why = None
        for p in where[old]:
            rivals = [o for o in back[new] if o != old and o in tokens[p] and ("-" in old or "-" not in o)]
            if new in alone[p] or rivals:
                why = f"{new} stands in {p} too"
                break
            if p.endswith(".rt") and new in rust[p]:
                why = f"{new} is a name of {p}"
                break
        if why:
            again = new + "_of"
            if "-" not in old and not new.endswith("_of") and again not in back and again not in taken and all(again not in tokens[p] and again not in rust.get(p, ()) for p in where[old]) and again not in kinds:
                rows[old] = again
                taken.add(again)
                print(f"look: {old} is {again}, since {why}", file=sys.stderr)
            else:
                keep[old] = why
    for old, why in keep.items():
        print(f"left: {old}: {why}", file=sys.stderr)
        del rows[old]
    if "--map" in argv:
        for old, new in sorted(rows.items()):
            print(f"{old}\t{new}")
        return 0
    changed = 0
    for p, t in texts.items():
        if p.endswith(".antt"):
            new = TOKEN.sub(lambda m: rows.get(m[0], m[0]), t)
        else:
            new = "\n".join(TOKEN.sub(lambda m: rows.get(m[0], m[0]), l) if CLAUSE.search(l) else re.sub(r"//.*", lambda c: TOKEN.sub(lambda m: rows.get(m[0], m[0]) if re.search(r"[-A-Z]", m[0]) else m[0], c[0]), l) for l in t.split("\n"))
        if new != t:
            changed += 1
            open(p, "w", encoding="utf-8").write(new)
    print(f"{len(rows)} names, {changed} files")
    return 0


if __name__ == "__main__":
    raise SystemExit(main(sys.argv[1:]))
