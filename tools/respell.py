#!/usr/bin/env python3
"""Brings the repository's own definitions, lemmas, fields and constructors to Rattle's spelling, in crates/.

usage: python3 tools/respell.py [--dry]     at the top of the repository, once, after the kit's port.py

A word is in snake case: `arcsOf` becomes `arcs_of`, and `some-tree` `some_tree`. A dash stays beside the name of a type,
which keeps its capital. A lemma that would have the name of a definition gets `_lem`. What Rattle makes (goals, and the fields of their contexts) and the
functions of src/ keep their names. It says which names fall together in one file.
"""
import glob
import os
import re
import sys
from collections import defaultdict

TOKEN = re.compile(r"[^\s(){};,.\[\]\"`]+")
DECLARED = re.compile(r"^[ \t]*(?:(?:pub|abbrev|unfoldable|irreducible|instance|private) +)*((?:[^\s(){};,.\[\]\":]+ +)+):(?= |$)", re.M)
FIELD = re.compile(r"(?:[{;]|record|^)\s*([a-z][^\s(){};,.\[\]\":]*) :(?= )", re.M)
DEFINITION = re.compile(r"^[ \t]*(?:pub +)?(?:abbrev|unfoldable) +(?:pub +)?([^\s(){};,.\[\]\":]+) +:", re.M)
MADE = re.compile(r"^(tie|goal|Need)\b")
# Names that would fall together with another, and what they are called instead.
OTHERWISE = {"isPos": "is_positive", "sameAnswer": "same_answers", "bitsOf-number": "bits_of_numbers"}
# Declared with an argument in braces before their colon.
BESIDE = {"firstIndex": "first_index", "argminFrom": "argmin_from", "candidatesOf": "candidates_of", "emptyState": "empty_state", "distWithin": "dist_within"}

LINE_COMMENT = {".antt": "--", ".rt": "//"}


def snake(part):
    return re.sub(r"(?<=[a-z0-9])([A-Z])", lambda m: "_" + m.group(1).lower(), part)


def lower_word(w):
    return bool(re.match(r"[a-z]", w))


def turned(name, definitions):
    if name in OTHERWISE:
        return OTHERWISE[name]
    parts = name.replace("′", "'").split("-")
    out = ""
    for i, p in enumerate(parts):
        q = snake(p) if lower_word(p) else p
        if i:
            out += "-" if parts[i - 1][:1].isupper() or p[:1].isupper() else "_"
        out += q
    return out


# Rattle makes a module `contracts` of each crate's specs: the crates' own `Contracts` have another name.
def rename_contracts():
    for old in glob.glob("crates/*/specs/Contracts.antt"):
        os.rename(old, old.replace("Contracts.antt", "StepContracts.antt"))
    for f in glob.glob("crates/**/*.antt", recursive=True) + glob.glob("crates/**/*.rt", recursive=True):
        if "/out/" in f:
            continue
        with open(f) as g:
            t = g.read()
        n = re.sub(r"(Rattle\.(?:required|search|shortest)\.specs)\.Contracts\b", r"\1.StepContracts", t)
        if re.fullmatch(r"crates/(required|search|shortest)/specs/Lib\.antt", f):
            n = n.replace("pub mod Contracts\n", "pub mod StepContracts\n")
        if n != t:
            with open(f, "w") as g:
                g.write(n)


def main():
    dry = "--dry" in sys.argv
    antt = sorted(f for f in glob.glob("crates/**/*.antt", recursive=True) if "/out/" not in f)
    rt = sorted(f for f in glob.glob("crates/**/*.rt", recursive=True) if "/out/" not in f)
    edits = sorted(glob.glob("crates/*/must-fail/*.edit"))
    text = {f: open(f).read() for f in antt + rt + edits}
    declared, definitions, fields = set(), set(), set()
    for f in antt:
        t = re.sub(r"--.*", "", text[f])
        for m in DECLARED.finditer(t):
            declared |= set(m.group(1).split())
        for m in FIELD.finditer(t):
            declared.add(m.group(1))
            fields.add(m.group(1))
        if "/specs/" in f:
            definitions |= set(DEFINITION.findall(t))
    wanted = {}
    for n in declared:
        if not re.match(r"[a-z]", n) or n.startswith(("invariant-", "decreases-", "overflow_")):
            continue
        if re.search(r"[A-Z′-]", n) and not re.search(r"[^\w'′₀-₉-]", n):
            q = turned(n, definitions)
            if q != n:
                wanted[n] = q
    wanted.update(BESIDE)
    for n, q in list(wanted.items()):
        if "-" in n and any(o != n and "-" not in o and p == q for o, p in wanted.items()):
            wanted[n] = q + "_lem"
    snakes = {}
    for f in antt:
        bare = re.sub(r"[\w.]*\b(?:Rattle|tie|goal)\.[\w.'+-]*", "", text[f])
        for t in set(TOKEN.findall(bare)):
            snakes.setdefault(t, set()).add(f)
    for n, q in list(wanted.items()):
        if "-" in n and any(n in TOKEN.findall(text[f]) for f in snakes.get(q, ())):
            wanted[n] = q + "_lem"
    # names of records' fields: declared somewhere with no equation for them in that file
    fields_alone = set()
    for f in antt:
        for m in DECLARED.finditer(text[f]):
            for n in m.group(1).split():
                if wanted.get(n, "").endswith("_lem") and not re.search(r"(?m)^\s*" + re.escape(n) + r"(?![\w-])[^:\n]*=", text[f]):
                    fields_alone.add(n)
    print("fields:", *sorted(fields_alone))
    by_new = defaultdict(set)
    for n, q in wanted.items():
        by_new[q].add(n)
    together = []
    out = {}
    for f in text:
        tokens = set(TOKEN.findall(text[f]))
        for t in tokens:
            if t in wanted:
                q = wanted[t]
                others = ({q} | by_new[q]) - {t}
                clash = others & tokens
                if clash:
                    together.append((f, t, q, sorted(clash)))

        def one(m):
            t = m.group(0)
            before = m.string[max(0, m.start() - 60):m.start()]
            if t not in wanted or re.search(r"(?:\btie|\bgoal)\.$", before):
                return t
            q = wanted[t]
            if q.endswith("_lem"):
                # a field, or what Rattle made of a call
                if before.endswith("."):
                    return q[:-4] + ("_holds" if t in fields_alone else "")
                after = m.string[m.end():m.end() + 3]
                if t in fields_alone and (after.startswith(" =") and re.search(r"[{;]\s*$", before) or after.startswith(" :") and not re.search(r"(?m)^\s*" + re.escape(t) + r"\b[^:\n]*=", m.string)):
                    return q[:-4] + "_holds"
            return q

        out[f] = TOKEN.sub(one, text[f])
    for x in sorted(together):
        print(*x)
    print(len(wanted), "names turned;", len(together), "fall together")
    if dry:
        return
    for f in out:
        if out[f] != text[f]:
            with open(f, "w") as g:
                g.write(out[f])
    rename_contracts()


main()
