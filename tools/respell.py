#!/usr/bin/env python3
"""Spells the repository's own definitions and lemmas as today's Rattle spells names.

Words are in snake case, and a dash stands only between two names.

usage: respell.py TABLE            over crates/ below the current folder, by TABLE (old, tab, new)
       respell.py --table FOLDER.. writes a table for the names that these folders declare
"""

import collections
import os
import re
import sys

NAME = r"[^\s(){}\[\].;,@\"«»:=`]+"
DECLARED = re.compile(rf"^ *(?:(?:pattern|unfoldable|abbrev|pub|axiom) )*({NAME})(?: \{{[^{{}}\n]*\}})* :(?=\s)", re.M)
TYPE = re.compile(rf"^ *(?:(?:pattern|unfoldable|abbrev|pub|axiom) )*({NAME})(?: \{{[^{{}}\n]*\}})* :[^\n]*Type \d+ *$", re.M)
FUNCTION = re.compile(r"\bfn (\w+)")
# A type of one file that other files use as the name of facts, `inside`, is left.
# What the older Rattle made in proofs, and today's makes.
MADE = re.compile(r"(invariant|decreases)-|.*-spec$")
# Names that would meet a function of src/ are given the noun that they stand for.
MEETS = "_of"
# Library names under an alias with a middle dot.
ALIASES = {
    "List-as-Memᴰ": "Memᴰ",
    "List·Memᴰ·head": "Memᴰ-head",
    "List·Memᴰ·tail": "Memᴰ-tail",
    "List·Memᴰ·not-nil": "Memᴰ-not_nil",
    "List·Memᴰ·cases-cons": "Memᴰ-cases_cons",
    "List·Memᴰ·eq-of-singleton": "Memᴰ-eq_of_singleton",
    "List·Memᴰ·append-cases": "Memᴰ-append_cases",
    "Memᴰ·cast": "Memᴰ-cast",
    "Memᴰ·append-left": "Memᴰ-append_left",
    "Memᴰ·append-right": "Memᴰ-append_right",
    "List·getD-append": "get_or-append",
    "List·getD-eq-default": "get_or-eq_default",
    "Dec·and": "Dec-and",
    "valueBelow": "ValueBelow",
    "answerFits": "AnswerFits",
    "readFits": "ReadFits",
    "valueIs": "ValueIs",
    "valueSide": "ValueSide",
}
# Words of the library that name functions, behind or before a dash.
WORDS = set(
    "length get_or set take drop map append flat_map flatten sum add mul sub div mod pow suc pred le lt eq ge gt ltb leb eqb "
    "min max lt_z le_z eq_z all filter replicate reverse fold not and or nil cons zip some none true false Bool List Option if ite rw".split()
)


def files(root):
    for folder, dirs, names in os.walk(os.path.join(root, "crates")):
        dirs[:] = sorted(d for d in dirs if d not in ("out", ".git"))
        for name in sorted(names):
            if name.endswith((".rt", ".antt", ".edit")):
                yield os.path.join(folder, name)


def read(path):
    with open(path, encoding="utf-8") as f:
        return f.read()


def snake(segment):
    if not segment or segment[0].isupper():
        return segment
    segment = segment.replace("getD", "get_or").replace("sumTo", "sum_to")
    segment = re.sub(r"(?<=[a-z0-9])(ℤ|ℕ)", r"_\1", segment)
    segment = re.sub(r"(?<=[a-z0-9])[A-Z]", lambda m: "_" + m[0].lower(), segment)
    return segment.replace("·", "-")


def table(roots):
    declared, walks, functions, types, tokens = set(), set(), set(), set(), set()
    for root in roots:
        for path in files(root):
            text = read(path)
            if path.endswith(".rt"):
                functions |= set(FUNCTION.findall(text))
                tokens |= set(re.findall(r"\w+", text))
            elif path.endswith(".antt"):
                (walks if path.endswith("/Proof.antt") else declared).update(DECLARED.findall(text))
                types |= set(TYPE.findall(text))
                tokens |= set(re.findall(NAME, text))
    heads = {snake(n) for n in declared if "-" not in n} | WORDS
    new = {}
    for name in sorted(declared | {n for n in walks if "-" not in n}):
        if MADE.match(name) or not re.search(r"[a-zℤℕ0-9A-Z]", name) or name[:1] in "◌_":
            continue
        parts = [snake(s) for s in name.split("-")]
        out = parts[0]
        for left, right in zip(parts, parts[1:]):
            joins = right in heads and (left in heads or left[:1].isupper()) or out[:1].isupper() and left == parts[0]
            out += ("-" if joins or not left or not right else "_") + right
        if name in types and name != "inside" and out[:1].islower():
            out = "".join(w[:1].upper() + w[1:] for w in re.split(r"[-_]", out))
        new[name] = out
    new.update(ALIASES)
    # No two names fall together, and none falls onto one that stands.
    changed = {o: n for o, n in new.items() if o != n}
    stays = {o for o, n in new.items() if o == n} | functions
    for old in sorted(changed):
        if old in ALIASES:
            continue
        n = changed[old]
        others = [o for o in changed if changed[o] == n and o != old]
        if n in stays or others and any(o < old for o in others):
            changed[old] = n + MEETS if not n.endswith("_of") else n[: -len("_of")] + "_for"
            print(f"meets: {old} {n} -> {changed[old]}", file=sys.stderr)
    again = collections.Counter(changed.values())
    for old, n in changed.items():
        if again[n] > 1 or n in stays or n in tokens and n not in changed and old not in ALIASES:
            print(f"look: {old} -> {n}", file=sys.stderr)
    for old in sorted(changed):
        print(f"{old}\t{changed[old]}")


def turn(path_of_table):
    rows = dict(line.rstrip("\n").split("\t") for line in open(path_of_table, encoding="utf-8"))
    token = re.compile(NAME)
    comment = re.compile(r"((?:^|(?<=\s))(?:--|//) .*)")
    for path in files("."):
        text = before = read(path)
        if path.endswith(".antt"):
            text = re.sub(r"\bsearch needs\b", "search rules", re.sub(r"\(needs,", "(rules,", text))
            text = re.sub(r"(?m)^(use [^\n]*\{[^\n]*?)(?<![\w-])needs(?![\w-])", r"\1rules", text)
        made = ""
        for part in comment.split(text):
            plain = not comment.fullmatch(part)
            # In a comment an English word with a hyphen is no name.
            made += token.sub(lambda m: rows.get(m[0], m[0]) if plain or not "-" in m[0] else m[0], part)
        if made != before:
            with open(path, "w", encoding="utf-8") as f:
                f.write(made)


if __name__ == "__main__":
    if sys.argv[1] == "--table":
        table(sys.argv[2:])
    else:
        turn(sys.argv[1])
