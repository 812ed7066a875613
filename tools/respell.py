#!/usr/bin/env python3
"""Spells the repository's own definitions and lemmas as today's Rattle spells words: in snake case.

usage: tools/respell.py [--check]      at the top of the repository, after port.py

    stripeLength -> stripe_length     depends-other -> depends_other     ⊕-self -> ⊕_self

A name is the repository's own where a file of specs/ or proofs/ declares it. Names that Rattle makes of the source (in proofs/F/Proof.antt,
Answers.antt, Invariants.antt), names of the library, functions of src/, types and strings keep their spelling. It says where two names would fall together.
"""
import glob
import os
import re
import sys

TOKEN = re.compile(r"[^\s(){}.;,@\"«»\[\]\\`:]+")
DECLARES = re.compile(r"^ *(?:(?:abbrev|unfoldable|pub|data|record|ruleset) +)*([^\s(){}.;,:\"]+)(?: +(?:\([^()]*(?:\([^()]*\)[^()]*)*\)|\{[^{}]*\}))* +:(?: |$)")
RULESET = re.compile(r"^ *(?:pub +)?ruleset +(?:pub +)?([^\s(){}.;,:\"]+)")
# The equations' own names H, S and D stay as the documents write them; where they begin a name, so do they there.
# A lemma that would have the name of its definition, or of a function, gets _lem.
LEMMAS = "begin-row broken-diagonals broken-rows diagonal-left entry-at good-column line-but of-bytes place-line put-body put-part row-amount row-left says-present sum-two"
GIVEN = {it: it.replace("-", "_") + "_lem" for it in LEMMAS.split()} | {"getD-tab": "get_or_tab"}
# Hypotheses that an argument names.
HYPOTHESES = "sumH sumD r-low d-low in-d r-done w-done not-many no-fit held-is column-in in-it in-h in-H in-D"
OF_FUNCTIONS = ("Proof.antt", "Answers.antt", "Invariants.antt")


def read(path):
    with open(path, encoding="utf-8") as it:
        return it.read()


def without_comments(text):
    return re.sub(r"--[^\n]*", "", text)


def snake(name):
    if name in GIVEN:
        return GIVEN[name]
    name = name.replace("-", "_")
    if name[:1].islower():
        name = re.sub(r"(?<=[a-z0-9])([A-Z])", lambda it: "_" + it[1].lower(), name)
    return name


def files(*patterns):
    return sorted(it for p in patterns for it in glob.glob(p, recursive=True) if "/out/" not in it and os.path.isfile(it))


def declared(text):
    found = set()
    for line in without_comments(text).split("\n"):
        it = DECLARES.match(line) or RULESET.match(line)
        if it and it[1] not in ("use", "mod", "module", "let", "in", "λ", "→", "|"):
            found.add(it[1])
    return found


def main():
    antt = files("crates/*/specs/**/*.antt", "crates/*/proofs/**/*.antt")
    own, imported, all_tokens = set(), set(), set()
    for path in antt:
        text = read(path)
        code = without_comments(text)
        all_tokens |= set(TOKEN.findall(code))
        if os.path.basename(path) in OF_FUNCTIONS:
            # a helper lemma of one proof is its own too; what answers a goal of Rattle's is not
            for line in code.split("\n"):
                it = DECLARES.match(line)
                if it and not re.search(r": (?:tie|goal)\.|statement M", line) and "-spec" not in it[1]:
                    own.add(it[1])
        else:
            own |= declared(text)
        for module, names in re.findall(r"(?m)^(?:pub )?use (\S+?)\.\{([^}]*)\}", code):
            if not re.match(r"Rattle\.(?:%s)\." % "|".join(os.listdir("crates")), module):
                imported |= {it.strip().split(" as ")[-1] for it in names.split(",")}
    own |= set(HYPOTHESES.split())
    turns = {it: snake(it) for it in own if snake(it) != it and it not in imported and not it.startswith("-") and not it.endswith("-")}
    bad = []
    back = {}
    for old, new in sorted(turns.items()):
        if new in back:
            bad.append(f"{old} and {back[new]} would both be {new}")
        back[new] = old
        if new in all_tokens or new in imported:
            bad.append(f"{old} would be {new}, which there is already")
    rust = set()
    for path in files("crates/*/src/**/*.rt"):
        rust |= set(re.findall(r"\b[a-z_][a-z0-9_]*\b", re.sub(r"//[^\n]*", "", read(path))))
    for old, new in sorted(turns.items()):
        if new in rust:
            bad.append(f"look: {old} would be {new}, a name of src/")
    print("\n".join(bad))
    print(f"respell: {len(turns)} names, {len(bad)} to look at")
    if "--check" in sys.argv:
        return
    turn = lambda it: turns.get(it[0], it[0])
    for path in antt + files("crates/*/src/**/*.rt", "crates/*/must-fail/*.edit"):
        text = read(path)
        # a file in proofs/F whose name for a goal is a lemma's elsewhere: the goals' names are not turned, since they are not in `turns` unless a lemma has them
        new = TOKEN.sub(turn, text)
        if path.endswith(".rt"):
            # strings stay
            pieces, olds = re.split(r'("(?:[^"\\\n]|\\.)*")', new), re.split(r'("(?:[^"\\\n]|\\.)*")', text)
            new = "".join(b if i % 2 else a for i, (a, b) in enumerate(zip(pieces, olds)))
        if new != text:
            with open(path, "w", encoding="utf-8") as it:
                it.write(new)


main()
