#!/usr/bin/env python3
"""Lists places of src/ by form, for docs/DESIGN-PASS.md: places.py [POINT ..]

Run at the top of the repository. Each point is one search over crates/*/src/*.rt (point 8: over crates/*/proofs), and prints what it found and how many.
A search finds candidates: the page says of each whether its form was changed or stays, and why.
"""
import collections
import glob
import re
import sys

SOURCES = sorted(glob.glob("crates/*/src/*.rt"))


def lines():
    for path in SOURCES:
        for number, line in enumerate(open(path, encoding="utf-8"), 1):
            yield path, number, line.rstrip("\n")


def functions():
    """(path, name, parameters, requires, ensures, body) of each function."""
    for path in SOURCES:
        text = open(path, encoding="utf-8").read()
        for found in re.finditer(r"^( *)(?:pub(?:\(crate\))? )?(?:extern \"C\" )?fn (\w+)(?:<[^>]*>)?\((.*?)\)(?: -> [^\n{]+)?\n?(.*?)^\1\{\n(.*?)^\1\}", text, re.M | re.S):
            clauses = found.group(4)
            yield (
                path,
                found.group(2),
                re.findall(r"(\w+: [^,\n]+)", found.group(3)),
                re.findall(r"requires \{ (.*) \}", clauses),
                re.findall(r"ensures(?: \w+)? \{ (.*) \}", clauses),
                found.group(5),
            )


def show(title, places):
    print(f"== {title}: {len(places)}")
    for place in places:
        print("   ", place)


def matching(pattern):
    return [f"{path}:{number}: {line.strip()}" for path, number, line in lines() if re.search(pattern, line)]


def kinds():
    show("enums of our own", matching(r"^\s*(pub(\(crate\))? )?enum "))
    show("numbers that stand for none or for a kind", matching(r"//.*(129 (stands )?for none|256 where no|where there is none|where none|for none|, -1)|slant: usize"))
    show("flags beside values", matching(r"^\s*(pub(\(crate\))? )?\w+: bool,"))


def twins():
    """Functions whose bodies are the same but for numbers, or but for numbers and names."""
    by_shape = collections.defaultdict(list)
    for path, name, _, _, _, body in functions():
        text = re.sub(r"//[^\n]*", "", body)
        shape = re.sub(r"\d+", "0", re.sub(r"\b[a-z_]\w*\b", "x", text))
        if len(re.findall(r"\w+", shape)) >= 8:
            by_shape[re.sub(r"\s+", "", shape)].append(f"{path}: {name}")
    groups = [" | ".join(group) for group in by_shape.values() if len(group) > 1]
    show("functions of one shape", groups)


def loops():
    show("while loops", matching(r"^\s*while "))
    show("for loops over numbers", matching(r"^\s*for \w+ in .*\.\."))
    show("for loops over values", [place for place in matching(r"^\s*for ") if not re.search(r"for \w+ in .*\.\.", place)])


def by_hand():
    show("derives", matching(r"#\[derive"))
    show("functions that only turn one value into another", matching(r"fn (number|found|column|item|refusal|digit|decimal_digit|wide|count_of|bytes|of_bytes|larger|fewer|zero|copy_into|any|is_zero|find_set)\b"))


def facts():
    clauses = collections.defaultdict(set)
    for path, name, _, requires, _, _ in functions():
        for clause in requires:
            for part in re.split(r" × ", clause):
                clauses[part.strip().strip("()")].add(f"{path}: {name}")
    show("a fact in three requires or more", [f"{len(where)}  {part}" for part, where in sorted(clauses.items(), key=lambda x: -len(x[1])) if len(where) >= 3])
    pairs = collections.defaultdict(set)
    for path, name, parameters, _, _, _ in functions():
        for i, first in enumerate(parameters):
            for second in parameters[i + 1 :]:
                pairs[(first, second)].add(f"{path}: {name}")
    show("two parameters together in six functions or more", [f"{len(where)}  {pair[0]}, {pair[1]}" for pair, where in sorted(pairs.items(), key=lambda x: -len(x[1])) if len(where) >= 6])


def buffers():
    show("a buffer with a number of items beside it", [f"{path}: {name}" for path, name, parameters, _, _, _ in functions() if any("[" in p for p in parameters) and any(re.match(r"(n|x|done|end|length|count): usize", p) for p in parameters)])
    show("lists side by side", [f"{path}: {name}" for path, name, parameters, _, _, _ in functions() if sum("&[usize]" in p for p in parameters) > 1])


def switches():
    show("flags that are handed on", [f"{path}: {name} ({', '.join(p for p in parameters if p.endswith(': bool'))})" for path, name, parameters, _, _, _ in functions() if any(p.endswith(": bool") for p in parameters)])
    show("numbers for a kind that are handed on", [f"{path}: {name}" for path, name, parameters, _, _, _ in functions() if any(p.startswith("slant:") for p in parameters)])


def proofs():
    answers = repeated = lines_of = 0
    for path in glob.glob("crates/*/proofs/**/*.antt", recursive=True):
        text = open(path, encoding="utf-8").read()
        lines_of += text.count("\n")
        if path.endswith("Answers.antt"):
            answers += len(re.findall(r"^pub \S+ : goal\.", text, re.M))
            given = re.findall(r"^    let (\w+) : [^\n]* in$", text, re.M)
            repeated += sum(n - 1 for n in collections.Counter(given).values() if n > 1)
    print(f"== lines of proofs: {lines_of}")
    print(f"== answers: {answers}")
    print(f"== facts stated again in a further answer of the same file: {repeated}")


POINTS = {"1": kinds, "2": twins, "3": loops, "4": by_hand, "5": facts, "6": buffers, "7": switches, "8": proofs}
for point in sys.argv[1:] or POINTS:
    print(f"---- point {point}")
    POINTS[point]()
