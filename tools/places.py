#!/usr/bin/env python3
"""Counts the places of the sources that docs/DESIGN-PASS.md speaks of: tools/places.py [FOLDER] [--list]

FOLDER is a checkout of this repository, else this one. Each count is made by text alone and takes in more than what a
reader would change; --list shows every place. Loops, Results and the like are counted in crates/*/src, answers and
lemmas in crates/*/proofs.
"""
import collections
import glob
import itertools
import os
import re
import sys

folder = next((a for a in sys.argv[1:] if not a.startswith("-")), os.path.join(os.path.dirname(__file__), ".."))
listed = "--list" in sys.argv
paths = sorted(glob.glob(folder + "/crates/*/src/**/*.rt", recursive=True))
sources = {os.path.relpath(path, folder): open(path).read() for path in paths}


def tell(name, places):
    print(f"{len(places):5}  {name}")
    if listed:
        for place in places:
            print("         ", place)


def lines(pattern, texts=sources):
    """Each line that the pattern meets, with its file and number."""
    for path, text in texts.items():
        for number, line in enumerate(text.split("\n"), 1):
            if re.search(pattern, line):
                yield f"{path}:{number}: {line.strip()}"


def blocks(pattern):
    """Each match of the pattern over lines."""
    for path, text in sources.items():
        for m in re.finditer(pattern, text):
            number = text.count("\n", 0, m.start()) + 1
            yield f"{path}:{number}: {' '.join(m[0].split())}"


def indexing():
    """Each `for` over a range of numbers in whose body the number stands in brackets."""
    for path, text in sources.items():
        for m in re.finditer(r"\bfor (\w+) in [^{]*\.\.[^{]*\{", text):
            deep, end = 1, m.end()
            while deep:
                deep += {"{": 1, "}": -1}.get(text[end], 0)
                end += 1
            if re.search(r"\[[^\]]*\b" + m[1] + r"\b[^\]]*\]", text[m.end() : end]):
                yield f"{path}:{text.count(chr(10), 0, m.start()) + 1}: {' '.join(m[0].split())}"


def functions():
    """Crate, name, parameters and clauses of each function."""
    for path, text in sources.items():
        for m in re.finditer(r"\bfn (\w+)(?:<[^(]*>)?\(([^)]*)\)([^{};]*(?:\{[^{}]*\}[^{};]*)*?)\n?\s*\{\n", text):
            clauses = re.findall(r"(requires|ensures)\s*\w*\s*\{(.*?)\}\n", m[3] + "\n", re.S)
            yield path.split("/")[1], m[1], m[2], clauses


print("1. Option, Result, errors")
handed = r"let (?:Ok|Some)\([^;]*?else \{\s*return (?:None|Err|read|surveyed|tried|filled)[^;]*;"
again = r"Err\(\w+\) => (?:return )?Err\("
tell("`let .. else` or `match` that hands on what it met", [*blocks(handed), *blocks(again)])
tell("results joined by `and`", list(lines(r"\.and\(")))
tell("0 or a constant in the place of nothing", list(lines(r"0 where|const NONE|::NONE\b|FREE\b|entry == 0|u8\s*$")))
tell("kinds and refusals as numbers", list(lines(r"fn of\(number|Kind::of\(|kind > MAX_KIND")))
print("2. Twins")
runs = collections.defaultdict(list)
for path, text in sources.items():
    numbered = enumerate(map(str.strip, text.split("\n")), 1)
    kept = [(i, line) for i, line in numbered if line and not line.startswith(("ghost use", "use "))]
    for a in range(len(kept) - 5):
        runs[tuple(line for _, line in kept[a : a + 6])].append(f"{path}:{kept[a][0]}")
tell("runs of six lines that stand twice", [" and ".join(v[:2]) for v in runs.values() if len(v) > 1])
print("3. Loops")
tell("`for` over a range of numbers", list(lines(r"\bfor \w+ in [^{]*\.\.")))
tell("  of them, loops that index by what they count", list(indexing()))
tell("`while`", list(lines(r"\bwhile\b")))
print("4. Equality, order, conversion, printing")
printing = r"^(?:pub(?:\(crate\))? )?struct \w*(?:Line|Words|Count|Contested)\b"
tell("types made only to print another", list(lines(printing)))
tell("hand-written conversions", list(lines(r"fn of\(")))
print("5. Facts and parameters that travel together")
facts, pairs = collections.defaultdict(set), collections.defaultdict(set)
for crate, name, parameters, clauses in functions():
    for kind, clause in clauses:
        if kind == "requires":
            for head in re.findall(r"[A-Z]\w+(?= )|\w+(?= [≤<] (?:signs_in|most_))", clause):
                facts[crate, head].add(name)
    given = sorted({p.strip() for p in parameters.split(",") if ":" in p})
    for pair in itertools.combinations(given, 2):
        pairs[crate, "; ".join(pair)].add(name)


def often(places):
    """What three or more functions of a crate have, with their names."""
    for (crate, what), names in places.items():
        if len(names) > 2:
            yield f"{crate}: {what}: {', '.join(sorted(names))}"


tell("facts that three or more functions of a crate require", list(often(facts)))
tell("pairs of parameters of three or more functions of a crate", list(often(pairs)))
print("6. Arrays and lengths")
tell("fields that are arrays of a fixed length", list(lines(r"^\s+(?:pub |pub\(crate\) )?\w+: \[\w+; \w+\],")))
tell("parts from 0 on", list(lines(r"\[0\.\.\w")))
tell("results of a length beside an array", list(lines(r"^\s+(?:pub )?count: usize")))
print("7. Switches")
tell("functions told by a flag or a word what to do", list(lines(r"\w+: bool[,)]|keys: Keys[,)]")))
print("8. Proofs")
proofs = {p: open(p).read() for p in glob.glob(folder + "/crates/*/proofs/**/*.antt", recursive=True)}
answers = {p: t for p, t in proofs.items() if p.endswith(("Answers.antt", "Invariants.antt"))}


def total(counts, name):
    print(f"{sum(counts):5}  {name}")


ANSWER = re.compile(r"^(?:abbrev )?pub [^ ]+ :\s+goal", re.M)
total((len(ANSWER.findall(t)) for t in answers.values()), "answers and invariants")
total((t.count("\n") for t in answers.values()), "lines of them")
total((t.count("\n") for p, t in proofs.items() if p not in answers), "lines of lemmas")
