#!/usr/bin/env python3
"""Lists the clauses that stand in the contracts of three or more functions, and the pairs of parameters that three or more functions
take: `python3 tools/repeated_clauses.py` at the repository's root. docs/DESIGN-PASS.md counts them at point 5."""
import collections
import glob
import itertools
import re

clauses = collections.defaultdict(list)
pairs = collections.defaultdict(list)
for path in sorted(glob.glob("crates/*/src/**/*.rt", recursive=True)):
    text = open(path, encoding="utf-8").read()
    where = path.removeprefix("crates/")
    for head in re.finditer(r"\bfn (\w+)(?:<[^(]*>)?\(([^)]*)\)", text):
        names = re.findall(r"(\w+): *([^,]+)", head.group(2))
        for two in itertools.combinations(sorted(f"{n}: {' '.join(t.split())}" for n, t in names), 2):
            pairs[two].append(f"{where}:{head.group(1)}")
    name = None
    for line in text.split("\n"):
        found = re.search(r"\bfn (\w+)", line)
        if found:
            name = found.group(1)
        clause = re.match(r"\s*(requires|ensures)\s*\w*\s*\{(.*)\}\s*$", line)
        if clause:
            fact = re.sub(r"\s+", " ", clause.group(2).strip())
            fact = re.sub(r"\b(self|card|tag)\.(now|old)(\.card\.now)?", "IT", fact)
            clauses[(clause.group(1), fact)].append(f"{where}:{name}")
for (kind, fact), places in sorted(clauses.items(), key=lambda kv: -len(kv[1])):
    if len(places) >= 3:
        print(f"{len(places)} {kind} {fact}\n    " + " ".join(places))
for two, places in sorted(pairs.items(), key=lambda kv: -len(kv[1])):
    if len(places) >= 3:
        print(f"{len(places)} take {two[0]} and {two[1]}\n    " + " ".join(places))
