#!/usr/bin/env python3
"""Brings the definitions and lemmas of this repository to snake case: dashes in their names become underscores.

    python3 tools/snake_names.py            at the top of the repository, once
    python3 tools/snake_names.py --look     says what it would do, and which names would fall together

A name is turned where an .antt file of the repository declares it. Names that the check makes (goals, steps, facts of a
loop) keep their dashes, and so do functions, strings and comments of src/.
"""

import collections
import os
import re
import sys

DECLARED = re.compile(r"^\s*(?:(?:abbrev|unfoldable|pub|ruleset)\s+)*(?:(?:record|data)\s+)?([^\s:(){}\".,;]+)\s*(?::\s|:$|\(|\{|$)")
RULESET = re.compile(r"^\s*(?:pub\s+)?ruleset\s+([^\s:(){}\".,;]+)")
TOKEN = re.compile(r"[^\s(){}.,;\"\[\]]+(?:\[\])?")
MADE = re.compile(
    r"^(loop|if|in_ok|in_err|returns|overflow|invariant|decreases|then|else|index|bound|slice|requires|ensures|type|divides|shift|cast|unwrap)[-_]|-(requires|ensures|result|init|preserved|smaller|index)$"
)
# Names that a definition or a clause binds or brings in under another name.
BOUND = ["f-after", "w-after", "record-place", "number-place", "record-read", "line-call", "line-event", "read-call", "read-event", "other_After"]
# Names that would fall together with a function, a field or a library's word.
OTHERWISE = {
    "times-linear": "linear_product",
    "write-number": "write_cause_number",
    "next-poly": "stepped_poly",
    "note-refusal": "refusal_of_note",
    "wipe-refusal": "refusal_of_wipe",
    "line-refusal": "refusal_of_line",
    "task-of": "task_for",
    "other_After": "other_after",
}


def files(ends):
    for folder, dirs, names in os.walk("crates"):
        dirs[:] = sorted(d for d in dirs if d != "out")
        for name in sorted(names):
            if name.endswith(ends):
                yield os.path.join(folder, name)


def text(path):
    with open(path, encoding="utf-8") as f:
        return f.read()


def declared():
    """The dashed names that the repository declares, each with the files that declare it."""
    found = collections.defaultdict(set)
    for path in files(".antt"):
        answers = os.path.basename(path) in ("Answers.antt", "Invariants.antt", "Proof.antt", "Choices.antt")
        for line in text(path).splitlines():
            if line.lstrip().startswith(("--", "use ", "mod ", "pub mod ")):
                continue
            m = RULESET.match(line) or DECLARED.match(line)
            if not m:
                continue
            name = m.group(1)
            if "-" not in name.strip("-") or "◌" in name:
                continue
            if answers and (": goal." in line or MADE.search(name)):
                continue
            found[name].add(path)
    return found


def lent():
    """The names that come from the library: a name that is the library's too stays."""
    own = "|".join(sorted(os.listdir("crates")))
    found = set()
    for path in files((".rt", ".antt")):
        for m in re.finditer(r"use (?!Rattle\.(?:%s)\.)[^{;\n]*\{([^}]*)\}" % own, text(path)):
            found |= {word.strip() for word in m.group(1).split(",")}
    return found


def turned(name):
    new = OTHERWISE.get(name)
    if new:
        return new
    return re.sub(r"(?<![A-Za-z])getD(?![A-Za-z])", "get_or", name).replace("-", "_")


def parts(line, rust):
    """Cuts a line into text that may be turned and text that stays: strings and comments stay."""
    mark = "//" if rust else "--"
    out, rest = [], line
    while rest:
        quote = rest.find('"')
        comment = -1
        for m in re.finditer(r"(?:^|(?<=\s))" + re.escape(mark) + r"(?=\s|$)", rest):
            comment = m.start()
            break
        if comment >= 0 and (quote < 0 or comment < quote):
            out += [(True, rest[:comment]), (False, rest[comment:])]
            return out
        if quote < 0:
            out.append((True, rest))
            return out
        end = rest.find('"', quote + 1)
        if end < 0:
            out += [(True, rest[:quote]), (False, rest[quote:])]
            return out
        out += [(True, rest[:quote]), (False, rest[quote : end + 1])]
        rest = rest[end + 1 :]
    return out


def turn(line, names, rust):
    def one(m):
        word = m.group(0)
        if word not in names:
            return word
        before = m.string[: m.start()]
        if re.search(r"(?<![\w'])(?:c|l|goal|w|given)\.$", before) or re.search(r"(?<![\w'])(?:c|l)\.[\w'-]+\.(?:old|new|initial|fn)\.$", before):
            return word
        return turned(word)

    return "".join(TOKEN.sub(one, piece) if may else piece for may, piece in parts(line, rust))


def main():
    library = lent()
    names = {name: where for name, where in declared().items() if name not in library}
    names.update((name, set()) for name in BOUND)
    look = "--look" in sys.argv
    known = collections.defaultdict(set)
    for path in files(".antt"):
        for line in text(path).splitlines():
            m = DECLARED.match(line)
            if m and "-" not in m.group(1) and not line.lstrip().startswith("--"):
                known[m.group(1)].add(path)
            m = re.match(r"\s*(?:pub )?use ([^{]*)\{([^}]*)\}", line)
            if m:
                for word in m.group(2).split(","):
                    known[word.strip()].add(path)
    back = collections.defaultdict(set)
    for name in names:
        back[turned(name)].add(name)
    for new, olds in sorted(back.items()):
        if len(olds) > 1:
            print("together:", new, sorted(olds))
        if new in known:
            print("known:", new, "from", sorted(olds), "also in", sorted(known[new])[:3])
    for path in files(".rt"):
        code = text(path)
        brought = set()
        for m in re.finditer(r"ghost use [^{;]*\{([^}]*)\}", code):
            brought |= {w.strip() for w in m.group(1).split(",")}
        plain = re.sub(r"ghost use [^;]*;", "", code)
        for word in sorted(brought):
            if word in names and re.search(r"(?<![\w'-])" + re.escape(turned(word)) + r"(?![\w'-])", plain):
                print("in code:", word, "->", turned(word), path)
    print(len(names), "names")
    if look:
        return
    for path in files((".rt", ".antt")):
        old = text(path)
        new = "\n".join(turn(line, names, path.endswith(".rt")) for line in old.split("\n"))
        if new != old:
            with open(path, "w", encoding="utf-8") as f:
                f.write(new)


main()
