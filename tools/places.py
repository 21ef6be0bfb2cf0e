#!/usr/bin/env python3
"""Counts, in the sources of a checkout, the places that docs/DESIGN-PASS.md speaks of.

    python3 tools/places.py [FOLDER] [POINT]

prints for each point how many lines each pattern finds; with a point's number it lists them.
"""
import collections
import pathlib
import re
import sys

PATTERNS = {
    "1": {
        "own enums": r"^(pub )?enum \w+",
        "results and options taken apart by hand": r"Ok\((\w+)\) => Ok\(\1\)|Err\(\w+\) => (return )?Err\(|Some\(_\) => (true|false)|if let Some\(_\)",
        "numbers for kinds": r"mode: u32|fn \w+_code\(|fn number(ed)?\(",
    },
    "3": {
        "while and loop": r"^\s*(while|loop)\b",
        "counted by hand": r"\b\w+ \+= 1;|\b(count|sum|value|line|total|next|from|end|left) (\+|&)?= ",
        "for over a range": r"for \w+ in [^{]*\.\.",
        "for with a return of true, false or Some": r"^\s*return (true|false|Some\(\w+\));",
    },
    "4": {
        "conversion and printing": r"fn (name|number(ed)?|report|character|\w+_code|is_same|is_digit|show|row_text|bit_text|words)\(",
    },
    "6": {
        "arrays of a fixed length": r"(: |= )\[[^\[\]]*; ?[A-Z0-9_]\w*\]",
        "parts of a slice from place to place": r"\[\w+\.\.\w+\]",
    },
    "7": {
        "which step to run": r"fn (what|given)\(|match self \{",
    },
}


def sources(root):
    for path in sorted(root.glob("crates/*/src/**/*.rt")):
        yield path.relative_to(root), path.read_text().split("\n")


def by_pattern(root, point):
    for name, pattern in PATTERNS[point].items():
        found = []
        for path, lines in sources(root):
            for number, line in enumerate(lines, 1):
                if not line.lstrip().startswith("//") and re.search(pattern, line):
                    found.append(f"{path}:{number}: {line.strip()}")
        yield name, found


def twins(root):
    """Names of functions, types and constants that several files declare."""
    for kind, pattern in {
        "functions": r"^\s*(?:pub(?:\(crate\))? )?fn (\w+)",
        "types": r"^(?:pub )?(?:struct|enum|trait) (\w+)",
        "constants": r"^(?:pub )?(?:const|static) (\w+)",
    }.items():
        places = collections.defaultdict(set)
        for path, lines in sources(root):
            for line in lines:
                match = re.match(pattern, line)
                if match:
                    places[match.group(1)].add(str(path))
        yield kind, [f"{name}: {', '.join(sorted(where))}" for name, where in sorted(places.items()) if len(where) > 1]


def signatures(root):
    """Each function's name with its file, and the text of its signature and clauses."""
    for path, lines in sources(root):
        for number, line in enumerate(lines):
            match = re.match(r"\s*(?:pub(?:\(crate\))? )?fn (\w+)", line)
            if match:
                head = [line]
                while not re.search(r"[{;]$|\{\}$", head[-1].strip()) or " { " in head[-1]:
                    number += 1
                    if number == len(lines):
                        break
                    head.append(lines[number])
                yield f"{path} {match.group(1)}", "\n".join(head)


def repeated(root):
    """Facts that three contracts or more require, and pairs of parameters that three functions or more take side by side."""
    facts, pairs = collections.defaultdict(set), collections.defaultdict(set)
    for here, head in signatures(root):
        parameters = head.split(")")[0] if "requires" not in head.split(")")[0] else head.split("requires")[0]
        names = re.findall(r"(\w+): ", parameters)
        for left, right in zip(names, names[1:]):
            pairs[f"{left}, {right}"].add(here)
        for clause in re.findall(r"requires(?: \w+)? \{ (.*) \}", head):
            for fact in clause.split(" × "):
                facts[fact.strip("() ")].add(here)
        for clause in re.findall(r"ensures (\w+_kept) \{", head):
            facts[clause].add(here)
    for kind, table in {"facts in three contracts or more": facts, "parameters side by side in three or more": pairs}.items():
        yield kind, [f"{name}: {', '.join(sorted(where))}" for name, where in sorted(table.items()) if len(where) > 2]


def proofs(root):
    for kind, glob in {"lines of proofs": "crates/*/proofs/**/*.antt", "lines of answers": "crates/*/proofs/**/Answers.antt"}.items():
        found = []
        for path in sorted(root.glob(glob)):
            found += [f"{path.relative_to(root)}"] * len(path.read_text().splitlines())
        yield kind, found


def count(root, point):
    if point == "2":
        return twins(root)
    if point == "5":
        return repeated(root)
    if point == "8":
        return proofs(root)
    return by_pattern(root, point)


def main():
    root = pathlib.Path(sys.argv[1] if len(sys.argv) > 1 else ".")
    only = sys.argv[2] if len(sys.argv) > 2 else None
    for point in "12345678":
        if only and point != only:
            continue
        for name, found in count(root, point):
            print(f"{point}  {name}: {len(found)}")
            if only and point != "8":
                print("\n".join("     " + place for place in found))


main()
