#!/usr/bin/env python3
"""Gives the repository's own definitions, fields and lemmas the spelling of the kit: words in snake case.

    python3 tools/port_names.py          rewrites crates/ (once, after port.py, where docs/PORT.md does not stand yet)
    python3 tools/port_names.py --list   prints each renaming, and what falls together

Types, modules, variants and names that the library or the checker gave keep theirs.
"""

import pathlib
import re
import sys

ROOT = pathlib.Path(__file__).resolve().parent.parent
WORD = r"[a-z][A-Za-z0-9_']*(?:-[A-Za-z0-9_'=<>≤]+)*"
TOKEN = re.compile(r"(?<![A-Za-z0-9_'\-«])" + WORD + r"(?![A-Za-z0-9_'»])")
MARKS = r"(?:pub |abbrev |unfoldable |let |private )*"
DECLARED = re.compile(r"^\s*" + MARKS + r"(?<![A-Za-z])(" + WORD + r")\s*(?::|=|\()", re.M)
SIGNED = re.compile(r"^\s*" + MARKS + r"((?:" + WORD + r"\s+)*" + WORD + r")\s*:", re.M)
BINDERS = re.compile(r"[({]((?:" + WORD + r"\s+)*" + WORD + r")\s*:")
LAMBDA = re.compile(r"λ ([^.]*)\.")
GOAL = re.compile(r"(" + WORD + r")\s*:\s*(?:goal|need)\.")
IMPORT = re.compile(r"^\s*(?:pub )?(?:ghost )?use ([A-Za-z_.·]+)\.\{([^}]*)\}", re.M)


def files():
    for path in sorted((ROOT / "crates").rglob("*")):
        if path.suffix in (".rt", ".antt", ".edit") and "out" not in path.parts:
            yield path


def plain(path):
    text = path.read_text(encoding="utf-8")
    return re.sub(r"(?m)(--(?=[ -]|$)|//).*", "", text)


def odd(name):
    return "-" in name or re.search(r"[a-z0-9][A-Z]", name) is not None


def snake(name):
    name = re.sub(r"([a-z0-9])([A-Z])", lambda m: m.group(1) + "_" + m.group(2).lower(), name)
    return name.replace("-", "_")


def names():
    """The renamings: declared here, and neither a goal of the checker nor brought in from outside."""
    declared, outside, goals, tokens = set(), set(), set(), set()
    for path in files():
        text = plain(path)
        tokens.update(TOKEN.findall(text))
        for home, listed in IMPORT.findall(text):
            if not re.match(r"Rattle\.(?!std|core)", home):
                outside.update(x.split(" as ")[0].strip() for x in listed.replace("\n", " ").split(","))
        if path.suffix != ".antt":
            continue
        declared.update(DECLARED.findall(text))
        for group in SIGNED.findall(text) + BINDERS.findall(text) + LAMBDA.findall(text):
            declared.update(TOKEN.findall(group))
        goals.update(GOAL.findall(text))
    own = {n for n in declared if odd(n)} - outside - goals
    mapping = {n: snake(n) for n in own}
    mapping.update(LEMMAS)
    return mapping, tokens


def renamed(text, mapping):
    def one(m):
        before = text[:m.start()]
        name = m.group(0)
        if name not in mapping:
            return name
        # a member of a record of the checker, as `c.find-lead`, keeps its name
        if before.endswith(".") and "-" in name and name not in FIELDS:
            return name
        return mapping[name]

    return TOKEN.sub(one, text)


FIELDS = set()

# lemmas that would have their function's name
LEMMAS = {
    "decided-text": "decided_text_lem",
    "expect-at": "expect_at_lem",
    "equal-lists": "equal_lists_lem",
    "go_on": "go_on_lem",
    "header_read": "header_read_lem",
    "smallest-by": "smallest_by_lem",
    "within-limits": "within_limits_lem",
}


def fields():
    """The fields of the repository's own records, and the constructors of its own data."""
    for path in files():
        if path.suffix == ".antt":
            for block in re.findall(r"(?ms)^\s*(?:pub )?(?:record|data) .*? where\n((?:[ ]+.*\n|\n)*)", plain(path)):
                FIELDS.update(DECLARED.findall(block))


def main():
    if (ROOT / "docs/PORT.md").exists():
        sys.exit("port_names: docs/PORT.md stands, so the names have their spelling")
    mapping, tokens = names()
    fields()
    clashes = {n: s for n, s in mapping.items() if s in tokens}
    by_target = {}
    for n, s in mapping.items():
        by_target.setdefault(s, []).append(n)
    if "--list" in sys.argv:
        for n in sorted(mapping):
            print(n, mapping[n], "CLASH" if n in clashes else "")
        for s, ns in by_target.items():
            if len(ns) > 1:
                print("together:", s, ns)
        return
    for path in files():
        text = path.read_text(encoding="utf-8")
        out = renamed(text, mapping).replace("Other-than", "OtherThan")
        out = re.sub(r"\.(inputs|rows|circuit)-kept\b", r".\1_kept", out)
        if out != text:
            path.write_text(out, encoding="utf-8")


if __name__ == "__main__":
    main()
