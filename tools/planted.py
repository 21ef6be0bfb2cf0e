#!/usr/bin/env python3
"""Prints, as Markdown, the bugs that are planted in each crate and the fact that refuses each.

    bash .ci/run > /tmp/gate.txt; python3 tools/planted.py /tmp/gate.txt

A bug is a file of crates/*/must-fail/; the fact is the first one that the gate's output names for it.
"""

import pathlib
import re
import sys

ROOT = pathlib.Path(__file__).resolve().parent.parent
REFUSED = re.compile(r"rt: must-fail (\S+)/(\S+)\.edit: refused, as it must be: (?:note: )?(.*)")
PLACE = re.compile(r"(?:\./)?(\S+?):\d+:\d+: (?:error: )?(.*)")
NAMED = re.compile(r"`([a-zA-Z][\w+<>=-]*)`")


def facts(log):
    """The place and the name of the fact that refuses each edit."""
    found = {}
    for line in log.splitlines():
        refused = REFUSED.match(line)
        if not refused:
            continue
        crate, name, said = refused.groups()
        place = PLACE.match(said)
        path, rest = place.groups() if place else ("", said)
        # Of `a loop's fact (`loop-k`)` the part in brackets is its name; a proof file names it first.
        bracket = re.search(r"\(`([^`]+)`\)", rest)
        named = bracket or NAMED.search(rest)
        found[crate, name] = path, named.group(1) if named else rest
    return found


def edits(text):
    """The file, the old text and the new text of each edit."""
    parts = re.split(r"^(file|old|new): ?", text, flags=re.M)[1:]
    file = old = ""
    for kind, said in zip(parts[::2], parts[1::2]):
        said = said.rstrip("\n")
        if kind == "file":
            file = said
        elif kind == "old":
            old = said
        else:
            yield file, old, said


def cell(text):
    """Code in a cell of a table."""
    line = " ".join(text.split())
    return "`` %s ``" % line.replace("|", "\\|") if line else "nothing"


def main():
    found = facts(pathlib.Path(sys.argv[1]).read_text())
    crates = [line.split(":")[0].split()[0] for line in (ROOT / "crates.txt").read_text().splitlines() if line and line[0] != "#"]
    for crate in crates:
        paths = sorted((ROOT / "crates" / crate / "must-fail").glob("*.edit"))
        if not paths:
            continue
        print("### %s\n\n| Bug | In place of | Stands | Refused by |\n|---|---|---|---|" % crate)
        for path in paths:
            where, fact = found.get((crate, path.stem), ("", "not tried in this output"))
            for file, old, new in edits(path.read_text()):
                print("| %s, `%s` | %s | %s | `%s` in `%s` |" % (path.stem.replace("_", " "), file, cell(old), cell(new), fact, where))
        print()


if __name__ == "__main__":
    main()
