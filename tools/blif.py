#!/usr/bin/env python3
"""Turns a circuit in ASCII AIGER on standard input into BLIF on standard output, for tools that read no ASCII AIGER.

    python3 tools/blif.py < examples/carry.aag > /tmp/carry.blif
"""

import sys


def operand(literal):
    """The name of a literal's variable and the bit at which the literal is 1."""
    return "v%d" % (literal // 2), "01"[literal % 2 == 0]


def blif(text):
    lines = text.splitlines()
    _, inputs, _, _, gates = map(int, lines[0].split()[1:])
    output = int(lines[1 + inputs])
    yield ".model circuit"
    yield ".inputs " + " ".join("v%d" % k for k in range(1, inputs + 1))
    yield ".outputs out"
    yield ".names v0"
    for line in lines[2 + inputs : 2 + inputs + gates]:
        own, left, right = map(int, line.split())
        (a, p), (b, q) = operand(left), operand(right)
        if a == b:
            yield ".names %s v%d" % (a, own // 2)
            if p == q:
                yield "%s 1" % p
        else:
            yield ".names %s %s v%d" % (a, b, own // 2)
            yield "%s%s 1" % (p, q)
    name, bit = operand(output)
    yield ".names %s out" % name
    yield "%s 1" % bit
    yield ".end"


if __name__ == "__main__":
    if sys.argv[1:]:
        sys.exit(__doc__)
    print("\n".join(blif(sys.stdin.read())))
