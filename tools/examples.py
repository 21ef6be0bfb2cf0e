#!/usr/bin/env python3
"""Writes the circuits of examples/ as ASCII AIGER.

    python3 tools/examples.py            writes every example
    python3 tools/examples.py timing 29  prints the timing circuit of 29 inputs
    python3 tools/examples.py carry 8    prints the carry out of a sum of two numbers of 8 bits

A literal is a number: 2v for variable v, 2v + 1 for its inverse, 0 for false and 1 for true.
"""

import pathlib
import sys


class Circuit:
    """A circuit under construction: inputs first, then gates in order."""

    def __init__(self, inputs):
        self.inputs = inputs
        self.gates = []

    def input(self, k):
        return 2 * k

    def both(self, a, b):
        self.gates.append((max(a, b), min(a, b)))
        return 2 * (self.inputs + len(self.gates))

    def either(self, a, b):
        return self.both(a ^ 1, b ^ 1) ^ 1

    def differ(self, a, b):
        return self.both(self.both(a, b) ^ 1, self.both(a ^ 1, b ^ 1) ^ 1)

    def any(self, literals):
        result = literals[0]
        for literal in literals[1:]:
            result = self.either(result, literal)
        return result

    def text(self, output):
        gates = len(self.gates)
        lines = ["aag %d %d 0 1 %d" % (self.inputs + gates, self.inputs, gates)]
        lines += [str(self.input(k)) for k in range(1, self.inputs + 1)]
        lines.append(str(output))
        for k, (left, right) in enumerate(self.gates, 1):
            lines.append("%d %d %d" % (2 * (self.inputs + k), left, right))
        return "".join(line + "\n" for line in lines)


def first():
    """At least one of two inputs."""
    c = Circuit(2)
    return c.text(c.both(5, 3) ^ 1)


def majority():
    """At least two of three inputs."""
    c = Circuit(3)
    x, y, z = (c.input(k) for k in (1, 2, 3))
    return c.text(c.any([c.both(x, y), c.both(x, z), c.both(y, z)]))


def multiplexer():
    """Input 1 chooses between inputs 2 and 3."""
    c = Circuit(3)
    s, x, y = (c.input(k) for k in (1, 2, 3))
    return c.text(c.either(c.both(s, x), c.both(s ^ 1, y)))


def parity():
    """An odd number of four inputs."""
    c = Circuit(4)
    result = c.input(1)
    for k in (2, 3, 4):
        result = c.differ(result, c.input(k))
    return c.text(result)


def carry(bits):
    """The carry out of a sum: inputs a, highest bit first, then b."""
    c = Circuit(2 * bits)
    out = 0
    for k in range(bits, 0, -1):
        a, b = c.input(k), c.input(bits + k)
        out = c.either(c.both(a, b), c.both(out, c.either(a, b)))
    return c.text(out)


def comparator(bits):
    """a below b: inputs a, highest bit first, then b."""
    c = Circuit(2 * bits)
    below = 0
    for k in range(bits, 0, -1):
        a, b = c.input(k), c.input(bits + k)
        below = c.either(c.both(a ^ 1, b), c.both(below, c.differ(a, b) ^ 1))
    return c.text(below)


def timing(n):
    """Pairs of the first half while the last input is 1, pairs of the second half while it is 0."""
    c = Circuit(n)
    half = (n - 1) // 2
    pairs = [c.both(c.input(k), c.input(k + 1)) for k in range(1, n, 2)]
    select = c.input(n)
    low = c.both(c.any(pairs[: half // 2]), select)
    high = c.both(c.any(pairs[half // 2 :]), select ^ 1)
    return c.text(c.either(low, high))


def written(lines):
    """A circuit written out line by line."""
    return "".join(line + "\n" for line in lines.split("/"))


EXAMPLES = {
    "first": first(),
    "lone": written("aag 5 3 0 1 2/2/4/6/11/8 6 5/10 9 3"),
    "redundant": written("aag 5 2 0 1 3/2/4/11/6 4 2/8 5 2/10 9 7"),
    "input": written("aag 2 2 0 1 0/2/4/2"),
    "never": written("aag 1 1 0 1 0/2/0"),
    "always": written("aag 1 1 0 1 0/2/1"),
    "majority": majority(),
    "multiplexer": multiplexer(),
    "parity": parity(),
    "carry": carry(4),
    "comparator": comparator(4),
    "timing9": timing(9),
    "timing17": timing(17),
}


def main():
    made = {"timing": timing, "carry": carry}
    if sys.argv[1:]:
        sys.stdout.write(made[sys.argv[1]](int(sys.argv[2])))
        return
    folder = pathlib.Path(__file__).resolve().parent.parent / "examples"
    for name, text in EXAMPLES.items():
        (folder / (name + ".aag")).write_text(text)


if __name__ == "__main__":
    main()
