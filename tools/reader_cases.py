#!/usr/bin/env python3
"""Writes the cases of crates/aiger_cases: files on stdin, and the answers to them on stdout.

The answers come from the reader below, which goes by the rules of the format and not by the library: each line is a list of
items, and an item is matched by a regular expression. Run it from the repository's root; it always writes the same bytes.
"""
import random
import re

MAX_BYTES, MAX_INPUTS, MAX_GATES, MAX_NAME, MAX_DIGITS = 65536, 30, 4096, 64, 5


class Refused(Exception):
    def __init__(self, number, layer, place, line):
        super().__init__(f"refused {number} {layer} {place} {line} reading")


def misfit(data, place):
    return Refused(2, "text", place, 1 + data.count(b"\n", 0, place))


def broken(number, line):
    return Refused(number, "circuit", line, line)


def byte(data, at, due):
    """The place after a byte that is due."""
    if data[at:at + 1] != due:
        raise misfit(data, at)
    return at + 1


def number(data, at):
    """A number and the place after it."""
    run = re.compile(rb"[0-9]*").match(data, at).group()
    if not run:
        raise misfit(data, at)
    if len(run) > MAX_DIGITS or (run[0] == 48 and len(run) > 1):
        raise Refused(3, "text", at, 1 + data.count(b"\n", 0, at))
    return int(run), at + len(run)


def numbers(data, at, count):
    """A line of numbers parted by blanks."""
    values = []
    for k in range(count):
        value, at = number(data, at)
        values.append(value)
        at = byte(data, at, b"\n" if k == count - 1 else b" ")
    return values, at


def name(data, at):
    """The place after a name and the newline that ends it."""
    run = re.compile(rb"[ -~]*").match(data, at).group()
    if not run:
        raise misfit(data, at)
    return byte(data, at + min(len(run), MAX_NAME), b"\n")


def read(data, words):
    """The numbers of the circuit and its gate table of so many words."""
    if len(data) > MAX_BYTES:
        raise Refused(1, "text", MAX_BYTES, 0)
    at = 0
    for due in b"aag ":
        at = byte(data, at, bytes([due]))
    (highest, inputs, latches, outputs, gates), at = numbers(data, at, 5)
    rules = [(4, 1 <= inputs <= MAX_INPUTS), (5, latches == 0), (6, outputs == 1), (7, gates <= MAX_GATES),
             (8, highest == inputs + latches + gates), (9, words >= 2 * gates)]
    for row, kept in rules:
        if not kept:
            raise broken(row, 1)
    line = 2
    for k in range(1, inputs + 1):
        (literal,), at = numbers(data, at, 1)
        if literal != 2 * k:
            raise broken(10, line)
        line += 1
    (output,), at = numbers(data, at, 1)
    if output > 2 * highest + 1:
        raise broken(11, line)
    line += 1
    table = []
    for k in range(1, gates + 1):
        (own, left, right), at = numbers(data, at, 3)
        if own != 2 * (inputs + k):
            raise broken(12, line)
        if left >= own or right >= own:
            raise broken(13, line)
        table += [max(left, right), min(left, right)]
        line += 1
    seen = set()
    while at < len(data):
        letter = data[at:at + 1]
        if letter == b"c":
            byte(data, at + 1, b"\n")
            break
        if letter not in (b"i", b"o"):
            raise misfit(data, at)
        position, at = number(data, at + 1)
        at = name(data, byte(data, at, b" "))
        if position >= (inputs if letter == b"i" else 1) or (letter, position) in seen:
            raise broken(14, line)
        seen.add((letter, position))
        line += 1
    return (inputs, gates, output), table + [0] * (words - len(table))


def answer(data, words):
    """What the program prints: the numbers and the table, in full or as a sum where it is long."""
    try:
        (inputs, gates, output), table = read(data, words)
        told = f"circuit {inputs} {gates} {output}"
    except Refused as refused:
        table = [0] * words
        told = str(refused)
    if words <= 12:
        return told + " |" + "".join(f" {word}" for word in table)
    total = 0
    for word in table:
        total = (total * 31 + word) % 1000000007
    return f"{told} | sum {total}"


def lines(*texts):
    return "".join(text + "\n" for text in texts).encode("latin-1")


def circuit(inputs, gates, output, symbols=()):
    """A file of a circuit from the operands of its gates."""
    return lines(f"aag {inputs + len(gates)} {inputs} 0 1 {len(gates)}", *(str(2 * k) for k in range(1, inputs + 1)), str(output),
                 *(f"{2 * (inputs + 1 + k)} {left} {right}" for k, (left, right) in enumerate(gates)), *symbols)


def chosen():
    """Cases chosen one by one: a file and the words of its table."""
    one = circuit(2, [(5, 3)], 7)
    head = lines("aag 3 2 0 1 1", "2", "4", "7")
    plain = lines("aag 1 1 0 1 0", "2", "2")
    # worked circuits
    for file in [one, circuit(3, [(6, 5), (9, 3)], 11), circuit(2, [(4, 2), (5, 2), (9, 7)], 11), circuit(2, [], 2), circuit(1, [], 0), circuit(1, [], 1),
                 circuit(30, [], 1), circuit(2, [(4, 2)], 7)]:
        yield file, 6
    # the file: empty, just inside and just outside the limit, and a limit that stands before every other fault
    yield b"", 2
    for size in [65536, 65537]:
        yield one + b"c\n" + b"x" * (size - len(one) - 2), 2
    yield b"\0" * 65537, 2
    # the header: words, blanks, numbers, and the first of several faults
    for text in ["aag 01 1 0 1 0", "aag 5 2 0 1 1", "a", "aa", "aag", "aag ", "aig 1 1 0 1 0", "aagg 1 1 0 1 0", "bag 1 1 0 1 0", "AAG 1 1 0 1 0", "aag\t1 1 0 1 0",
                 "aag  1 1 0 1 0", "aag 1 1 0 1", "aag 1 1 0 1 0 ", "aag 1 1 0 1 0 0", "aag 00 1 0 1 0", "aag 1x1 0 1 0", "aag -1 1 0 1 0", "aag 1 1 0 1 0\r",
                 "aag 99999 1 0 1 0", "aag 100000 1 0 1 0", "aag 123456", "aag 0123", "aag 0 0 0 1 0", "aag 30 30 0 1 0", "aag 31 31 0 1 0", "aag 99999 99999 1 0 99999",
                 "aag 2 1 1 1 0", "aag 1 1 0 0 0", "aag 1 1 0 2 0", "aag 4097 1 0 1 4096", "aag 4098 1 0 1 4097", "aag 9 1 0 1 4097", "aag 2 1 0 1 0", "aag 0 1 0 1 0",
                 "aag 3 1 0 1 2", "aag 4 1 0 1 3"]:
        yield text.encode(), 4
        yield lines(text, "2", "2"), 4
    # input lines
    for body in [("3", "4", "7"), ("2", "2", "7"), ("2", "5", "7"), ("02", "4", "7"), ("2 ", "4", "7"), ("", "4", "7"), ("2", "4")]:
        yield lines("aag 3 2 0 1 1", *body, "6 5 3"), 2
    # output line
    for output in ["0", "1", "7", "8", "99999", "100000", "-", "6 1", "07"]:
        yield lines("aag 3 2 0 1 1", "2", "4", output, "6 5 3"), 2
    # gate lines
    for gate in ["6 5 3", "6 3 5", "6 5 5", "6 0 1", "8 4 2", "6 6 2", "6 2 6", "6 5 6", "6 7 7", "4 6 6", "6 5", "6 5 3 ", "6 5 3 1", "6  5 3", " 6 5 3", "6 5 03", "6 5 123456", "6", ""]:
        yield head + lines(gate), 2
        yield head + lines(gate, "i2 x"), 3
    yield head + b"6 5 3", 2
    yield head, 2
    yield one, 0
    yield one, 1
    yield one, 2
    yield one, 9
    # symbol lines and the comment
    for tail in ["i0 x", "i1 x", "i2 x", "o0 x", "o1 x", "i00 x", "i99999 x", "i100000 x", "i0  ", "i0 ", "i0", "i0x", "i x", "i", "i 0 x", "l0 x", "b0 x", "I0 x", "0", " ", "",
                 "i0 a b", "i0 " + "n" * 64, "i0 " + "n" * 65, "i2 " + "n" * 65, "i0 " + " " * 64, "i0 ~!A9 z", "i0 \x7f", "i0 a\x80", "i0 a\tb", "i0 a\0", "c", "c ", "cc", "c\n\0\xff", "c\ni9 x"]:
        yield one + tail.encode("latin-1"), 2
        yield one + lines(tail), 2
        yield plain + lines("i0 y", tail), 2
    for tail in [("i0 x", "i0 x"), ("i0 x", "i1 x", "o0 x"), ("o0 x", "i0 x", "i1 x", "c", "free"), ("o0 x", "o0 y"), ("i1 x", "i0 y", "i1 z"), ("i0 x", "", "o0 x"), ("c", "i0 x", "i0 x")]:
        yield one + lines(*tail), 2
    # the largest circuits
    many = [(2 * k + 1, 2 * k) for k in range(1, 4097)]
    yield circuit(1, many, 8195), 8192
    yield lines("aag 4097 1 0 1 4096", "2", "8195"), 8191
    yield circuit(30, many[:-1] + [(1, 8250)], 8252, ["i29 last", "o0 out"]), 8192
    yield lines("aag 4126 30 0 1 4096", *(str(2 * k) for k in range(1, 31)), "8254"), 8192
    yield circuit(30, [], 61, [f"i{k} {k}" for k in range(30)]), 2
    yield circuit(30, [], 61, ["i30 x"]), 2


def drawn(count):
    """Files drawn at random, most of them spoilt at one or two places."""
    rng = random.Random(2601)
    for k in range(count):
        inputs = rng.randint(1, 8)
        gates = [(rng.randrange(2 * (inputs + 1 + g)), rng.randrange(2 * (inputs + 1 + g))) for g in range(rng.randint(0, 5))]
        symbols = [f"i{p} {''.join(rng.choices('abc 019~!', k=rng.randint(1, 6)))}" for p in rng.sample(range(inputs), rng.randint(0, min(3, inputs)))]
        if rng.random() < 0.5:
            symbols.append("o0 out")
        if rng.random() < 0.3:
            symbols += ["c", "made at random"]
        file = bytearray(circuit(inputs, gates, rng.randint(0, 2 * (inputs + len(gates)) + 2), symbols))
        for _ in range(k % 3):
            at = rng.randrange(len(file))
            turn = rng.randrange(4)
            if turn == 0:
                file[at] = rng.choice(b" \n0123456789aciogx\0\xff~")
            elif turn == 1:
                del file[at]
            elif turn == 2:
                file.insert(at, rng.choice(b" \n0123456789aciogx\0\xff~"))
            else:
                del file[at:]
                break
        yield bytes(file), rng.choice([2 * len(gates), 2 * len(gates) + 2, 12])


def main():
    stdin, stdout = bytearray(), bytearray()
    for case, (file, words) in enumerate(list(chosen()) + list(drawn(240)), 1):
        stdin += f"{case} {len(file)} {words}\n".encode() + file
        stdout += f"{case} {answer(file, words)}\n".encode()
    with open("crates/aiger_cases/stdin", "wb") as file:
        file.write(stdin)
    with open("crates/aiger_cases/stdout", "wb") as file:
        file.write(stdout)


if __name__ == "__main__":
    main()
