#!/usr/bin/env python3
"""RS(528,514) in Python, written from the rules alone, to make tables and test vectors.

    reed_solomon.py rows      crates/reed_solomon/src/rows.rt (run `rt fmt` after)
    reed_solomon.py words     crates/conformance/src/reed_solomon_words.rt: code words of random messages, and verdicts on spoiled ones
"""

import sys

T = 7
ROOTS = 2 * T
MESSAGE = 514


def mul(a, b):
    """Polynomials over bits, modulo x^10 + x^3 + 1."""
    product = 0
    for bit in range(10):
        if a >> bit & 1:
            product ^= b << bit
    for bit in range(18, 9, -1):
        if product >> bit & 1:
            product ^= 0x409 << (bit - 10)
    return product


def alpha(j):
    power = 1
    for _ in range(j):
        power = mul(power, 2)
    return power


def generator():
    """The product of x - alpha^j for j = 0 to 13, the constant term first."""
    g = [1]
    for j in range(ROOTS):
        root = alpha(j)
        shifted = [0] + g
        scaled = [mul(root, c) for c in g] + [0]
        g = [x ^ y for x, y in zip(shifted, scaled)]
    return g


def parity(message):
    """What is left of message * x^14 divided by the generator, by long division, the highest coefficient first."""
    g = generator()[::-1]
    rest = list(message) + [0] * ROOTS
    for place in range(len(message)):
        factor = rest[place]
        for k, c in enumerate(g):
            rest[place + k] ^= mul(factor, c)
    return rest[len(message):]


def value(line, x):
    """Symbol s is the coefficient of x^(n - 1 - s)."""
    total = 0
    for symbol in line:
        total = mul(total, x) ^ symbol
    return total


def rust(comment, name, kind, entries):
    def show(e):
        return "[" + ", ".join(map(show, e)) + "]" if isinstance(e, list) else str(e)

    return f"// {comment}\npub const {name}: {kind} = {show(entries)};\n"


def rows():
    below = generator()[-2::-1]
    print("// The multiples of the generator's coefficients below the first, as tools/reed_solomon.py prints them.\n")
    for name, unit in (("LOW", 1), ("HIGH", 32)):
        table = [[mul(unit * i, c) for c in below] for i in range(32)]
        print(rust(f"Row i is {'i' if unit == 1 else '32 i'} times the coefficients, the highest first.", name, "[[u16; 14]; 32]", table))


def words():
    print("// Parities of random messages and verdicts on spoiled lines, as tools/reed_solomon.py prints them.\n")
    table = []
    for seed in range(1, 13):
        message = made(seed)
        line = message + parity(message)
        assert all(value(line, alpha(j)) == 0 for j in range(ROOTS))
        table.append(line[MESSAGE:])
    print(rust("The parity of the message of each seed, from 1 on.", "PARITIES", "[[u16; 14]; 12]", table))
    verdicts = []
    for seed in range(1, 13):
        message = made(seed)
        line = message + parity(message)
        verdicts.append([verdict(spoiled(line, seed, errors)) for errors in (1, 4, 7, 8, 9, 12)])
    print(rust("Of each seed's line with 1, 4, 7, 8, 9 and 12 errors: how many symbols are wrong, or that no code word is near enough.", "VERDICTS", "[[Option<usize>; 6]; 12]", verdicts))


def turn(state):
    return (state * 1664525 + 1013904223) % 2**32


def made(seed):
    """A message by a linear congruence modulo 2^32, the top ten bits of each state, as the test makes it."""
    state = seed
    message = []
    for _ in range(MESSAGE):
        state = turn(state)
        message.append(state >> 22)
    return message


def spoiled(line, seed, errors):
    """The line with so many errors added at places of the same congruence; a place may come twice."""
    line, state = list(line), seed
    for _ in range(errors):
        state = turn(state)
        place = (state >> 16) % len(line)
        state = turn(state)
        line[place] ^= state >> 22
    return line


def inverse(a):
    power = 1
    for _ in range(1022):
        power = mul(power, a)
    return power


def mend(line):
    """The nearest code word within 7, by Berlekamp and Massey, Chien and Forney, and what they found tried; or None."""
    n = len(line)
    syndromes = [value(line, alpha(j)) for j in range(ROOTS)]
    if not any(syndromes):
        return list(line)
    locator, last, length, gap, before = [1], [1], 0, 1, 1
    for r in range(ROOTS):
        delta = syndromes[r]
        for i in range(1, length + 1):
            if i < len(locator):
                delta ^= mul(locator[i], syndromes[r - i])
        if delta == 0:
            gap += 1
            continue
        factor = mul(delta, inverse(before))
        change = [0] * gap + [mul(factor, c) for c in last]
        width = max(len(locator), len(change))
        new = [(locator[i] if i < len(locator) else 0) ^ (change[i] if i < len(change) else 0) for i in range(width)]
        if 2 * length <= r:
            last, before, length, gap = locator, delta, r + 1 - length, 1
        else:
            gap += 1
        locator = new
    if length > T:
        return None
    evaluator = [0] * ROOTS
    for i, c in enumerate(locator):
        for j in range(ROOTS - i):
            evaluator[i + j] ^= mul(c, syndromes[j])
    result = list(line)
    at = lambda p, x: value(p[::-1], x)
    for s in range(n):
        x = alpha((1023 - (n - 1 - s)) % 1023)
        if at(locator, x) == 0:
            slope = at([locator[i] if i % 2 else 0 for i in range(len(locator))][1:], x)
            if slope == 0:
                return None
            result[s] ^= mul(alpha(n - 1 - s), mul(at(evaluator, x), inverse(slope)))
    if any(value(result, alpha(j)) for j in range(ROOTS)):
        return None
    return result if sum(a != b for a, b in zip(result, line)) <= T else None


def verdict(line):
    """How many symbols are wrong, or that no code word is near enough, as Rattle's Option."""
    word = mend(line)
    return "None" if word is None else f"Some({sum(a != b for a, b in zip(word, line))})"


if __name__ == "__main__":
    assert generator() == [432, 290, 945, 265, 592, 391, 614, 900, 925, 656, 32, 701, 6, 904, 1]
    {"rows": rows, "words": words}[sys.argv[1]]()
