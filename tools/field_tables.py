#!/usr/bin/env python3
"""Prints the tables of the field: `field_tables.py code` is crates/field/src/tables.rt,
`field_tables.py lists` is crates/field/proofs/Lists.antt (run `rt fmt` after either)."""

import sys

powers = [1]
while len(powers) < 1023:
    twice = powers[-1] * 2
    powers.append(twice ^ 0x409 if twice >= 1024 else twice)
assert len(set(powers)) == 1023

# 0 is no power of x, so its entry is never read for its value
logs = [0] * 1024
for exponent, power in enumerate(powers):
    logs[power] = exponent


def code(comment, name, entries):
    lines = "".join(f"    {e},\n" for e in entries)
    return f"\n// {comment}\npub const {name}: [u16; {len(entries)}] = [\n{lines}];"


def listed(name, entries):
    return f"\nabbrev pub {name} : List ℕ\n{name} = {' ∷ '.join(str(e) for e in entries)} ∷ []"


if sys.argv[1] == "code":
    print("// The powers of α and their exponents, as tools/field_tables.py prints them.")
    print(code("Entry i is α to the power i.", "POWERS", powers))
    print(code("Entry a is the exponent below 1,023 whose power of α is a; that of 0 is not used, and keeps each element its own index.", "LOGS", logs))
else:
    print("-- The tables of the code as lists, as tools/field_tables.py prints them.")
    print("use Rattle.std.proofs.Common.{ℕ, List, [], ◌∷◌}")
    print(listed("powers", powers))
    print(listed("logs", logs))
