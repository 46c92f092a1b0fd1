#!/usr/bin/env python3
"""Writes the journal of the greatest lawful run: 64 seats, 65,535 numbers granted and settled, 64 refusals."""
import sys

SEATS, SIZE = 64, 65535
LO = 2**32 - SIZE
out = [f"range 16777215 {LO} {SIZE} {SEATS}\n"]
for k in range(SIZE):
    out.append(f"{k % SEATS} issue {LO + k}\n")
for seat in range(SEATS):
    out.append(f"{seat} issue none\n")
for k in range(SIZE):
    out.append(f"{k % SEATS} {'void' if k % 7 == 0 else 'sealed'} {LO + k}\n")
sys.stdout.write("".join(out))
