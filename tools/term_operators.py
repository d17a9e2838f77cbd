#!/usr/bin/env python3
"""Writes crates/rc_terms/src/tests/python_results.rt: what Python's whole numbers, which have no bound, give for each
operator of terms on edge numbers.

Run it at the top of the repository. The results stand in one text for each operator, parted by blanks: for each left
operand in the order of EDGES, those with each right operand. `W` stands for a result that 128 bits don't hold; `m+K` and
`M-K` count from the least and the greatest number that they hold.
"""
from pathlib import Path

LEAST, GREATEST = -(2**127), 2**127 - 1
EDGES = [LEAST, -129, -7, -1, 0, 1, 3, 7, 127, 128, 129, GREATEST]


def quotient(a, b):
    if b == 0:
        return 0
    magnitude = abs(a) // abs(b)
    return magnitude if (a < 0) == (b < 0) else -magnitude


def remainder(a, b):
    return 0 if b == 0 else a - b * quotient(a, b)


def shifted_left(a, b):
    return 0 if b < 0 or a == 0 else a << min(b, 300)


def shifted_right(a, b):
    return 0 if b < 0 else a >> min(b, 300)


def aligned(offset, alignment):
    return int(offset == 0 if alignment == 0 else offset % alignment == 0)


OPERATORS = {
    "add": lambda a, b: a + b, "subtract": lambda a, b: a - b, "multiply": lambda a, b: a * b,
    "quotient": quotient, "remainder": remainder, "shift_left": shifted_left, "shift_right": shifted_right,
    "bit_and": lambda a, b: a & b, "bit_or": lambda a, b: a | b, "bit_xor": lambda a, b: a ^ b,
    "equal": lambda a, b: int(a == b), "unequal": lambda a, b: int(a != b), "below": lambda a, b: int(a < b),
    "at_most": lambda a, b: int(a <= b), "above": lambda a, b: int(a > b), "at_least": lambda a, b: int(a >= b),
    "aligned": aligned,
}


def spelled(n):
    if not LEAST <= n <= GREATEST:
        return "W"
    if n - LEAST < 1000:
        return f"m+{n - LEAST}"
    if GREATEST - n < 1000:
        return f"M-{GREATEST - n}"
    return str(n)


def wrapped(words, width=110):
    lines, line = [], ""
    for word in words:
        if len(line) + 1 + len(word) > width:
            lines.append(line)
            line = word
        else:
            line = f"{line} {word}" if line else word
    return "\n".join(lines + [line])


def main():
    text = "// Written by tools/term_operators.py; that script says how to read it.\n"
    for name, operator in OPERATORS.items():
        results = wrapped(spelled(operator(a, b)) for a in EDGES for b in EDGES)
        text += f'\npub(super) const {name.upper()}: &str = "\\\n{results}";\n'
    Path("crates/rc_terms/src/tests/python_results.rt").write_text(text)


if __name__ == "__main__":
    main()
