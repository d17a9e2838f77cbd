#!/usr/bin/env python3
"""Judges the certificates of crates/linear_certs/src/tests/tables.rt by plain fractions, with no code of the crate,
and refutes the rows of each valid one a second time, by elimination. It prints each case that the table answers
otherwise, and ends with how many it judged."""
import re
import sys
from fractions import Fraction
from pathlib import Path

TABLES = Path(__file__).parent.parent / "crates/linear_certs/src/tests/tables.rt"
CASE = re.compile(r'\(\s*"([^"]*)",\s*"([^"]*)",\s*(VALID|INVALID|WIDTH),?\s*\)')
LIMIT = 2**120


def pair(text):
    left, right = text.split(":")
    return int(left), int(right)


def read_row(text):
    """Whether it is an equation, and its numbers: the constant under None, each factor under its unknown."""
    kind, constant, *factors = text.split()
    return kind == "=", {None: int(constant), **dict(pair(factor) for factor in factors)}


def read_rows(text):
    return [read_row(part) for part in text.split(";") if part.strip()]


def sum_of(rows, entries):
    """The sum of the rows, column by column."""
    total = {None: Fraction(0)}
    for number, multiplier in entries:
        if number < len(rows):
            for column, value in rows[number][1].items():
                total[column] = total.get(column, Fraction(0)) + Fraction(multiplier) * value
    return total


def may_multiply(rows, number, multiplier):
    return number < len(rows) and (multiplier != 0 if rows[number][0] else multiplier > 0)


def judge(rows, entries):
    for count in range(len(entries) + 1):
        if any(abs(value) > LIMIT for value in sum_of(rows, entries[:count]).values()):
            return "WIDTH"
    total = sum_of(rows, entries)
    numbers = [number for number, _ in entries]
    right = (
        all(before < after for before, after in zip(numbers, numbers[1:]))
        and all(may_multiply(rows, number, multiplier) for number, multiplier in entries)
        and all(value == 0 for column, value in total.items() if column is not None)
        and total[None] < 0
    )
    return "VALID" if right else "INVALID"


def plus(row, multiplier, other):
    return {column: row.get(column, 0) + multiplier * other.get(column, 0) for column in {*row, *other}}


def refuted(rows):
    """Whether no fractions meet all rows: Fourier and Motzkin's elimination, an equation as two inequalities."""
    rows = [numbers for _, numbers in rows] + [
        {column: -value for column, value in numbers.items()} for is_equation, numbers in rows if is_equation
    ]
    for unknown in {column for row in rows for column in row if column is not None}:
        above = [row for row in rows if row.get(unknown, 0) > 0]
        below = [row for row in rows if row.get(unknown, 0) < 0]
        rows = [row for row in rows if row.get(unknown, 0) == 0] + [
            plus(low, Fraction(-low[unknown], high[unknown]), high) for high in above for low in below
        ]
    return any(row[None] < 0 for row in rows)


def main():
    cases = CASE.findall(TABLES.read_text())
    wrong = 0
    for rows_text, cert_text, answer in cases:
        rows = read_rows(rows_text)
        judged = judge(rows, [pair(entry) for entry in cert_text.split()])
        if judged != answer or (judged == "VALID" and not refuted(rows)):
            wrong += 1
            print(f"{cert_text!r} for {rows_text!r} is {judged}, and the table says {answer}")
    print(f"{len(cases)} certificates judged, {wrong} otherwise than the table")
    sys.exit(wrong != 0 or not cases)


if __name__ == "__main__":
    main()
