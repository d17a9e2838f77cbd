#!/usr/bin/env python3
"""Eliminates the unknowns of the cases of crates/linear_solve/src/tests/tables.rt by plain fractions, and solves those of
solutions.rt beside it, with no code of the crate; prints each case that a table answers otherwise. With --write it
writes the tables anew."""
import random
import re
import sys
import textwrap
from fractions import Fraction
from math import gcd, lcm
from pathlib import Path

TESTS = Path(__file__).parent.parent / "crates/linear_solve/src/tests"
TABLES = TESTS / "tables.rt"
SOLUTIONS = TESTS / "solutions.rt"
CASE = re.compile(r'\(\s*"([^"]*)",\s*"([^"]*)",\s*"([^"]*)",?\s*\)', re.S)
ROWS_AND_ANSWER = re.compile(r'\(\s*"([^"]*)",\s*"([^"]*)",?\s*\)', re.S)
WIDTH = 2**120
ROWS = 200000
COLUMNS = 128


class Passed(Exception):
    """A limit."""


class Fails(Exception):
    """A row without unknowns that fails, with the multipliers of the given rows."""


def read_row(text):
    kind, constant, *factors = text.split()
    row = {None: int(constant)}
    for factor in factors:
        unknown, number = factor.split(":")
        row[int(unknown)] = int(number)
    return kind == "=", row


def unknowns_of(row):
    return sorted(unknown for unknown, number in row.items() if unknown is not None and number != 0)


class Elimination:
    """Rows are (is an equation, its numbers by unknown with the constant at None, the multiplier of each given row)."""

    def __init__(self):
        self.counted = 0

    def take(self, level, new):
        equation, row, multipliers = new
        if any(abs(number) > WIDTH for number in row.values()):
            raise Passed("Width")
        self.counted += 1
        if self.counted > ROWS:
            raise Passed("Rows")
        if not unknowns_of(row):
            constant = row[None]
            if constant == 0 or (constant > 0 and not equation):
                return
            raise Fails(new)
        if all((equation, row) != (kind, other) for kind, other, _ in level):
            level.append(new)

    @staticmethod
    def cleared(unknown, left, right):
        """The left row without the unknown: a positive multiple of it and a multiple of the right one."""
        factor, own = right[1][unknown], left[1][unknown]
        by, times = (abs(factor), -own) if factor > 0 else (abs(factor), own)
        row = {
            column: by * left[1].get(column, 0) + times * right[1].get(column, 0)
            for column in {*left[1], *right[1]}
        }
        shared = gcd(*row.values()) or 1
        row = {column: number // shared for column, number in row.items() if column is None or number != 0}
        multipliers = {
            number: (by * left[2].get(number, Fraction(0)) + times * right[2].get(number, Fraction(0))) / shared
            for number in {*left[2], *right[2]}
        }
        return left[0], row, {number: value for number, value in multipliers.items() if value != 0}

    def formed(self, unknown, rows):
        for at, equation in enumerate(rows):
            if equation[0]:
                for row in rows[:at] + rows[at + 1 :]:
                    yield self.cleared(unknown, row, equation)
                return
        for row in rows:
            for other in rows:
                if row[1][unknown] > 0 > other[1][unknown]:
                    yield self.cleared(unknown, row, other)

    def run(self, given, unknowns):
        level = []
        for number, (equation, row) in enumerate(given):
            self.take(level, (equation, row, {number: Fraction(1)}))
        steps = []
        for unknown in unknowns:
            rows = [row for row in level if row[1].get(unknown, 0) != 0]
            level = [row for row in level if row[1].get(unknown, 0) == 0]
            for new in self.formed(unknown, rows):
                self.take(level, new)
            steps.append((unknown, rows))
        return steps


def row_text(new):
    equation, row, _ = new
    factors = "".join(f" {unknown}:{row[unknown]}" for unknown in unknowns_of(row))
    return f"{'=' if equation else '<='} {row[None]}{factors}"


def shares_text(new):
    divisor = lcm(*(value.denominator for value in new[2].values()))
    parts = " ".join(f"{number}:{value * divisor}" for number, value in sorted(new[2].items()))
    return f"{parts} over {divisor}"


def answer(rows_text, unknowns_text):
    rows = [read_row(part) for part in rows_text.split(";") if part.strip()]
    unknowns = [int(word) for word in unknowns_text.split()]
    try:
        steps = Elimination().run(rows, unknowns)
    except Passed as limit:
        return str(limit)
    except Fails as failing:
        new = failing.args[0]
        return f"fails {row_text(new)} by {shares_text(new)}"
    return " ".join(f"{unknown} [{'; '.join(row_text(row) for row in rows)}]" for unknown, rows in steps)


BY_HAND = [
    ("", ""),
    ("", "3"),
    ("<= 0", ""),
    ("<= -1", ""),
    ("= 0", ""),
    ("= 2", ""),
    ("= -2", ""),
    ("<= 5; <= -1; <= -2", ""),
    ("<= -1 0:1; <= 0 0:-1", "0"),
    ("<= 1 0:1; <= 0 0:-1", "0"),
    ("<= 0 0:1; <= 0 0:-1", "0"),
    ("<= -1 0:2; <= 0 0:-3", "0"),
    ("<= -1 0:2; <= 2 0:-4", "0"),
    ("<= 3 0:1; <= 3 0:1; <= 3 0:-1", "0"),
    ("<= 3 0:2; <= 3 0:2; <= 6 0:4", "0"),
    ("= 3 0:1; <= 3 0:1", "0"),
    ("= 3 0:1; = 3 0:1", "0"),
    ("= 3 0:1; = -3 0:-1", "0"),
    ("= -3 0:1; <= 2 0:-1", "0"),
    ("= -3 0:1; <= -4 0:1", "0"),
    ("= -3 0:1; = -4 0:1", "0"),
    ("= -4 0:1; = -3 0:1", "0"),
    ("= -3 0:-2; <= 1 0:4 1:2; <= 0 0:-1 1:-1", "0 1"),
    ("<= 0 0:1 1:-1; = 0 0:2 1:2; <= -1 1:1", "0 1"),
    ("<= 0 0:1 1:-1; = 0 0:2 1:2; <= -1 1:1", "1 0"),
    ("= 0 0:1 1:-1; = 0 1:1 2:-1; <= -1 0:-1 2:1", "0 1 2"),
    ("= 0 0:1 1:-1; = 0 1:1 2:-1; <= -1 0:-1 2:1", "2 1 0"),
    ("<= -1 0:-1 1:1; <= -1 1:-1 2:1; <= -1 2:-1 0:1", "0 1 2"),
    ("<= 0 0:-1 1:1; <= 0 1:-1 2:1; <= 0 2:-1 0:1", "0 1 2"),
    ("<= 2147483648 0:1; <= 2147483647 0:-1; <= -2147483647 0:1", "0"),
    ("<= 2147483648 0:1; <= 2147483647 0:-1; <= 2147483646 0:-1; <= -2147483647 0:1", "0"),
    ("<= 0 0:2; <= 1 0:-2", "0"),
    ("<= -1 0:1 1:1 2:1; <= 0 0:-2 1:-1 2:-1; <= 0 0:1 1:-3 2:1; <= 0 1:3 2:-1", "0 1 2"),
    ("<= 4 0:6 1:10; <= 6 0:-9 1:15", "0 1"),
    ("<= 4 0:6 1:10; <= 6 0:-9 1:-15", "0 1"),
    ("<= 1 0:1 1:1; <= 1 0:1 1:-1; <= 1 0:-1 1:1; <= 1 0:-1 1:-1", "0 1"),
    ("<= 1 0:1 1:1; <= 1 0:1 1:-1; <= 1 0:-1 1:1; <= -3 0:-1 1:-1", "0 1"),
    ("<= 1 0:1 1:2; <= 1 0:-2 1:3; <= 7 1:-1", "1 0"),
    ("<= 1 4:1; <= 1 7:1", "4 7"),
    ("<= 1 4:1; <= 1 7:1", "7"),
    (f"<= {WIDTH} 0:1", "0"),
    (f"<= {WIDTH + 1} 0:1", "0"),
    (f"<= {-WIDTH - 1} 0:1", "0"),
    (f"<= 0 0:{WIDTH}; <= -1 0:{-WIDTH}", "0"),
    (f"<= 0 0:{WIDTH + 1}", "0"),
    (f"<= 0 0:{-WIDTH - 1}; <= -1", "0"),
    (f"<= -1; <= 0 0:{-WIDTH - 1}", "0"),
    (f"<= 0 0:1 1:{WIDTH}; <= 0 0:-2 1:1", "0 1"),
    (f"<= 0 0:1 1:{WIDTH}; <= 0 0:-1 1:1", "0 1"),
    (f"<= 0 0:{2**100} 1:{2**110}; <= 0 0:{-2**100} 1:{2**110}", "0 1"),
    (f"<= 1 0:{2**100} 1:{2**110}; <= 0 0:{-2**90} 1:{2**110}", "0 1"),
    (f"<= 1 0:{2**100}; <= {2**119} 0:{-2**90 - 1}; <= 0 1:1", "0 1"),
    (f"<= 0 0:1 1:{-2**119}; <= 0 0:{-2**119} 2:1; <= 0 1:{2**119} 2:-1 3:1", "0 1 2 3"),
    (f"<= 0 0:1 1:{-2**70}; <= 0 0:-1 2:{3**40}; <= 0 1:{2**70} 2:{-3**40} 3:{5**30}; <= -1 3:{-5**30}", "0 1 2 3"),
]


def by_chance(count, seed=19, most=4):
    chance = random.Random(seed)
    for _ in range(count):
        unknowns = chance.randint(1, most)
        rows = []
        for _ in range(chance.randint(2, 6)):
            kind = "=" if chance.random() < 0.2 else "<="
            factors = "".join(
                f" {unknown}:{number}"
                for unknown in range(unknowns)
                if (number := chance.choice([0, 0, 1, -1, 2, -2, 3, -3, 6, -4])) != 0
            )
            rows.append(f"{kind} {chance.randint(-6, 6)}{factors}")
        order = list(range(unknowns))
        if chance.random() < 0.3:
            chance.shuffle(order)
        yield "; ".join(rows), " ".join(map(str, order))


class Model:
    """Values by unknown, found going back over the steps; the fractions that are formed have a limit."""

    def __init__(self):
        self.values = {}

    @staticmethod
    def formed(numerator, denominator):
        if abs(numerator) > WIDTH or abs(denominator) > WIDTH:
            raise Passed("Width")
        return numerator, denominator

    def sum_at(self, row):
        """The constant and then the products, over the least common denominator of what is added so far."""
        numerator, denominator = row[None], 1
        for unknown in unknowns_of(row):
            product = row[unknown] * self.values.get(unknown, Fraction(0))
            self.formed(product.numerator, product.denominator)
            common = lcm(denominator, product.denominator)
            numerator = numerator * (common // denominator) + product.numerator * (common // product.denominator)
            denominator = common
            self.formed(numerator, denominator)
        return Fraction(numerator, denominator)

    def bound(self, unknown, row):
        bound = -self.sum_at(row) / row[unknown]
        self.formed(bound.numerator, bound.denominator)
        return bound

    def value(self, unknown, rows):
        for equation, row, _ in rows:
            if equation:
                return self.bound(unknown, row)
        lower = [self.bound(unknown, row) for _, row, _ in rows if row[unknown] > 0]
        if lower:
            return max(lower)
        upper = [self.bound(unknown, row) for _, row, _ in rows if row[unknown] < 0]
        return min(upper) if upper else Fraction(0)

    def go_back(self, steps):
        for unknown, rows in reversed(steps):
            self.values[unknown] = self.value(unknown, rows)


def certificate(given, failing):
    """The multipliers in lowest terms, for a constant below 0, whose partial sums have a limit."""
    _, row, shares = failing
    divisor = lcm(*(value.denominator for value in shares.values()))
    whole = {number: int(value * divisor) for number, value in shares.items()}
    shared = gcd(*whole.values()) * (-1 if row[None] > 0 else 1)
    multipliers = {number: value // shared for number, value in sorted(whole.items())}
    total = {}
    for number, multiplier in multipliers.items():
        for column, factor in given[number][1].items():
            total[column] = total.get(column, 0) + multiplier * factor
        if any(abs(value) > WIDTH for value in total.values()):
            raise Passed("Width")
    if any(value != 0 for column, value in total.items() if column is not None) or total[None] >= 0:
        sys.exit(f"the sum of a certificate isn't impossible: {given}")
    return multipliers


def holds(given, values):
    for equation, row in given:
        total = row[None] + sum(row[unknown] * values[unknown] for unknown in unknowns_of(row))
        if total < 0 or (equation and total != 0):
            return False
    return True


def solution(rows_text):
    rows = [read_row(part) for part in rows_text.split(";") if part.strip()]
    unknowns = sorted({unknown for _, row in rows for unknown in unknowns_of(row)})
    try:
        if len(unknowns) > COLUMNS:
            raise Passed("Columns")
        model = Model()
        model.go_back(Elimination().run(rows, unknowns))
    except Passed as limit:
        return str(limit)
    except Fails as failing:
        try:
            parts = certificate(rows, failing.args[0])
        except Passed as limit:
            return str(limit)
        return "closed " + " ".join(f"{number}:{value}" for number, value in parts.items())
    if not holds(rows, model.values):
        sys.exit(f"the model doesn't meet all rows: {rows_text}")
    return "open" + "".join(f" {unknown}={value}" for unknown, value in sorted(model.values.items()))


def string(text):
    """A literal, broken at blanks: the test reads words."""
    return '"' + "\n            ".join(textwrap.wrap(text, 100, break_long_words=False)) + '"'


SOLVED_BY_HAND = [
    f"<= {2**31} 0:1; <= {2**31 - 1} 0:-1; <= {-(2**31)} 0:1",
    f"<= {2**31} 0:1; <= {2**31 - 1} 0:-1; <= {2**31 - 2} 0:-1; <= {-(2**31) + 1} 0:1",
    "<= -1 0:2; <= 1 0:-2",
    "= -1 0:2",
    "<= 5 3:-2 7:1; <= 0 7:-3",
    "<= 0 0:1 1:-1; <= -1 1:1",
    "<= 2 0:-3; <= 5 0:-4",
    "<= 2 0:3; <= 5 0:4",
    "<= 2 0:3; <= 5 0:-4; <= 1 0:7",
    "= 0 0:1 1:1 2:1; = -6 0:1 1:2 2:3; <= -1 0:1",
    "= 0 0:1 1:1 2:1; = -6 0:1 1:2 2:3; <= 1 0:-1 1:-1",
    "= -1 0:3 1:5; <= 0 0:1; <= 0 1:1",
    "<= -1 0:2 1:3; <= -1 0:3 1:2; <= 1 0:-6 1:-6",
    "<= -2 0:2 1:3; <= -2 0:3 1:2; <= 4 0:-6 1:-6",
    "= 3; <= -1 0:1",
    "= -3; <= -1 0:1",
    "<= -1 0:1; = 3",
    f"<= {-WIDTH} 0:1",
    f"<= {WIDTH} 0:-1",
    f"<= {WIDTH} 0:-1 1:-1; <= -1 1:1",
    f"<= {WIDTH - 1} 0:-1 1:-1; <= -1 1:1",
    f"<= {-WIDTH + 1} 0:1 1:-1; <= -1 1:1",
    f"<= {-WIDTH} 0:1 1:-1; <= -1 1:1",
    f"<= -1 0:{WIDTH}",
    f"<= -1 0:{WIDTH}; <= -1 0:{WIDTH - 1}",
    f"<= 0 0:1 1:{-WIDTH // 4}; <= -5 1:1",
    f"<= 0 0:1 1:{-WIDTH // 4}; <= -4 1:1",
    f"<= 0 0:1 1:-1 2:-1; <= -1 1:{3**40}; <= -1 2:{5**30}",
    f"<= 0 0:1 1:-1 2:-1; <= -1 1:{3**35}; <= -1 2:{5**20}",
    f"= -1 0:{2**60}; = 0 0:1 1:{-(2**60)}",
    f"= -1 1:{2**60}; = 0 1:1 0:{-(2**60)}",
    f"= -1 1:{2**61}; = 0 1:1 0:{-(2**60)}",
    f"<= -1 0:{2**60 + 1}; <= 0 0:{-(2**60) + 1}",
    f"<= {-(2**60)} 0:{2**60 + 1}; <= 1 0:{-(2**61) + 1}",
    f"<= -1 0:{2**119}; <= -1 0:{-(2**119) + 1}",
    f"<= -1 0:{2**118 + 1}; <= 1 0:{-(2**119) + 1}",
    f"<= -1 0:{2**90}; <= 0 0:{-(2**90) + 1} 1:1; <= 0 1:{-(2**90) + 3}",
    f"<= -1 0:{3**50}; <= 0 0:{-(2**60)} 1:1; <= 0 1:{-(5**30)} 2:1; <= 0 2:-7",
    f"<= 0 0:{WIDTH + 1}; <= -1",
    f"<= -1; <= 0 0:{WIDTH + 1}",
]


def write_solutions():
    by_hand = [rows for rows, _ in BY_HAND] + SOLVED_BY_HAND
    chance = [rows for rows, _ in by_chance(90, seed=20, most=5)]
    lines = [
        "/// Rows, and what they come to: closed with the multipliers of the given rows, open with the unknowns' values, or",
        "/// a limit. tools/elimination.py wrote the answers.",
        "pub type Solution = (&'static str, &'static str);",
    ]
    tables = [(f"HAND_{at // 20 + 1}", by_hand[at : at + 20]) for at in range(0, len(by_hand), 20)]
    tables += [(f"CHANCE_{at // 18 + 1}", chance[at : at + 18]) for at in range(0, len(chance), 18)]
    for name, cases in tables:
        lines += ["", f"pub const {name}: [Solution; {len(cases)}] = ["]
        for rows in cases:
            lines += ["    (", *(f"        {string(text)}," for text in (rows, solution(rows))), "    ),"]
        lines.append("];")
    SOLUTIONS.write_text("\n".join(lines) + "\n")


def write():
    lines = [
        "/// Rows, the order of their unknowns, and what the elimination comes to: a limit, a row that fails with the",
        "/// multipliers of the given rows, or each unknown with the rows of its level that have it. tools/elimination.py",
        "/// wrote the answers.",
        "pub type Case = (&'static str, &'static str, &'static str);",
    ]
    chance = list(by_chance(70))
    tables = [("HAND_1", BY_HAND[:20]), ("HAND_2", BY_HAND[20:38]), ("HAND_3", BY_HAND[38:])]
    tables += [(f"CHANCE_{number + 1}", chance[number * 18 : number * 18 + 18]) for number in range(4)]
    for name, cases in tables:
        lines += ["", f"pub const {name}: [Case; {len(cases)}] = ["]
        for rows, unknowns in cases:
            lines += ["    (", *(f"        {string(text)}," for text in (rows, unknowns, answer(rows, unknowns))), "    ),"]
        lines.append("];")
    TABLES.write_text("\n".join(lines) + "\n")


def check():
    wrong = 0
    eliminations = CASE.findall(TABLES.read_text())
    solutions = ROWS_AND_ANSWER.findall(SOLUTIONS.read_text())
    for *given, expected in eliminations + solutions:
        *given, expected = (re.sub(r"\s+", " ", text) for text in (*given, expected))
        found = answer(*given) if len(given) == 2 else solution(*given)
        if found != expected:
            wrong += 1
            print(f"{' | '.join(given)}: {found}, and not {expected}")
    print(f"{len(eliminations)} eliminations and {len(solutions)} solutions, {wrong} otherwise")
    return wrong or not eliminations or not solutions


if __name__ == "__main__":
    if "--write" in sys.argv:
        write()
        write_solutions()
    sys.exit(1 if check() else 0)
