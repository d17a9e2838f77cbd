#!/usr/bin/env python3
"""Writes crates/int_ops/src/tests/gcc_results.rt: what gcc's program gives for each operator on the edge numbers of each
integer type, and for conversions.

Run it at the top of the repository. The first line of the file says which gcc it was. The edge numbers of a type are the
least, -1, 0, 1, the greatest, the width less 1 and the width; a type without sign has no -1, and its least is 0. An
operator's lines have a left operand each, in that order, and on each line the right operands stand in the same order. A
unary operator has one line. What C leaves undefined isn't run: `O` stands for a signed result out of range or a negative
number shifted left, `Z` for a divisor 0, `M` for the least number by -1, `S` for the amount of a shift out of range.
"""
import subprocess
import tempfile
from pathlib import Path

TYPES = {
    "char": ("CHAR", 8, True), "signed char": ("SCHAR", 8, True), "unsigned char": ("UCHAR", 8, False),
    "short": ("SHORT", 16, True), "unsigned short": ("USHORT", 16, False),
    "int": ("INT", 32, True), "unsigned int": ("UINT", 32, False),
    "long": ("LONG", 64, True), "unsigned long": ("ULONG", 64, False),
    "long long": ("LLONG", 64, True), "unsigned long long": ("ULLONG", 64, False),
}
# types of one size and sign, of which the first has the text
SAME = {"CHAR": "SCHAR", "LLONG": "LONG", "ULLONG": "ULONG"}
UNARY = {"neg": "-", "compl": "~"}
BINARY = {
    "add": "+", "sub": "-", "mul": "*", "div": "/", "rem": "%", "shl": "<<", "shr": ">>", "and": "&", "or": "|", "xor": "^",
    "eq": "==", "ne": "!=", "lt": "<", "le": "<=", "gt": ">", "ge": ">=",
}
COMPARISONS = ("eq", "ne", "lt", "le", "gt", "ge")
CONVERTED = [-(2**63), -(2**31) - 1, -32769, -129, -1, 0, 1, 127, 128, 200, 255, 256, 32768, 65535, 65536, 2**31,
             2**32 + 5, 2**63 - 1]


def bounds(width, signed):
    return (-(2 ** (width - 1)), 2 ** (width - 1) - 1) if signed else (0, 2**width - 1)


def edges(width, signed):
    least, greatest = bounds(width, signed)
    return [least, -1] * signed + [0, 1, greatest, width - 1, width]


def refusal(name, width, signed, a, b):
    """The letter of what C leaves undefined, by the standard's conditions in their order."""
    least, greatest = bounds(width, signed)
    exact = {"neg": -a, "add": a + b, "sub": a - b, "mul": a * b}.get(name)
    if name == "shl":
        exact = a << min(b, 128) if b >= 0 else a >> min(-b, 128)
    if signed and exact is not None and not least <= exact <= greatest or name == "shl" and a < 0:
        return "O"
    if name in ("div", "rem") and b == 0:
        return "Z"
    if name in ("div", "rem") and a == least and b == -1:
        return "M"
    if name in ("shl", "shr") and not 0 <= b < width:
        return "S"
    return None


def constant(n):
    """A constant of C that no type before `unsigned long` is asked to hold."""
    return f"(-{2**63 - 1}L - 1)" if n == -(2**63) else f"{n}UL" if n >= 2**63 else f"{n}L"


def operand(ctype, n):
    """A number at its type; arithmetic on narrow types without sign goes on in `unsigned int`, as C's on them may not."""
    narrow = ctype in ("unsigned char", "unsigned short")
    return ("(unsigned int)" if narrow else "") + f"(({ctype}) {constant(n)})"


def shown(ctype, expression):
    signed = TYPES[ctype][2]
    return f'printf("{"%ld" if signed else "%lu"}", ({"long" if signed else "unsigned long"}) ({ctype}) ({expression}));'


def cell(ctype, name, a, b):
    """The statement that prints an operator's result, or the letter of its refusal."""
    _, width, signed = TYPES[ctype]
    letter = refusal(name, width, signed, a, b)
    if letter:
        return f'printf("{letter}");'
    if name in UNARY:
        return shown(ctype, f"{UNARY[name]}{operand(ctype, a)}")
    if name in COMPARISONS:
        return f'printf("%d", {operand(ctype, a)} {BINARY[name]} {operand(ctype, b)});'
    right = str(b) if name in ("shl", "shr") else operand(ctype, b)
    return shown(ctype, f"{operand(ctype, a)} {BINARY[name]} {right}")


def line(name, statements):
    return [f'printf("{name}");'] + [f'printf(" "); {s}' for s in statements] + ['printf("\\n");']


def program(ctype):
    numbers = edges(*TYPES[ctype][1:])
    body = []
    for name in UNARY:
        body += line(name, [cell(ctype, name, a, 0) for a in numbers])
    for name in BINARY:
        for a in numbers:
            body += line(name, [cell(ctype, name, a, b) for b in numbers])
    for i in range(0, len(CONVERTED), 6):
        body += line("convert", [shown(ctype, constant(n)) for n in CONVERTED[i:i + 6]])
    return "\n".join(["#include <stdio.h>", "int main(void) {"] + body + ["return 0;", "}", ""])


def results(ctype, folder):
    source, built = Path(folder) / "edges.c", Path(folder) / "edges"
    source.write_text(program(ctype))
    subprocess.run(["gcc", "-std=c11", "-w", "-O0", "-o", built, source], check=True)
    return subprocess.run([built], check=True, capture_output=True, text=True).stdout


def main():
    version = subprocess.run(["gcc", "--version"], check=True, capture_output=True, text=True).stdout.splitlines()[0]
    with tempfile.TemporaryDirectory() as folder:
        texts = {TYPES[ctype][0]: results(ctype, folder) for ctype in TYPES}
    out = [f"// Written by tools/int_ops_edges.py with {version}; that script says how to read it."]
    for name, text in texts.items():
        if name in SAME:
            assert text == texts[SAME[name]], name
        else:
            out.append(f'\npub(super) const {name}: &str = "\\\n{text}";')
    target = Path("crates/int_ops/src/tests/gcc_results.rt")
    target.parent.mkdir(exist_ok=True)
    target.write_text("\n".join(out) + "\n")


main()
