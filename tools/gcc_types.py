#!/usr/bin/env python3
"""Writes crates/c_types/src/tests/gcc_answers.rt and crates/c_operators/src/tests/gcc_answers.rt: what gcc -std=c11
says of promotions, of the usual arithmetic conversions, of the types of integer constants, of implicit conversions, of
comparisons and of conditionals; and which types the operators give.

Run it at the top of the repository, then `rt fmt` in both crates. The first line of each file says which gcc it was.
Types of expressions come from _Generic; what may be converted and compared is what -pedantic-errors lets pass. A type
is spelled as its base with a `*` behind it for a pointer to it, and a `3` for an array of three of it. `0` and `NULL`
are the null pointer constants. `none` stands where gcc gives no type or refuses. A pointer that becomes a `_Bool`, which
gcc takes, isn't asked for. Nor are the difference and the order of two pointers, which the profile leaves out: `none`.
"""
import subprocess
import sys
import tempfile
from pathlib import Path

INTEGERS = {
    "bool": "_Bool", "char": "char", "schar": "signed char", "uchar": "unsigned char", "short": "short",
    "ushort": "unsigned short", "int": "int", "uint": "unsigned int", "long": "long", "ulong": "unsigned long",
    "llong": "long long", "ullong": "unsigned long long",
}
BASES = dict(INTEGERS, void="void", record0="struct r0", record1="struct r1", record2="union r2")
OPERANDS = [
    "int", "ulong", "0", "NULL", "char*", "uchar*", "int*", "uint*", "void*", "int**", "void**", "record0", "record1",
    "record2", "record0*", "record1*", "int3*",
]
OPERATED = ["int", "ulong", "0", "char*", "int*", "void*", "int**", "record0", "int3*"]
BINARY = {"SUMS": "+", "DIFFERENCES": "-", "PRODUCTS": "*", "REMAINDERS": "%", "SHIFTS": "<<", "UNIONS": "|",
          "ORDERS": "<", "EQUALITIES": "==", "LOGICAL": "&&"}
CHANGES = {"ASSIGNED": "=", "ADDED": "+=", "MULTIPLIED": "*=", "SHIFTED": "<<="}
UNARY = {"SIGNS": "-", "COMPLEMENTS": "~", "NEGATIONS": "!", "POINTED": "*"}
BASE_NAMES = {"decimal": "", "octal": "0", "hexadecimal": "0x"}
SUFFIXES = {"plain": "", "u": "u", "l": "l", "ul": "ul", "ll": "ll", "ull": "ull"}
EDGES = [2**31 - 1, 2**31, 2**32 - 1, 2**32, 2**63 - 1, 2**63, 2**64 - 1, 2**64]


def typedefs(names):
    """A typedef for each spelled type, and the name of each."""
    lines, known = [], {}

    def name_of(spelled):
        if spelled in BASES:
            return BASES[spelled]
        if spelled not in known:
            inner = name_of(spelled[:-1])
            known[spelled] = f"t{len(known)}"
            shape = f"*{known[spelled]}" if spelled[-1] == "*" else f"{known[spelled]}[3]"
            lines.append(f"typedef {inner} {shape};")
        return known[spelled]

    return {name: name_of(name) for name in names}, lines


SPELLED = [o for o in OPERANDS if o not in ("0", "NULL")]
NAMES, TYPEDEFS = typedefs(list(INTEGERS) + SPELLED)
HEAD = ["#include <stddef.h>", "struct r0 { int a; };", "struct r1 { int a; };", "union r2 { int a; };"] + TYPEDEFS
HEAD += [f"extern {NAMES[s]} v{i};" for i, s in enumerate(OPERANDS) if s in NAMES]


def operand(i):
    return OPERANDS[i] if OPERANDS[i] in ("0", "NULL") else f"v{i}"


def gcc(lines, *words):
    with tempfile.TemporaryDirectory() as folder:
        path = Path(folder) / "a.c"
        path.write_text("\n".join(lines) + "\n")
        return subprocess.run(["gcc", "-std=c11", *words, str(path), "-o", str(Path(folder) / "a")],
                              capture_output=True, text=True), Path(folder) / "a"


def refused(lines):
    """The numbers of the lines, from 0, that gcc refuses: each stands in a function of its own."""
    head = len(HEAD)
    whole = HEAD + [f"void f{i}(int c) {{ {line} }}" for i, line in enumerate(lines)]
    run, _ = gcc(whole, "-pedantic-errors", "-fsyntax-only", "-fmax-errors=0", "-Wno-unused-value")
    numbers = set()
    for message in run.stderr.splitlines():
        parts = message.split(":")
        if len(parts) > 3 and parts[3].strip() == "error":
            numbers.add(int(parts[1]) - 1 - head)
    return numbers


def types_of(expressions):
    """The spelled type of each expression that gcc takes, by _Generic."""
    bad = refused([f"(void) ({e});" for e in expressions])
    cases = ", ".join(f'{name}: "{spelled}"' for spelled, name in NAMES.items())
    body = []
    for i, e in enumerate(expressions):
        text = '"none"' if i in bad else f'_Generic(({e}), {cases}, default: "none")'
        body.append(f"puts({text});")
    lines = ["#include <stdio.h>"] + HEAD + ["extern int c;", "int main(void) {"] + body + ["return 0; }"]
    definitions = [f"{NAMES[s]} v{i};" for i, s in enumerate(OPERANDS) if s in NAMES] + ["int c;"]
    lines += definitions
    with tempfile.TemporaryDirectory() as folder:
        source, program = Path(folder) / "a.c", Path(folder) / "a"
        source.write_text("\n".join(lines) + "\n")
        subprocess.run(["gcc", "-std=c11", "-w", str(source), "-o", str(program)], check=True)
        return subprocess.run([str(program)], check=True, capture_output=True, text=True).stdout.splitlines()


def rows(width, words):
    return [words[i:i + width] for i in range(0, len(words), width)]


def constant(base, suffix, value):
    digits = {"decimal": f"{value}", "octal": f"0{value:o}", "hexadecimal": f"0x{value:x}"}[base]
    return digits + SUFFIXES[suffix]


def constants():
    keys = [(b, s) for b in BASE_NAMES for s in SUFFIXES]
    # gcc gives a constant past its row of types a wider one with a warning, which -pedantic-errors makes an error
    words = types_of([constant(b, s, v) for b, s in keys for v in EDGES])
    return [" ".join(row) for row in rows(len(EDGES), words)]


def main():
    version = subprocess.run(["gcc", "--version"], capture_output=True, text=True).stdout.splitlines()[0]
    integers = list(INTEGERS.values())
    casts = [f"({t}) 1" for t in integers]
    pairs = [(i, j) for i in range(len(OPERANDS)) for j in range(len(OPERANDS))]
    texts = {
        "PROMOTED": [" ".join(types_of([f"+{c}" for c in casts]))],
        "COMMON": [" ".join(row) for row in rows(12, types_of([f"{a} + {b}" for a in casts for b in casts]))],
        "CONSTANTS": constants(),
    }
    targets = [i for i, s in enumerate(OPERANDS) if s in NAMES]
    bad = refused([f"v{j} = {operand(i)};" for i in range(len(OPERANDS)) for j in targets])
    marks = ["no" if n in bad else "yes" for n in range(len(OPERANDS) * len(targets))]
    texts["CONVERTS"] = [" ".join(row) for row in rows(len(targets), marks)]
    bad = refused([f"(void) ({operand(i)} == {operand(j)});" for i, j in pairs])
    marks = ["no" if n in bad else "yes" for n in range(len(pairs))]
    texts["COMPARABLE"] = [" ".join(row) for row in rows(len(OPERANDS), marks)]
    texts["CONDITIONAL"] = [" ".join(r) for r in
                            rows(len(OPERANDS), types_of([f"c ? {operand(i)} : {operand(j)}" for i, j in pairs]))]
    write("c_types", version, texts)
    write("c_operators", version, operators())


def are_pointers(i, j):
    return all(OPERANDS[k] == "NULL" or OPERANDS[k][-1] == "*" for k in (i, j))


def operators():
    """A line for each left operand, a word for each right one; of one operand, a word for each."""
    some = [OPERANDS.index(name) for name in OPERATED]
    pairs = [(i, j) for i in some for j in some]
    texts = {}
    for name, sign in BINARY.items():
        words = types_of([f"{operand(i)} {sign} {operand(j)}" for i, j in pairs])
        if name in ("DIFFERENCES", "ORDERS"):
            words = ["none" if are_pointers(*pair) else word for pair, word in zip(pairs, words)]
        texts[name] = [" ".join(row) for row in rows(len(some), words)]
    words = types_of([f"{operand(i)}[{operand(j)}]" for i, j in pairs])
    texts["SUBSCRIPTS"] = [" ".join(row) for row in rows(len(some), words)]
    places = [i for i in some if OPERANDS[i] in NAMES]
    for name, sign in CHANGES.items():
        words = types_of([f"{operand(i)} {sign} {operand(j)}" for i in places for j in some])
        texts[name] = [" ".join(row) for row in rows(len(some), words)]
    for name, sign in UNARY.items():
        texts[name] = [" ".join(types_of([f"{sign}{operand(i)}" for i in some]))]
    texts["STEPS"] = [" ".join(types_of([f"{operand(i)}++" for i in places]))]
    return texts


def write(crate, version, texts):
    out = [f"// Written by tools/gcc_types.py with {version}; that script says how to read it."]
    for name, lines in texts.items():
        out += ["", f'pub(super) const {name}: &str = "\\'] + lines + ['";']
    Path(f"crates/{crate}/src/tests/gcc_answers.rt").write_text("\n".join(out) + "\n")


if __name__ == "__main__":
    sys.exit(main())
