#!/usr/bin/env python3
"""Writes crates/layouts/src/tests/gcc_rows.rt: structs and unions with the sizes, alignments and offsets that gcc gives.

Run it at the top of the repository, then `rt fmt` in crates/layouts. The first line of the file says which gcc it was.
A member is a scalar type, `T[n]` for an array, or the name of an earlier row.
"""
import subprocess
import sys
import tempfile
from pathlib import Path

SCALARS = {
    "char": "CHAR", "signed char": "SCHAR", "unsigned char": "UCHAR", "short": "SHORT", "unsigned short": "USHORT",
    "int": "INT", "unsigned int": "UINT", "long": "LONG", "unsigned long": "ULONG", "long long": "LLONG",
    "unsigned long long": "ULLONG", "_Bool": "Layout::Bool", "void *": "Layout::Ptr",
}

ROWS = [
    "struct", "struct char", "struct short", "struct int", "struct long", "struct long long", "struct void *",
    "struct _Bool", "struct char,int", "struct int,char", "struct char,short", "struct char,long", "struct long,char",
    "struct char,char", "struct char,char,short", "struct char,short,int", "struct char,short,char,int",
    "struct short,char,long", "struct int,int,int", "struct _Bool,_Bool,int", "struct _Bool,void *", "struct void *,_Bool",
    "struct unsigned char,unsigned short,unsigned int,unsigned long", "struct unsigned long long,signed char,short",
    "struct char,long long,char", "struct char,void *,short,int", "struct int,void *,int,void *",
    "struct short,short,short", "struct char[3]", "struct char[3],int", "struct int,char[5]", "struct short[3],char",
    "struct long[2],char[9]", "struct char[7],short[2],long", "struct void *[3],_Bool", "struct int[4][2],short",
    "union", "union char", "union char,int", "union int,char", "union char[5],int", "union char[9],short",
    "union short[3],int", "union long,char[12]", "union void *,int[3]", "union _Bool,short,long", "union char[3],short",
    "union int[5],long", "struct r8,char", "struct char,r8", "struct r8,r9", "struct r10,r11", "struct r38,char",
    "struct char,r40", "struct char,r41,int", "union r8,char[9]", "union r12,r13", "union r36,int", "struct r0,int",
    "struct int,r0,char", "struct char,r0", "union r55,r42", "struct r8[3],char", "struct char,r28[2],short",
    "struct r61,r62[2],_Bool", "union r63[2],long", "struct char,r64,char", "struct r65,r66", "struct short,r67,int",
    "union r68,r67[3]", "struct char[2147483647]", "struct char[2147483640],long",
]


def declaration(member, name):
    """The member as C declares it, and its type's name."""
    base, bracket, rest = member.partition("[")
    base = base if base in SCALARS else KINDS[base] + " " + base
    return f"{base} {name}{bracket}{rest}", f"{base}{bracket}{rest}"


KINDS = {}


def program():
    lines = ["#include <stddef.h>", "#include <stdio.h>"]
    body = []
    for number, row in enumerate(ROWS):
        kind, _, members = row.partition(" ")
        members = members.split(",") if members else []
        KINDS[f"r{number}"] = kind
        fields = [declaration(m, f"m{i}") for i, m in enumerate(members)]
        lines.append(f"{kind} r{number} {{ " + " ".join(f + ";" for f, _ in fields) + " };")
        tag = f"{kind} r{number}"
        body.append(f'printf("%zu %zu", sizeof({tag}), {"_Alignof(" + tag + ")"});')
        for i, (_, name) in enumerate(fields):
            body.append(f'printf(" %zu %zu %zu", offsetof({tag}, m{i}), sizeof({name}), _Alignof({name}));')
        body.append('printf("\\n");')
    return "\n".join(lines + ["int main(void) {"] + body + ["return 0; }"])


def layout(member, size, align):
    if member in SCALARS:
        return SCALARS[member]
    if "[" in member:
        return f"Layout::Bytes {{ size: {size}, align: {align} }}"
    return f"Layout::{KINDS[member].capitalize()}({member[1:]})"


def main():
    version = subprocess.run(["gcc", "--version"], capture_output=True, text=True, check=True).stdout.splitlines()[0]
    with tempfile.TemporaryDirectory() as folder:
        source, binary = Path(folder, "rows.c"), Path(folder, "rows")
        source.write_text(program())
        subprocess.run(["gcc", "-std=gnu11", "-o", binary, source], check=True)
        found = subprocess.run([binary], capture_output=True, text=True, check=True).stdout.splitlines()
    rows = []
    for row, line in zip(ROWS, found, strict=True):
        kind, _, members = row.partition(" ")
        members = members.split(",") if members else []
        size, align, *rest = map(int, line.split())
        offsets, sizes, aligns = rest[0::3], rest[1::3], rest[2::3]
        layouts = ", ".join(layout(*m) for m in zip(members, sizes, aligns))
        rows.append(
            f"Row {{ kind: Kind::{kind.capitalize()}, members: &[{layouts}], size: {size}, align: {align}, "
            f"offsets: &[{', '.join(map(str, offsets))}] }},"
        )
    names = "\n".join(
        f"const {name}: Layout = Layout::Int(IntType::{variant});"
        for name, variant in [
            ("CHAR", "Char"), ("SCHAR", "SChar"), ("UCHAR", "UChar"), ("SHORT", "Short"), ("USHORT", "UShort"),
            ("INT", "Int"), ("UINT", "UInt"), ("LONG", "Long"), ("ULONG", "ULong"), ("LLONG", "LLong"),
            ("ULLONG", "ULLong"),
        ]
    )
    Path("crates/layouts/src/tests/gcc_rows.rt").write_text(
        f"//! Written by tools/gcc_layouts.py with {version}, x86-64.\n\n"
        "use crate::tests::Row;\nuse crate::{IntType, Kind, Layout};\n\n"
        f"{names}\n\n/// A row's number is that of the struct or union in the table.\n"
        f"pub const ROWS: [Row; {len(ROWS)}] = [\n" + "\n".join(rows) + "\n];\n"
    )


if __name__ == "__main__":
    sys.exit(main())
