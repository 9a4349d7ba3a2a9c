#!/usr/bin/env python3
"""Tells whether plavdrosa.h and the exported calls of crates capi_c and capi_relay_c agree: names, and the width and the kind of each argument;
and whether the limits of the header are those of crate wire.

Prints what differs and exits 1, or prints how many calls and limits agree and exits 0.
"""
import pathlib
import re
import sys

ROOT = pathlib.Path(__file__).resolve().parent.parent
HEADER = ROOT / "include" / "plavdrosa.h"
CRATES = ("capi_c", "capi_relay_c")
WIRE = ROOT / "crates" / "wire" / "src" / "lib.rt"

# a number of Rattle, and that of C
NUMBERS = {
    "u8": "uint8_t",
    "u16": "uint16_t",
    "u32": "uint32_t",
    "u64": "uint64_t",
    "i8": "int8_t",
    "i16": "int16_t",
    "i32": "int32_t",
    "i64": "int64_t",
    "usize": "size_t",
}

# a limit of the header, and the constant of crate wire
LIMITS = {
    "PLAVDROSA_MAX_MESSAGE": "MOST_MESSAGE",
    "PLAVDROSA_MAX_TEXT": "MOST_TEXT",
    "PLAVDROSA_MAX_CAPACITY": "MOST_SLOTS",
}

EXPORT = re.compile(r'#\[unsafe\(no_mangle\)\]\s*pub extern "C" fn (\w+)\s*\((.*?)\)\s*(?:->\s*([^{}]*?))?\s*(?=requires\b|ensures\b|\{)', re.S)
PROTOTYPE = re.compile(r"^(\w[\w ]*?)\s+(\w+)\s*\(([^()]*)\)\s*;", re.M)
DEFINE = re.compile(r"^#define (\w+) (\d+)$", re.M)
CONSTANT = re.compile(r"^pub const (\w+): usize = (\d+);$", re.M)


def number(name):
    """The C number of a Rattle one."""
    if name not in NUMBERS:
        raise ValueError(f"no C number for {name}")
    return NUMBERS[name]


def lowered(name, kind):
    """The C arguments (name, type) of a Rattle one: a slice is a pointer and a length."""
    m = re.fullmatch(r"&\s*(mut\s+)?(\[\s*(\w+)\s*\]|\w+)", kind)
    if m is None:
        return [(name, number(kind))]
    const = "" if m[1] else "const "
    if m[3]:
        return [(name, f"{const}{number(m[3])} *"), (name + "_len", "size_t")]
    return [(name, f"{const}{number(m[2])} *")]


def exports(text):
    """The calls that a crate exports: for each its answer and its C arguments."""
    text = re.sub(r"//[^\n]*", "", text)
    found = {}
    for name, arguments, answer in EXPORT.findall(text):
        row = []
        for argument in filter(None, (a.strip() for a in arguments.split(","))):
            n, _, kind = argument.partition(":")
            row += lowered(n.strip(), kind.strip())
        found[name] = (number(answer.strip()) if answer else "void", row)
    marked = len(re.findall(r"#\[unsafe\(no_mangle\)\]", text))
    if marked != len(found):
        raise ValueError(f"{marked} calls are marked, {len(found)} were understood")
    return found


def prototypes(text):
    """The calls that the header declares, in the same form."""
    text = re.sub(r"/\*.*?\*/", "", text, flags=re.S)
    text = re.sub(r"^[ \t]*#[^\n]*", "", text, flags=re.M)
    found = {}
    for answer, name, arguments in PROTOTYPE.findall(text):
        row = []
        for argument in filter(None, (" ".join(a.split()) for a in arguments.split(","))):
            if argument == "void":
                continue
            m = re.fullmatch(r"((?:const )?\w+) ?(\*?) ?(\w+)", argument)
            if m is None:
                raise ValueError(f"{name}: cannot read the argument '{argument}'")
            row.append((m[3], m[1] + (" *" if m[2] else "")))
        if name in found:
            raise ValueError(f"{name} is declared twice")
        found[name] = (answer, row)
    declared = len(re.findall(r"\)\s*;", text))
    if declared != len(found):
        raise ValueError(f"{declared} declarations, {len(found)} were understood")
    return found


def shown(call):
    answer, row = call
    return f"{answer} ({', '.join(f'{kind} {name}' for name, kind in row)})"


def wrong_limits(header, wire):
    """The limits that the header has otherwise than crate wire, or that one of them lacks."""
    defined, constants = dict(DEFINE.findall(header)), dict(CONSTANT.findall(wire))
    for name, constant in LIMITS.items():
        here, there = defined.get(name), constants.get(constant)
        if here is None or here != there:
            yield f"{name}: {here} in plavdrosa.h, {constant} of crate wire is {there}"


def main():
    wrong = []
    code = {}
    for crate in CRATES:
        for path in sorted((ROOT / "crates" / crate / "src").glob("*.rt")):
            for name, call in exports(path.read_text(encoding="utf-8")).items():
                if name in code:
                    wrong.append(f"{name}: exported twice")
                code[name] = call
    declared = HEADER.read_text(encoding="utf-8")
    header = prototypes(declared)
    for name in sorted(code.keys() | header.keys()):
        if name not in header:
            wrong.append(f"{name}: not in plavdrosa.h")
        elif name not in code:
            wrong.append(f"{name}: not exported")
        elif code[name] != header[name]:
            wrong.append(f"{name}: exported as {shown(code[name])}\n    declared as {shown(header[name])}")
    if not code:
        wrong.append("no call is exported")
    wrong += wrong_limits(declared, WIRE.read_text(encoding="utf-8"))
    for line in wrong:
        print(line)
    if wrong:
        return 1
    print(f"{len(code)} calls and {len(LIMITS)} limits agree")
    return 0


if __name__ == "__main__":
    try:
        sys.exit(main())
    except (OSError, ValueError) as error:
        print(error)
        sys.exit(1)
