#!/usr/bin/env python3
"""Counts the places in src/ that an older form of the language left, for docs/DESIGN-PASS.md.

    python3 tools/places.py [--list] [FOLDER]      FOLDER holds crates/; by default the repository that this file lies in

A line for each count: its letter in docs/DESIGN-PASS.md, what is counted, how many. --list names each place too. It goes by the text and reads no
clause's meaning, so it finds candidates: the page says of each what became of it."""
import os
import re
import sys

LOOP = re.compile(r"^( *)(?:'\w+: )?while (.*) \{$")


def read(root):
    """Returns each source file's crate, name and text."""
    found = []
    for crate in sorted(os.listdir(f"{root}/crates")):
        folder = f"{root}/crates/{crate}/src"
        for name in sorted(os.listdir(folder)) if os.path.isdir(folder) else []:
            if name.endswith(".rt"):
                with open(f"{folder}/{name}", encoding="utf-8") as file:
                    found.append((crate, name, file.read()))
    return found


def functions(text):
    """Returns each function's head and body, line by line."""
    found, lines, i = [], text.split("\n"), 0
    while i < len(lines):
        head = re.match(r"^( *)(?:pub(?:\(crate\))? )?fn (\w+)", lines[i])
        if not head:
            i += 1
            continue
        close, j = head.group(1) + "}", i
        while lines[j] != close:
            j += 1
        start = next(k for k in range(i, j + 1) if lines[k].rstrip().endswith("{") and (lines[k].strip() == "{" or k == i or not re.search(r"(ensures|requires)", lines[k])))
        found.append((head.group(2), lines[i:start], lines[start + 1 : j]))
        i = j + 1
    return found


def enums(text):
    """Returns each enum's name and variants."""
    for name, body in re.findall(r"enum (\w+) \{\n(.*?)\n\}", text, re.S):
        yield name, [it.strip().rstrip(",") for it in re.sub(r"//.*", "", body).split("\n") if it.strip()]


def structs(text):
    """Returns each struct's name and fields."""
    for name, body in re.findall(r"struct (\w+)(?:<[^>]*>)? \{\n(.*?)\n\}", text, re.S):
        yield name, re.findall(r"(?:pub )?(\w+): ([^,\n]+)", re.sub(r"//.*", "", body))


def shape(lines):
    """Returns a body with its names, numbers and types taken away, to compare it with another."""
    text = re.sub(r"//.*", "", "\n".join(lines))
    text = re.sub(r"b'(?:[^'\\]|\\.)*'|b\"(?:[^\"\\]|\\.)*\"", "#", text)
    text = re.sub(r"\b(?!(?:if|else|while|for|in|match|let|mut|return|continue|break|as|fn|true|false)\b)[A-Za-z_]\w*(?:::\w+)*", "x", text)
    return re.sub(r"\s+", " ", re.sub(r"\b[0-9][0-9a-fx_]*\w*", "#", text))


def places(root):
    """Returns what is counted: a letter, words, and the places."""
    files = read(root)
    every = [(crate, name, it) for crate, name, text in files for it in functions(text)]
    of = {letter: [] for letter in ("1a", "1b", "1c", "1d", "2", "3", "4", "5", "6a", "6b", "7")}
    for crate, name, text in files:
        for enum, variants in enums(text):
            bare = [it for it in variants if "(" not in it]
            if len(bare) < len(variants) and (bare or any(it.startswith("Refused(") for it in variants)):
                of["1a"].append(f"{crate}::{enum}: {' | '.join(variants)}")
        for struct, fields in structs(text):
            for field, kind in fields:
                if kind == "bool" or (field in ("row", "answer") and len(fields) > 1):
                    of["1b"].append(f"{crate}::{struct}.{field}: {kind}")
                if re.match(r"^\[\w+; .*\]$", kind) and any(it in ("n", "len", "total") for it, _ in fields):
                    of["6a"].append(f"{crate}::{struct}.{field}: {kind}")
        of["1d"] += [f"{crate}::{it}" for it in re.findall(r"const (\w+): u8 = ", text)]
    for crate, name, (fn, head, body) in every:
        first = " ".join(it.strip() for it in head)
        if re.search(r"\) -> u8\b", first) and re.search(r"_row|row_|_rank|Rank|row\b|_number", first):
            of["1c"].append(f"{crate}::{fn}")
        if re.search(r"\b\w+: \[\w+(?:::\w+)*; \w+\],.*\bn: usize", first):
            of["6b"].append(f"{crate}::{fn}")
        if re.search(r"\b(named|json|event|raw|first): bool", first) and fn not in ("make",):
            of["7"].append(f"{crate}::{fn}")
        for k, line in enumerate(body):
            loop = LOOP.match(line)
            if not loop:
                continue
            end = next(j for j in range(k + 1, len(body)) if body[j] == loop.group(1) + "}")
            inside = "\n".join(body[k + 1 : end])
            names = re.findall(r"[a-z]\w*", loop.group(2))
            if any(re.search(rf"\b{it} (\+|-)= 1;", inside) for it in names):
                of["3"].append(f"{crate}::{fn}: while {loop.group(2)}")
        flat = re.sub(r"\s+", " ", " ".join(body)).strip()
        if re.match(r"^if (\w+) <=? (\w+) \{ \1 \} else \{ (\2|\w+::\w+) \}$", flat) or re.search(r"(\w+)\[i\] [!=]= (\w+)\[i\]", flat) or re.search(r"0x8000_0000_0000_0000|18446744073709551615 -|>> \(8 \*|wrapping_add_u32", flat):
            of["4"].append(f"{crate}::{fn}")
    shapes = {}
    for crate, name, (fn, head, body) in every:
        if len(body) >= 4:
            shapes.setdefault(shape(body), []).append(f"{crate}::{fn}")
    of["2"] = [", ".join(it) for it in shapes.values() if len(it) > 1]
    facts = {}
    for crate, name, (fn, head, body) in every:
        for it in set(re.findall(r"requires (?:\w+ )?\{ (.*) \}$", "\n".join(head), re.M)):
            facts.setdefault((crate, it), []).append(fn)
    of["5"] = [f"{crate}: {it}: {', '.join(fns)}" for (crate, it), fns in facts.items() if len(fns) > 2]
    return of


WORDS = {
    "1a": "enums with a bare variant, or one that refuses, beside values",
    "1b": "fields that say whether, or by which row, beside a value",
    "1c": "functions that answer a row as u8",
    "1d": "constants of u8 that stand for kinds",
    "2": "groups of functions whose bodies differ in names, types and numbers alone",
    "3": "while loops that count an index up or down by one",
    "4": "minima, comparisons, casts and byte orders written by hand",
    "5": "facts that three or more functions of a crate require",
    "6a": "arrays with their length in a field beside them",
    "6b": "functions that take an array and how much of it counts",
    "7": "functions that take a flag which says what to do",
}


def main(words):
    rest = [it for it in words if it != "--list"]
    root = rest[0] if rest else os.path.join(os.path.dirname(os.path.abspath(__file__)), "..")
    for letter, found in places(root).items():
        print(f"{letter}  {len(found):4}  {WORDS[letter]}")
        if "--list" in words:
            for it in found:
                print(f"            {it}")
    return 0


if __name__ == "__main__":
    sys.exit(main(sys.argv[1:]))
