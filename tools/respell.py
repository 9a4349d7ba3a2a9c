#!/usr/bin/env python3
"""Brings the repository's own definitions and lemmas to the kit's spelling: words in snake case, types and facts in camel case.

Run once, at the top of the repository, right after the kit's port.py. It goes by text:

- Names are those that specs/ and the lemma files of proofs/ declare (what a function's own proof declares stays). `byteAt` and `byte-at` become
  `byte_at`. Where two names would fall together, the definition has the plain name and the lemma gets `_lem`.
- In .antt and .rt files each such word is turned outside strings; in comments words in camel case everywhere, words with a dash between backquotes.
- In must-fail edits the lines old and new are turned, to the kit's spelling of its own words too (KIT); a projection is written tight.
- The crate json, a name that the kit has, becomes json_tree: its folder, crates.txt, paths.
- In the pages (README.md, docs/*.md) words between backquotes.

Functions of src/, exported C names, strings, inputs and outputs keep their names. It prints what it could not tell.
"""

import collections
import os
import re
import subprocess
import sys
from pathlib import Path

ROOT = Path(__file__).resolve().parent.parent

# two definitions that are types, and so begin with a capital; what the kit's port.py let fall together, told apart by the module that declares the lemma
TYPES = {"puts": "PutsOf", "breaks": "Breaks"}
TOGETHER = {
    ("Rattle.capi.proofs.Laws", "body_of"),
    ("Rattle.text.proofs.Pieces", "byte_at"),
    ("Rattle.message.proofs.Checked", "list_of"),
    ("Rattle.table.proofs.Slots", "read_of"),
    ("Rattle.slots.proofs.Keys", "slot_of"),
}
# the kit's words in must-fail edits, as port.py turns them in files
KIT = {"getD": "get_or"}

DECLARED = re.compile(r"^(?:(?:abbrev|unfoldable|pub)\s+)*([^\s:{}()\[\].,;\"]+)\s*(?::|\{|\()")
TYPE = re.compile(r"^\s*(?:(?:abbrev|unfoldable|pub)\s+)*(?:record|data)\s+([^\s:{}()]+)")
FIELD = re.compile(r"^\s+pub\s+([^\s:{}()]+)\s*:")
WORD = re.compile(r"[^\s(){}\[\],;.:\"`]+")
CAMEL = re.compile(r"(?<=[a-z0-9])([A-Z])")
USE = re.compile(r"^(?:ghost )?(?:pub )?use ([\w.·'-]+)\.\{([^}]*)\}", re.M)


def files(*ends):
    out = subprocess.run(["git", "ls-files", "--cached", "--others", "--exclude-standard", "crates"], cwd=ROOT, capture_output=True, text=True, check=True).stdout
    return [ROOT / name for name in sorted(set(out.splitlines())) if name.endswith(ends) and (ROOT / name).is_file()]


def module(path):
    crate, *rest = path.relative_to(ROOT / "crates").with_suffix("").parts
    return ".".join(("Rattle", crate, *rest))


def of_function(path):
    """Whether a file is a function's own proof."""
    return path.name in ("Proof.antt", "Invariants.antt", "Answers.antt")


def declared():
    names = collections.defaultdict(set)
    for path in files(".antt"):
        if of_function(path):
            continue
        for line in path.read_text().splitlines():
            if line.startswith(("use ", "--", "pub use ")):
                continue
            for pattern in (TYPE, DECLARED, FIELD):
                found = pattern.match(line)
                if found:
                    names[found[1]].add(path)
                    break
    return names


def snake(name):
    if name[0].isupper():
        return name.replace("-", "_") if "-" in name else name
    return CAMEL.sub(lambda m: "_" + m[1].lower(), name).replace("-", "_")


def renamed(names):
    """From each name to its new one."""
    groups = collections.defaultdict(list)
    for name in names:
        groups[snake(name)].append(name)
    new = {}
    for plain, group in groups.items():
        # the camel one is the definition, one with a dash a lemma
        group.sort(key=lambda n: (bool(CAMEL.search(n)) and "-" not in n, "-" not in n), reverse=True)
        for place, name in enumerate(group):
            word = plain if place == 0 else plain + "_lem"
            if word != name:
                new[name] = word
    new.update(TYPES)
    taken = collections.Counter(new.values())
    for word, count in taken.items():
        if count > 1 or (word in names and word not in new):
            print("falls together:", word, [n for n in new if new[n] == word])
    return new


def code_words(text, new):
    return WORD.sub(lambda m: new.get(m[0], m[0]), text)


def comment_words(text, new):
    text = re.sub(r"`[^`]*`", lambda m: code_words(m[0], new), text)
    return WORD.sub(lambda m: new[m[0]] if m[0] in new and CAMEL.search(m[0]) else m[0], text)


ANTT = re.compile(r'"(?:\\.|[^"\\])*"|(?:(?<=\s)|^)--[^\n]*', re.M)
RUST = re.compile(r'b?"(?:\\.|[^"\\])*"|//[^\n]*|b?\'(?:\\.[^\']*|[^\'\\])\'')


def turned(text, new, apart):
    out, at = [], 0
    for m in apart.finditer(text):
        out.append(code_words(text[at : m.start()], new))
        word = m[0]
        out.append(comment_words(word, new) if word.startswith(("--", "//")) else word)
        at = m.end()
    out.append(code_words(text[at:], new))
    return "".join(out)


def tell_apart(path, text):
    """A lemma that has the name of a definition gets `_lem`, in its module and where it is imported from there."""
    here = module(path)
    for where, name in TOGETHER:
        from_lemma = here == where
        others = []
        for m in USE.finditer(text):
            if name in [w.strip().split(" ")[0] for w in m[2].split(",")]:
                if m[1] == where:
                    from_lemma = True
                else:
                    others.append(m[1])
        if not from_lemma:
            continue
        if others:
            print("both in one file:", path.relative_to(ROOT), name, others)
            continue
        text = turned(text, {name: name + "_lem"}, ANTT)
    return text


def edit(text, new):
    out = []
    for line in text.splitlines(keepends=True):
        head = re.match(r"(old|new): ", line)
        if head:
            body = line[head.end() :]
            body = re.sub(r"Rattle·(\w+)(?:·specs)?\.specs\.", r"Rattle.\1.specs.", body)
            body = re.sub(r"(?<=[\w)₀'])\s+\.(?=[a-z0-9])", ".", body)
            body = body.replace("⌜ ", "").replace(" ⌝", "")
            body = turned(body, {**KIT, **new}, ANTT)
            line = head[0] + body
        out.append(line)
    return "".join(out)


def crate_words(text):
    """The paths of crate json, which is json_tree now."""
    text = re.sub(r"\bRattle([.·])json\b(?=[.·])", r"Rattle\1json_tree", text)
    text = re.sub(r"(?<![\w:])json::", "json_tree::", text)
    text = re.sub(r"(?m)^(\s*(?:pub )?use )json\b", r"\1json_tree", text)
    return re.sub(r"(?<![\w/])json/(?=\w)", "json_tree/", text)


def rename_crate():
    subprocess.run(["git", "mv", "crates/json", "crates/json_tree"], cwd=ROOT, check=True)
    listed = ROOT / "crates.txt"
    listed.write_text(re.sub(r"\bjson\b(?!_)", "json_tree", listed.read_text()))


def pages():
    return [ROOT / "README.md", *sorted((ROOT / "docs").rglob("*.md"))]


def main():
    rename_crate()
    names = declared()
    new = renamed(names)
    # what port.py turned itself stands in edits and pages as it was
    said = Path("/tmp/port-said/upgrade.txt")
    earlier = {}
    if said.exists():
        for m in re.finditer(r"in snake case now: (.*?)\. Your other", said.read_text()):
            for name in m[1].split(", "):
                earlier[name] = new.get(snake(name), snake(name))
    changed = 0
    for path in files(".antt", ".rt", ".edit"):
        text = path.read_text()
        if path.suffix == ".edit":
            to = edit(text, {**earlier, **new})
        elif path.suffix == ".antt":
            to = turned(tell_apart(path, text), new, ANTT)
        else:
            to = turned(text, new, RUST)
        to = crate_words(to)
        if to != text:
            path.write_text(to)
            changed += 1
    for path in pages():
        text = path.read_text()
        camel = {n: w for n, w in {**earlier, **new}.items() if CAMEL.search(n) or "-" in n}
        to = re.sub(r"`[^`\n]*`", lambda m: code_words(m[0], camel), text)
        to = crate_words(to).replace("`json`", "`json_tree`").replace("| json |", "| json_tree |")
        if to != text:
            path.write_text(to)
            changed += 1
    print(f"{len(new)} names, {changed} files")
    return 0


if __name__ == "__main__":
    sys.exit(main())
