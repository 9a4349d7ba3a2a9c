#!/usr/bin/env python3
"""Respells what tools/respell.py did not find: constructors, fields and laws that are declared inside a module or a record without `pub`.

The names stand in tools/respell_rest.txt. Run once, at the top, after tools/respell.py and the proofs in today's form. It goes by text, as that does;
in a function's own proof the steps of the code (`c.STEP`) and the variables of a loop (`l.NAME`) keep their names, which the source gives them.
"""

import re
import sys

from respell import ANTT, CAMEL, ROOT, RUST, comment_words, files, pages

WORD = re.compile(r"[^\s(){}\[\],;:\"`]+")
# what a proof of a function calls its steps and variables
STEPS = {"c", "w", "l", "g"}


def read():
    first, then = (ROOT / "tools" / "respell_rest.txt").read_text().split("----\n")
    pairs = [dict(line.split() for line in part.splitlines() if not line.startswith("#")) for part in (first, then)]
    return pairs[0], pairs[1]


def path_words(word, new, of_function):
    parts = word.split(".")
    kept = 1 if of_function and parts[0] in STEPS else -1
    return ".".join(part if place == kept else new.get(part, part) for place, part in enumerate(parts))


def turned(text, new, apart, of_function=False):
    out, at = [], 0
    code = lambda part: WORD.sub(lambda m: path_words(m[0], new, of_function), part)
    for m in apart.finditer(text):
        out.append(code(text[at : m.start()]))
        out.append(comment_words(m[0], new) if m[0].startswith(("--", "//")) else m[0])
        at = m.end()
    out.append(code(text[at:]))
    return "".join(out)


def edit(text, new):
    lines = text.splitlines(keepends=True)
    return "".join(line[:5] + turned(line[5:], new, ANTT) if line.startswith(("old: ", "new: ")) else line for line in lines)


def main():
    first, then = read()
    camel = {name: word for name, word in then.items() if CAMEL.search(name)}
    changed = 0
    for path in files(".antt", ".rt", ".edit"):
        text = path.read_text()
        of_function = path.name in ("Answers.antt", "Invariants.antt", "Proof.antt")
        if path.suffix == ".antt":
            to = turned(turned(text, first, ANTT, of_function), then, ANTT, of_function)
        elif path.suffix == ".edit":
            to = edit(edit(text, first), then) if "specs/" in text else edit(text, camel)
        else:
            to = turned(text, camel, RUST)
        if to != text:
            path.write_text(to)
            changed += 1
    for path in pages():
        text = path.read_text()
        to = re.sub(r"`[^`\n]*`", lambda m: turned(turned(m[0], first, ANTT), then, ANTT), text)
        if to != text:
            path.write_text(to)
            changed += 1
    print(f"{len(first) + len(then)} names, {changed} files")
    return 0


if __name__ == "__main__":
    sys.exit(main())
