#!/usr/bin/env python3
"""Writes docs/audit.html, the audit book, from crates/*/specs, src, must-fail and docs/MAP.md.

    book/make.py            write it
    book/make.py --check    exit with 1 if docs/audit.html is not what would be written, or a link in it has no target

Names in MAP.md that are not found are told on standard error; they do not fail.
"""
import sys

sys.dont_write_bytecode = True

from audit import Audit  # noqa: E402
from edits import Placing  # noqa: E402
from glossary import Glossary  # noqa: E402
from link import Linker  # noqa: E402
from names import Names  # noqa: E402
from page import Page  # noqa: E402
from rules import MapReader  # noqa: E402
from faults import faults  # noqa: E402
from sources import Repository, find_root  # noqa: E402


def make(root):
    repo = Repository(root)
    glossary = Glossary(root / "book" / "glossary.txt")
    names = Names(repo, glossary)
    linker = Linker(names, glossary)
    audit = Audit(repo, names, linker)
    reader = MapReader(audit, (root / "docs" / "MAP.md").read_text(encoding="utf-8"))
    audit.sort(reader.rules)
    placing = Placing(audit)
    placing.place(reader.rules)
    intro, style, script = ((root / "book" / name).read_text(encoding="utf-8") for name in ("intro.html", "style.css", "page.js"))
    page = Page(audit, reader, placing).build(intro, style, script)
    for name in reader.unknown:
        print(f"MAP.md: not found: {name}", file=sys.stderr)
    for name in sorted(names.not_explained):
        print(f"glossary.txt: no entry: {name}", file=sys.stderr)
    return page


def main():
    root = find_root()
    target = root / "docs" / "audit.html"
    page = make(root)
    wrong = faults(page)
    for fault in wrong:
        print(f"audit.html: {fault}", file=sys.stderr)
    if "--check" in sys.argv[1:]:
        if not target.exists() or target.read_text(encoding="utf-8") != page:
            print("docs/audit.html is out of date: run book/make.py", file=sys.stderr)
            return 1
        return 1 if wrong else 0
    target.write_text(page, encoding="utf-8")
    return 1 if wrong else 0


if __name__ == "__main__":
    sys.exit(main())
