"""Are the names in docs/MAP.md, and the files that README.md and docs/ link to, there? Exits 1 if not.

A cell of the map is a list of parts with `;` between. `crate/File, File: name, name` are definitions or theorems that stand in specs/ or
proofs/ of the crate, in one of these files (`Claims/Program` is one in a folder); `crate::call`, and a call without its crate behind it, are public items of its src/;
`crate/edit` in small letters is a must-fail edit. A part without a crate goes by the part before it.
"""

import re
import sys
from functools import cache
from pathlib import Path

ROOT = Path(__file__).resolve().parent.parent
NAME = re.compile(r"`([^`]+)`")
PLACE = re.compile(r"\b([a-z_0-9]+)/([A-Z]\w*(?:/[A-Z]\w*)*)")
FILE = re.compile(r"\b([A-Z]\w*(?:/[A-Z]\w*)*)\b")
EDIT = re.compile(r"([a-z_0-9]+)/([a-z_0-9]+)")
CALL = re.compile(r"([a-z_0-9]+)::([A-Za-z0-9_]+)")
LINK = re.compile(r"\]\(([^)#:]+)\)")
DEFINED = re.compile(r"^\s*(?:(?:unfoldable|abbrev|pub|data|record) )*([^\s:({]+)\s*(?:[:({]|$)", re.M)
COLUMNS = 5


@cache
def defined(crate, file):
    """What the files of that name define, or None where there is none."""
    paths = [ROOT / "crates" / crate / part / (file + ".antt") for part in ("specs", "proofs")]
    texts = [path.read_text() for path in paths if path.exists()]
    return set(DEFINED.findall("\n".join(texts))) if texts else None


@cache
def items(crate):
    """What the code of a crate has, private things too: the map says where it means these."""
    text = "\n".join(path.read_text() for path in (ROOT / "crates" / crate / "src").rglob("*.rt"))
    return set(re.findall(r"\b(?:fn|enum|struct|const) (\w+)", text))


def wrong_places(cell):
    """Definitions and theorems."""
    crate, files = None, []
    for part in cell.split(";"):
        outside = NAME.sub("``", part)
        places = PLACE.findall(outside)
        yield from ("%s/%s" % place for place in places if defined(*place) is None)
        crate = places[-1][0] if places else crate
        named = FILE.findall(PLACE.sub(r"\2", outside)) if ":" in outside or places else []
        files = [(crate, file) for file in named if crate and defined(crate, file) is not None] or files
        for name in NAME.findall(part):
            if files and not EDIT.fullmatch(name) and not any(name.split(" ")[0] in defined(*file) for file in files):
                yield "%s in %s" % (name, ", ".join("%s/%s" % file for file in files))


def wrong_calls(cell):
    crates = []
    for name in NAME.findall(cell):
        call = CALL.match(name)
        if call and (ROOT / "crates" / call.group(1)).is_dir():
            crates.append(call.group(1))
            if call.group(2) not in items(call.group(1)):
                yield name
        elif crates and not any(name.split("::")[-1] in items(crate) for crate in crates):
            yield name


def wrong_edits(cell):
    for name in NAME.findall(cell):
        crate, edit = EDIT.fullmatch(name).groups() if EDIT.fullmatch(name) else ("", name)
        if not (ROOT / "crates" / crate / "must-fail" / (edit + ".edit")).exists():
            yield "edit " + name


def wrong_rows(text):
    for number, line in enumerate(text.splitlines(), 1):
        if not line.startswith("|") or line.startswith("|--"):
            continue
        cells = [cell.strip() for cell in line.strip().strip("|").split("|")]
        if len(cells) != COLUMNS:
            yield number, "row of %d cells" % COLUMNS
        for cell, wrong in zip(cells[1:], (wrong_places, wrong_calls, wrong_places, wrong_edits)):
            yield from ((number, name) for name in wrong(cell))


def wrong_links(path):
    for number, line in enumerate(path.read_text().splitlines(), 1):
        for link in LINK.findall(line):
            if not (path.parent / link).exists():
                yield number, link


if __name__ == "__main__":
    found = [("docs/MAP.md", *wrong) for wrong in wrong_rows((ROOT / "docs" / "MAP.md").read_text())]
    for path in [ROOT / "README.md", *sorted((ROOT / "docs").glob("*.md"))]:
        found += [(path.relative_to(ROOT), *wrong) for wrong in wrong_links(path)]
    for path, number, name in found:
        print("%s:%d: there is no %s" % (path, number, name))
    sys.exit(1 if found else 0)
