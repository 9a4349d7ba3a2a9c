#!/usr/bin/env python3
"""Draws the tables of docs/PERFORMANCE.md as bars: docs/plots/SECTION.svg. `--check` writes nothing and exits 1 if a drawing is out of date.

A bar is the proved time over plain Rust's, so shorter is faster; the thin line is plain Rust, the dashed one the section's goal.
"""
import html
import pathlib
import re
import sys

ROOT = pathlib.Path(__file__).resolve().parent.parent
FIGURES = ROOT / "docs" / "PERFORMANCE.md"
PLOTS = ROOT / "docs" / "plots"

# the first column's title of a table, the drawing's name and title, and the ratio that is the goal
TABLES = [
    ("Digest of", "digest", "SHA-256", 1.0),
    ("65,536 bytes in pieces of", "digest-pieces", "SHA-256 of 65,536 bytes in pieces", 1.0),
    ("Text", "rows-1-to-4", "Rows 1 to 4 of a text", 1.5),
    ("Message", "message-row", "Rows 1 to 8 of a message", 1.5),
    ("Message", "message-read", "A message read", 1.5),
    ("Event", "event-text", "An event's text", 1.5),
    ("Is the table sound?", "table-sound", "Is a table of 64 slots sound?", 1.2),
    ("An offer", "offers", "An offer to a table of 64 slots", 1.5),
    ("Table, filters, slots answered", "req-answer", "A REQ's answer", 1.2),
    ("1,024 slots", "large", "Tables of 1,024 slots", 1.2),
    ("Lines", "program", "The program", 1.3),
]

BARS, VALUE, LINE, TOP, LETTER = 400, 60, 22, 64, 7.8


def cells(line):
    return [cell.strip().replace("`", "") for cell in line.strip().strip("|").split("|")]


def tables(text):
    """The tables that have a ratio, in their order: the first column's title, and each row's name and ratio."""
    for block in re.findall(r"(?:^\|.*\n)+", text, re.M):
        lines = block.splitlines()
        head = cells(lines[0])
        if "ratio" not in head or head[0] == "Text" and "before, ns" in head:
            continue
        at = head.index("ratio")
        names = range(next(i for i, cell in enumerate(head) if cell.startswith("proved")))
        yield head[0], [(", ".join(filter(None, (row[i] for i in names))), float(row[at])) for row in map(cells, lines[2:])]


def drawing(title, goal, rows):
    most = max(1.0, goal, *(ratio for _, ratio in rows))
    left = max(160, int(LETTER * max(len(name) for name, _ in rows)) + 24)
    width, height = left + BARS + VALUE, TOP + LINE * len(rows) + 12

    def x(ratio):
        return left + BARS * ratio / most

    out = [
        f'<svg xmlns="http://www.w3.org/2000/svg" width="{width}" height="{height}" viewBox="0 0 {width} {height}" font-family="sans-serif" font-size="13">',
        f"<title>{html.escape(title)}: proved time over plain Rust's</title>",
        f'<rect width="{width}" height="{height}" fill="#fff"/>',
        f'<text x="12" y="22" font-size="16" font-weight="bold">{html.escape(title)}</text>',
        f'<text x="12" y="42" fill="#555">proved time over plain Rust\'s; shorter is faster</text>',
        f'<text x="{x(1):.1f}" y="{TOP - 8}" text-anchor="middle" fill="#555">1</text>',
        f'<text x="{x(goal):.1f}" y="{TOP - 24}" text-anchor="middle" fill="#a40">goal {goal:g}</text>',
    ]
    for i, (name, ratio) in enumerate(rows):
        y = TOP + LINE * i
        colour = "#a40" if ratio > goal else "#468"
        out.append(f'<text x="{left - 10}" y="{y + 15}" text-anchor="end">{html.escape(name)}</text>')
        out.append(f'<rect x="{left}" y="{y + 3}" width="{x(ratio) - left:.1f}" height="{LINE - 6}" fill="{colour}"/>')
        out.append(f'<text x="{x(ratio) + 6:.1f}" y="{y + 15}" stroke="#fff" stroke-width="3" paint-order="stroke">{ratio:.2f}</text>')
    bottom = height - 8
    out.append(f'<line x1="{x(1):.1f}" x2="{x(1):.1f}" y1="{TOP - 4}" y2="{bottom}" stroke="#000" stroke-width="0.7"/>')
    out.append(f'<line x1="{x(goal):.1f}" x2="{x(goal):.1f}" y1="{TOP - 18}" y2="{bottom}" stroke="#a40" stroke-dasharray="4 3"/>')
    return "\n".join(out) + "\n</svg>\n"


def main():
    found = list(tables(FIGURES.read_text(encoding="utf-8")))
    if [first for first, _ in found] != [first for first, *_ in TABLES]:
        print("the tables of docs/PERFORMANCE.md are not those that are drawn:", [first for first, _ in found])
        return 1
    late = []
    PLOTS.mkdir(exist_ok=True)
    for (_, rows), (_, name, title, goal) in zip(found, TABLES):
        path, text = PLOTS / (name + ".svg"), drawing(title, goal, rows)
        if not path.exists() or path.read_text(encoding="utf-8") != text:
            late.append(path.name)
            if "--check" not in sys.argv[1:]:
                path.write_text(text, encoding="utf-8")
    if "--check" in sys.argv[1:] and late:
        print("out of date, run bench/plots.py:", *late)
        return 1
    print(f"{len(found)} drawings, {len(late)} changed")
    return 0


if __name__ == "__main__":
    sys.exit(main())
