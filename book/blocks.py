"""Pieces of the page: text, definitions, calls and edits as HTML."""
import re

from audit import blocks_of
from link import attribute, escape

LABELS = {"believed": "definition", "beside": "definition, for claims", "claims": "claim"}


def slug(text):
    return "-".join(re.findall(r"[a-z0-9]+", text.lower()))[:60].strip("-")


def first_sentence(lines):
    text = " ".join(lines)
    match = re.match(r"(.*?[^.][.])(?:\s|$)", text)
    return match[1] if match else text


def bare(lines):
    """Source lines without the words that only say how the prover opens a definition."""
    return [re.sub(r"^(\s*)(?:(?:abbrev|unfoldable|pub) )+", r"\1", line) for line in lines]


def plural(number, noun):
    return f"{number:,} {noun}" + ("" if number == 1 else "s")


class Blocks:
    """Writes single items into the page."""

    def __init__(self, audit, reader, placing):
        self.audit, self.reader, self.placing = audit, reader, placing
        self.repo, self.linker, self.glossary = audit.repo, audit.linker, audit.linker.glossary
        self.out, self.printed, self.edited, self.before = [], set(), set(), None
        self.linker.shown = set(audit.believed) | set(audit.claims) | set(audit.beside) | {c.anchor for c in audit.calls}
        self.files = set()
        for anchor in list(audit.believed) + list(audit.claims) + list(audit.beside):
            item = audit.believed.get(anchor) or audit.claims.get(anchor) or audit.beside.get(anchor)
            if item.module.area != "src":
                self.files.add(item.module.anchor)

    def put(self, text):
        self.out.append(text)

    # ---- pieces of text

    def prose(self, text, scope=None):
        """Text with `code` and **bold**; a name in code is a link where the scope has it."""
        out = ""
        for part in re.split(r"(`[^`]+`)", text):
            if part.startswith("`") and len(part) > 2:
                target = self.audit.names.lookup(scope, part[1:-1]) if scope else None
                inner = self.linker.link(target, part[1:-1]) if target is not None else escape(part[1:-1])
                out += f"<code>{inner}</code>"
            else:
                out += re.sub(r"\*\*(.+?)\*\*", r"<b>\1</b>", escape(part))
        return out

    def comment(self, lines, scope, wide=94):
        """A comment as paragraphs: a line that is not full ends a line of the text."""
        out = ""
        for at, line in enumerate(lines):
            text = re.sub(r"^-{4,}\s*", "", line)
            out += self.prose(text, scope)
            if at + 1 < len(lines):
                out += " " if len(line) > wide else "<br>"
        return f"<p class=c>{out}</p>" if out else ""

    def lines(self, rendered):
        out = ""
        for line in rendered:
            depth = len(line) - len(line.lstrip(" "))
            css = f" class=k{min(depth, 12)}" if depth else ""
            out += f"<div{css}>{line or '&nbsp;'}</div>"
        return f"<div class=s>{out}</div>"

    def given(self, item):
        """What the block around an item takes, as its first line."""
        heads = [head for head in blocks_of(item) if head]
        if not heads:
            return ""
        return "<div class='s n'><div>for any " + self.linker.render(self.linker.walk(item, [" ".join(heads)]))[0] + "</div></div>"

    # ---- items

    def definition(self, item, at_home, heading=False):
        """One item; at its own place it has its anchor."""
        group = self.audit.group(item)
        scope = self.audit.names.scope(item.module)
        comment = list(item.comment)
        title = ""
        if heading and comment and comment[0].startswith("----"):
            cut = 1
            while cut < len(comment) and len(comment[cut - 1]) > 104:
                cut += 1
            title = f"<h4>{self.prose(re.sub('^-+ *', '', ' '.join(comment[:cut])), scope)}</h4>"
            comment = comment[cut:]
        elif comment and comment[0].startswith("----") and '"' not in comment[0]:
            comment = comment[1:]
        if item.kind in ("enum", "struct"):
            code = [self.linker.rust(item.module, line, item.name)[0] for line in item.code]
        elif self.audit.is_law(item):
            code = self.linker.code(item, bare(item.statement()))
        else:
            code = self.linker.code(item, bare(item.code))
        anchor = f" id={attribute(item.anchor)}" if at_home else ""
        place = "" if at_home else self.place(item)
        joined = " j" if not at_home and not place else ""
        inside = place + self.comment(comment, scope) + self.given(item) + self.lines(code) + self.below(item, group, at_home)
        self.put(f"{title}<div class={attribute('d ' + group + joined)}{anchor}>{inside}</div>")

    def place(self, item):
        """The file of an item, unless the item before it in the same list has it too."""
        label = LABELS.get(self.audit.group(item), "")
        if self.audit.group(item) == "beside" and self.audit.states(item) and self.audit.partly(item):
            label = "statement"
        before, self.before = self.before, (label, item.place)
        if before == self.before:
            return ""
        return f"<p class=w><span>{label}</span> <a href={attribute('#' + item.anchor)}>{escape(item.place)}</a></p>"

    def below(self, item, group, at_home):
        out = []
        if self.audit.is_law(item):
            out.append(f"Proof: {escape(item.place)}.")
        elif group == "claims":
            law = self.audit.proof_of(item)
            out.append(f"Proved: <code>{escape(law.name)}</code> in {escape(law.place)}.")
        elif group == "beside" and self.audit.states(item) and self.audit.partly(item):
            law = self.audit.partly(item)
            out.append(f"Proved under premises: <code>{escape(law.name)}</code> in {escape(law.place)}.")
        if at_home:
            out += self.used_by(item)
        return f"<p class=n>{' '.join(out)}</p>" if out else ""

    def used_by(self, item):
        calls = self.audit.promised_by.get(item.anchor, []) if item.kind == "def" else []
        claims = self.audit.claimed_by.get(item.anchor, []) if self.audit.group(item) != "claims" else []
        out = []
        if calls:
            out.append("Promised by " + ", ".join(self.linker.link(c, f"{c.crate}::{c.name}") for c in calls) + ".")
        if claims and len(claims) <= 24:
            out.append("Claims: " + ", ".join(self.linker.link(c, c.name) for c in claims) + ".")
        elif claims:
            out.append(f"In {len(claims)} claims.")
        return out

    def call(self, item, at_home):
        code = []
        for line in item.signature:
            code.append(self.linker.rust(item.module, line, item.name.rpartition("::")[2])[0])
        code += ["    " + x for x in self.linker.render(self.linker.contract(item))]
        comment = [line for line in item.comment if not line.startswith("----")]
        anchor = f" id={attribute(item.anchor)}" if at_home else ""
        place = "" if at_home else f"<p class=w><span>promise</span> {self.linker.link(item, f'{item.crate}::{item.name}')}</p>"
        inside = place + self.comment(comment, self.audit.names.scope(item.module)) + self.lines(code)
        self.put(f"<div class='d promise'{anchor}>{inside}</div>")

    def edit(self, edit):
        self.edited.add(edit.anchor)
        swaps = ""
        for old, new in edit.swaps:
            swaps += f"<div class=old><del>{escape(old.strip())}</del></div><div class=new><ins>{escape(new.strip())}</ins></div>"
        where = ", ".join(self.linker.link(i, i.name) for i in self.placing.touched(edit, False))
        place = f"{escape(edit.name)} · {escape(edit.crate)}/{escape(edit.file)}{': ' if where else ''}{where}"
        self.put(f"<div class='d refused' id={attribute(edit.anchor)}><p class=w><span>refused</span> {place}</p>"
                 f"<p class=c>{self.prose(edit.sentence())}</p><div class=s>{swaps}</div></div>")
