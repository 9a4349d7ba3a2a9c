"""The page: chapters of the audit book, with style and script inline."""
from blocks import Blocks, first_sentence, plural, slug
from link import attribute, escape


class Page(Blocks):
    """The chapters in their order."""

    # ---- chapters

    def rules(self):
        section = None
        for rule in self.reader.rules:
            if rule.section != section:
                section = rule.section
                if section:
                    self.put(f"<h3 class=part>{escape(section)}</h3>")
            self.rule(rule)

    def rule(self, rule):
        self.put(f"<section class=rule><h3 id={attribute(rule.anchor)}>{self.prose(rule.title)}</h3>")
        self.row("Definition", rule.cells.get("definition", []))
        self.each(rule.definitions, self.definition)
        self.file_names(rule, "definition")
        self.row("Promised by", rule.cells.get("call", []))
        self.each(rule.calls, self.call)
        self.crate_calls(rule)
        self.row("Proved", rule.cells.get("claim", []))
        self.each([self.claim_of(i) for i in rule.claims], self.definition)
        self.file_names(rule, "claim")
        if rule.edits:
            self.put(f"<p class=m><b>Refused</b> {plural(len(rule.edits), 'edit')}</p>")
            for edit in rule.edits:
                if edit.anchor in self.edited:
                    link = f"<a href={attribute('#' + edit.anchor)}>{escape(edit.crate)}: {escape(edit.name)}</a>"
                    self.put(f"<p class=n>Also {link}, above.</p>")
                else:
                    self.edit(edit)
        self.put("</section>")

    def row(self, label, pieces):
        whole = "".join(p[0] for p in pieces).strip()
        if not whole:
            return
        if whole == "-":
            self.put(f"<p class=m><b>{label}</b> no call yet</p>")
            return
        out = ""
        for text, target, kind in pieces:
            if kind == "text":
                out += self.prose(text)
            elif kind == "file":
                out += self.file_link(target, text)
            elif isinstance(target, str):
                name = f"<code>{escape(text)}</code>"
                out += f"<a href=#calls.{target}>{name}</a>" if self.has_calls(target) else name
            elif target is None or getattr(target, "anchor", "") not in self.linker.shown:
                out += f"<code>{escape(text)}</code>"
            else:
                out += f"<code>{self.linker.link(target, text)}</code>"
        self.put(f"<p class=m><b>{label}</b> {out}</p>")

    def file_link(self, module, text):
        if module is None or module.anchor not in self.files:
            return escape(text)
        return f"<a href={attribute('#' + module.anchor)}>{escape(text)}</a>"

    def has_calls(self, crate):
        return any(c.crate == crate for c in self.audit.calls)

    def each(self, items, show):
        """In full where it is named first; after that a link."""
        again, self.before = [], None
        for item in items:
            if item.anchor in self.printed or item.anchor not in self.linker.shown:
                again.append(item)
            else:
                self.printed.add(item.anchor)
                show(item, False)
        again = [self.linker.link(i, i.name) for i in again if i.anchor in self.linker.shown]
        if again:
            self.put(f"<p class=n>Shown above: {', '.join(dict.fromkeys(again))}.</p>")

    def claim_of(self, law):
        """The claim that a law proves under its name, else the law itself."""
        return self.audit.claim_by_law.get(law.anchor, law)

    def file_names(self, rule, key):
        for where, module in rule.files:
            if where != key:
                continue
            items = [i for i in module.items if i.anchor in self.linker.shown]
            if items and not any(i in rule.claims for i in items):
                names = ", ".join(self.linker.link(i, i.name) for i in items)
                self.put(f"<p class=n>{self.file_link(module, module.crate + '/' + module.name)}: {names}.</p>")

    def crate_calls(self, rule):
        for crate in rule.crates:
            calls = [c for c in self.audit.calls if c.crate == crate and c not in rule.calls]
            if calls:
                self.put(f"<p class=n>Calls of {escape(crate)}: {', '.join(self.linker.link(c, c.name) for c in calls)}.</p>")

    def sections(self, crate):
        """What the book has of a crate: declared types, then files of specs/ in the order of Lib, then laws of proofs/."""
        types = [i for i in self.repo.items("src") if i.crate == crate and i.kind in ("enum", "struct")]
        proofs = [m for (c, a, _), m in self.repo.modules.items() if c == crate and a == "proofs"]
        listed = [(None, types)] + [(m, m.items) for m in self.repo.specs_of(crate) + proofs]
        return [(m, items) for m, items in listed if any(self.audit.group(i) for i in items)]

    def size(self, item):
        return len(item.statement()) if self.audit.is_law(item) else item.size()

    def title(self, crate, module):
        if module is None:
            return f"{crate}: declared types"
        return f"{crate}/{module.name}" if module.area == "specs" else f"{crate}/proofs/{module.name}"

    def section_anchor(self, crate, module):
        return module.anchor if module else f"types.{crate}"

    def file_chapter(self, groups):
        """The items of some groups, crate by crate in the order of crates.txt."""
        for crate in self.repo.crates:
            shown = [(m, [i for i in items if self.audit.group(i) in groups]) for m, items in self.sections(crate)]
            shown = [(m, items) for m, items in shown if items]
            if shown:
                self.put(f"<h3 class=part>{escape(crate)}</h3>")
            for module, items in shown:
                self.one_file(crate, module, items)

    def one_file(self, crate, module, items):
        anchor = self.section_anchor(crate, module)
        mark = "" if anchor in self.printed else f" id={attribute(anchor)}"
        self.printed.add(anchor)
        lines = sum(self.size(i) for i in items)
        self.put(f"<section class=file><h3{mark}>{escape(self.title(crate, module))} <small>{plural(lines, 'line')}</small></h3>")
        if module:
            self.put(self.comment(module.header, self.audit.names.scope(module)))
        for item in items:
            self.definition(item, True, True)
        self.put("</section>")

    def calls(self):
        for crate in self.repo.crates:
            calls = [c for c in self.audit.calls if c.crate == crate]
            if calls:
                number = plural(len(calls), "call")
                self.put(f"<section class=file><h3 id=calls.{crate}>{escape(crate)} <small>{number}</small></h3>")
                header = self.repo.modules[crate, "src", "lib"].header
                self.put(self.comment(header, {}))
                for call in calls:
                    self.call(call, True)
                self.put("</section>")

    def order_table(self):
        rows, total = [], [0, 0, 0]
        for crate in self.repo.crates:
            for module, items in self.sections(crate):
                counts = [sum(self.size(i) for i in items if self.audit.group(i) == g) for g in ("believed", "beside", "claims")]
                total = [a + b for a, b in zip(total, counts)]
                cells = "".join(f"<td>{c or ''}</td>" for c in counts)
                what = self.prose(first_sentence(module.header)) if module else ""
                link = f"<a href={attribute('#' + self.section_anchor(crate, module))}>{escape(self.title(crate, module))}</a>"
                rows.append(f"<tr><td>{link} <span>{what}</span></td>{cells}</tr>")
        head = "<tr><th>file</th><th>to believe</th><th>for claims</th><th>claims</th></tr>"
        self.put(f"<table class=order><thead>{head}</thead><tbody>{''.join(rows)}</tbody><tfoot><tr><td>lines in all</td>"
                 + "".join(f"<td>{c:,}</td>" for c in total) + "</tr></tfoot></table>")

    def left_out(self):
        for crate in self.repo.crates:
            rows = []
            for module in self.repo.specs_of(crate):
                items = [i for i in module.items if not self.audit.group(i)]
                if items:
                    some = "all" if len(items) == len(module.items) else f"{len(items)} of {len(module.items)}"
                    what = self.prose(first_sentence(module.header))
                    rows.append(f"<li>{escape(crate)}/{escape(module.name)}, {some} names: {what}</li>")
            for row in rows:
                self.put(row)

    def glossary_list(self):
        self.put("<dl class=g>")
        for anchor, names, meaning in self.glossary.entries:
            if anchor is None:
                self.put(f"</dl><h4>{escape(names)}</h4><dl class=g>")
            else:
                shown = ", ".join(escape(n.strip("_").replace("_", " ") if n != "_" else n) for n in names)
                self.put(f"<dt id=lib.{anchor}><code>{shown}</code></dt><dd>{escape(meaning)}</dd>")
        self.put("</dl>")

    def field_list(self):
        self.put("<dl class=g>")
        for name in sorted(self.linker.field_links):
            owners = [o for o in self.audit.names.owners[name] if o.anchor in self.linker.shown]
            text = ", ".join(f"{self.linker.link(o, o.name)} in {escape(o.place)}" for o in owners) or "of a record that is not here"
            self.put(f"<dt id={attribute('field.' + name)}><code>.{escape(name)}</code></dt><dd>{text}</dd>")
        self.put("</dl>")

    def index(self):
        """Every name in the book with its file, for paper."""
        items = [self.audit.believed, self.audit.claims, self.audit.beside, {c.anchor: c for c in self.audit.calls}]
        rows = sorted((i.name.strip("_").lower(), i.name, i.place, i) for group in items for i in group.values())
        names = "".join(f"<li>{self.linker.link(i, name)} {escape(place)}</li>" for _, name, place, i in rows)
        self.put(f"<ul class=index>{names}</ul>")

    def contents(self):
        section = None
        for rule in self.reader.rules:
            if rule.section != section:
                if section is not None:
                    self.put("</ul>")
                section = rule.section
                self.put(f"<p class=toc>{escape(section) or 'Before all'}</p><ul class=toc>")
            self.put(f"<li><a href={attribute('#' + rule.anchor)}>{self.prose(rule.title)}</a></li>")
        self.put("</ul>")

    def name_rules(self):
        seen = {}
        for rule in self.reader.rules:
            base = "rule." + (slug(rule.title) or "rule")
            seen[base] = seen.get(base, 0) + 1
            rule.anchor = base if seen[base] == 1 else f"{base}.{seen[base]}"

    def count(self, group):
        items = list(getattr(self.audit, group).values())
        return len(items), sum(self.size(i) for i in items)

    # ---- the whole

    def chapter(self, anchor, title, text=""):
        self.put(f"<h2 id={anchor}>{title}</h2>" + (f"<p>{text}</p>" if text else ""))

    def build(self, intro, style, script):
        self.name_rules()
        self.put(HEAD.replace("STYLE", style.strip()))
        self.front(intro)
        self.rule_chapter()
        self.file_chapters()
        self.back()
        self.put(FOOT.replace("SCRIPT", script.strip()))
        return "\n".join(self.out)

    def front(self, intro):
        sizes = {}
        for group in ("believed", "beside", "claims"):
            number, lines = self.count(group)
            sizes[group], sizes[group + "_lines"] = f"{number:,}", f"{lines:,}"
        self.put(intro.format(rules=len(self.reader.rules), calls=len(self.audit.calls), edits=len(self.repo.edits), **sizes).strip())
        self.chapter("order", "Reading order", "Files in the order in which they build on each other. Lines are counted without comments, "
                     "imports and proofs. To believe: what promises cite. For claims: what only claims cite. Claims: what is proved.")
        self.order_table()

    def rule_chapter(self):
        self.chapter("rules", "Rule by rule", "In the order of 01. A definition, a promise or a claim is shown in full where it is named first.")
        self.put("<details class=toc open><summary>The rules</summary>")
        self.contents()
        self.put("</details>")
        self.rules()
        if self.placing.homeless:
            self.put("<h3 class=part>Edits that belong to no rule alone</h3>")
            for edit in self.placing.homeless:
                self.edit(edit)

    def file_chapters(self):
        believed, beside, claims = (self.count(g) for g in ("believed", "beside", "claims"))
        self.chapter("believe", "Definitions to be believed", f"{plural(believed[0], 'definition')}, {plural(believed[1], 'line')}: all that the "
                     "promises of public calls cite, directly or through other definitions.")
        self.file_chapter(("believed",))
        self.chapter("calls", "Public calls", "Each call with its promise. None asks its caller to show anything first.")
        self.calls()
        self.chapter("claims", "Claims, and what only they cite", f"{plural(claims[0], 'claim')} in {plural(claims[1], 'line')}, each proved. To read "
                     f"them, {plural(beside[0], 'definition')} more ({plural(beside[1], 'line')}) that no promise cites; a claim is worth what these say.")
        self.file_chapter(("claims", "beside"))

    def back(self):
        self.chapter("skip", "Need not be read", "Proofs: all of proofs/. The bodies of functions in src/. And these names of specs/, which no promise of a "
                     "public call and no claim of the book cites: steps that private functions promise each other, and computed cases.")
        self.put("<ul class=n>")
        self.left_out()
        self.put("</ul>")
        self.chapter("glossary", "Glossary", "Names of the kit's libraries and of the language.")
        self.glossary_list()
        if self.linker.field_links:
            self.chapter("fields", "Fields", "Names of fields that several records have, where the text alone does not say which is meant.")
            self.field_list()
        self.chapter("names", "Index of names")
        self.index()


HEAD = """<!doctype html><html lang=en><head><meta charset=utf-8><meta name=viewport content="width=device-width,initial-scale=1">
<meta name=color-scheme content="light dark"><title>Plavdrosa: the audit book</title><style>
STYLE
</style></head><body>
<header><a href=#top>Audit book</a><input id=find type=search placeholder="find a name" autocomplete=off aria-label="find a name">
<ul id=found hidden></ul></header><main id=top>"""
FOOT = """</main><aside id=sheet hidden><p><button id=back>back</button><a id=there>to its place</a><button id=close>close</button></p>
<div id=text></div></aside>
<script>
SCRIPT
</script></body></html>
"""
