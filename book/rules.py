"""docs/MAP.md: the rules of 01, each with the definitions, calls, claims and edits that its row names."""
import re

SPAN = re.compile(r"`([^`]+)`|([a-z]\w*)/([A-Z]\w*(?:/[A-Z]\w*)*)")


class Rule:
    def __init__(self, section, title):
        self.section, self.title = section, title
        self.cells, self.definitions, self.files, self.calls, self.crates, self.claims, self.edits = {}, [], [], [], [], [], []


def columns_of(header):
    keys = []
    for cell in header:
        text = cell.lower()
        keys.append("definition" if "defin" in text else "call" if "call" in text else "claim" if "theorem" in text or "claim" in text
                    else "edit" if "edit" in text or "fail" in text else "rule" if not keys else "other")
    return keys


def split_row(line):
    return [c.strip() for c in re.split(r"(?<!\\)\|", line.strip().strip("|"))]


class MapReader:
    """Reads the table of MAP.md. A name that is not found is printed as it stands, and told on standard error."""

    def __init__(self, audit, text):
        self.audit, self.repo, self.unknown = audit, audit.repo, []
        self.rules, self.titles = [], []
        self.by_name = {}
        for item in self.repo.items():
            self.by_name.setdefault(item.name, []).append(item)
        self.read(text)

    def read(self, text):
        header, section = None, ""
        for line in text.splitlines():
            if not line.startswith("|"):
                header = None
                continue
            cells = split_row(line)
            if header is None:
                header = columns_of(cells)
            elif not set(line) <= set("|- :"):
                section = self.row(section, dict(zip(header, cells)))

    def row(self, section, cells):
        title = cells.pop("rule", "")
        bold = re.match(r"\*\*(.+?)\*\*([:,]?)\s*(.*)", title)
        if bold:
            section, title = bold[1], bold[3] if bold[2] else f"{bold[1]} {bold[3]}".strip()
        if not any(cells.values()):
            return section
        rule = Rule(section, title)
        for key, text in cells.items():
            rule.cells[key] = self.edit_cell(rule, text) if key == "edit" else self.cell(rule, key, text)
        self.rules.append(rule)
        return section

    # ---- one cell: pieces (text, target) with target an item, a module, a crate, an edit or None

    def cell(self, rule, key, text):
        marks = list(SPAN.finditer(text))
        state = {"files": [], "named": [], "crate": None, "range": None, "fresh": True, "last": None}
        pieces, at = [], 0
        for place, mark in enumerate(marks):
            between = text[at:mark.start()]
            pieces += self.plain(rule, key, state, between)
            if mark[1]:
                after = text[mark.end():marks[place + 1].start()] if place + 1 < len(marks) else ""
                found = None
                if after.strip() == "in" and marks[place + 1][2]:
                    found = self.in_files(rule, key, state, mark[1], marks[place + 1:], text)
                pieces.append((mark[1], found or self.name(rule, key, state, mark[1], between), "code"))
            else:
                pieces.append((mark[0], self.file(rule, key, state, mark[2], mark[3], between), "file"))
            at = mark.end()
        pieces += self.plain(rule, key, state, text[at:])
        self.whole_files(rule, key, state)
        return pieces

    def plain(self, rule, key, state, text):
        """Text between names; after a file a comma may bring another file of the same crate."""
        out = []
        while state["files"] and state["fresh"]:
            match = re.match(r"(, )([A-Z]\w*(?:/[A-Z]\w*)*)\b", text)
            module = match and self.module(state["crate"], match[2])
            if not module:
                break
            state["files"].append(module)
            out += [(match[1], None, "text"), (match[2], module, "file")]
            text = text[match.end():]
        state["range"] = state["last"] if text.strip() in ("..", "to") else None
        if text.strip() not in ("", ","):
            state["fresh"] = False
        return out + ([(text, None, "text")] if text else [])

    def module(self, crate, name):
        return self.repo.modules.get((crate, "specs", name)) or self.repo.modules.get((crate, "proofs", name))

    def file(self, rule, key, state, crate, name, between):
        module = self.module(crate, name)
        if not module:
            self.miss(f"{crate}/{name}", rule)
            return None
        if not (state["files"] and between.strip() == "," and state["fresh"]):
            self.whole_files(rule, key, state)
            state["files"] = []
        state["files"].append(module)
        state["crate"], state["fresh"] = crate, True
        return module

    def whole_files(self, rule, key, state):
        for module in state["files"]:
            if module not in state["named"] and (key, module) not in rule.files:
                rule.files.append((key, module))

    def in_files(self, rule, key, state, name, marks, text):
        """`name` in crate/File, crate/File ..: each has one of that name."""
        found = []
        for place, mark in enumerate(marks):
            if not mark[2] or (place and text[marks[place - 1].end():mark.start()].strip() != ","):
                break
            module = self.module(mark[2], mark[3])
            item = module and self.in_module(module, name)
            if item:
                found.append(item)
                state["named"].append(module)
                self.take(rule, key, item)
        return found[0] if found else None

    def in_module(self, module, name):
        both = [self.repo.modules.get((module.crate, area, module.name)) for area in ("specs", "proofs")]
        for here in filter(None, both):
            for item in here.items:
                if item.name == name:
                    return item
        return None

    def name(self, rule, key, state, text, between):
        word = text.split(" .")[0]
        if key == "call":
            return self.call(rule, state, text)
        item = None
        for module in state["files"]:
            item = self.in_module(module, word) or self.field_in(module, word)
            if item:
                if item.module.name == module.name and module not in state["named"]:
                    state["named"].append(module)
                break
        item = item or (self.owner(word) if state["files"] else None) or self.alone(word)
        if item is None:
            if text not in self.repo.crates:
                self.miss(text, rule)
            return None
        for between_item in self.range(state, item):
            self.take(rule, key, between_item)
        state["last"] = item
        self.take(rule, key, item)
        return item

    def field_in(self, module, word):
        both = [self.repo.modules.get((module.crate, area, module.name)) for area in ("specs", "proofs")]
        return next((i for here in filter(None, both) for i in here.items for part, _ in i.parts if part == word), None)

    def alone(self, word):
        """A name with no file before it: the only one of its name, in specs, else in proofs, else a type or a field."""
        items = self.by_name.get(word, [])
        for area in ("specs", "proofs", "src"):
            some = [i for i in items if i.module.area == area and i.public]
            if len(some) == 1:
                return some[0]
        return self.owner(word)

    def owner(self, word):
        """The record of specs/ that alone has a field of this name."""
        owners = [o for o in self.audit.names.owners.get(word, []) if o.module.area == "specs"]
        return owners[0] if len(owners) == 1 else None

    def range(self, state, item):
        first = state["range"]
        if not first or first.module is not item.module:
            return []
        items = item.module.items
        return items[items.index(first) + 1:items.index(item)]

    def take(self, rule, key, item):
        where = rule.claims if key == "claim" else rule.definitions
        if item.kind == "fn":
            where = rule.calls
        if item not in where:
            where.append(item)

    def call(self, rule, state, text):
        if text in self.repo.crates:
            if text not in rule.crates:
                rule.crates.append(text)
            return text
        front, _, last = text.rpartition("::")
        kinds = ("fn", "struct", "enum")
        items = [i for i in self.repo.items("src") if i.kind in kinds and i.name.rpartition("::")[2] == last]
        if front in self.repo.crates:
            state["crate"] = front
            found = [i for i in items if i.crate == front]
        elif front:
            found = [i for i in items if i.name == text or i.module.name == front]
        else:
            found = [i for i in items if i.crate == state["crate"]] or items
        public = [i for i in found if i in self.audit.calls]
        found = public or found
        if not found:
            self.miss(text, rule)
            return None
        item = found[0]
        if len(found) == 1 or item.crate == state["crate"]:
            state["crate"] = item.crate
            if item in self.audit.calls and item not in rule.calls:
                rule.calls.append(item)
            return item
        self.miss(text, rule)
        return None

    def edit_cell(self, rule, text):
        """Edits as `crate/name`, or names behind the name of their crate."""
        crate, pieces = None, []
        for match in re.finditer(r"`[^`]+`|\w+(?:/\w+)?|[^\w`]+|`", text):
            token = match[0].strip("`")
            front, _, name = token.removesuffix(".edit").rpartition("/")
            edit = None
            if token in self.repo.crates:
                crate = token
            elif "/" in token or match[0].startswith("`"):
                same = [e for e in self.repo.edits if e.name == name]
                found = [e for e in same if e.crate == (front or crate)] or same
                edit = found[0] if len(found) == 1 else None
                if edit:
                    rule.edits += [] if edit in rule.edits else [edit]
                else:
                    self.miss(token, rule)
            pieces.append((token, edit, "code" if match[0].startswith("`") else "text"))
        return pieces

    def miss(self, name, rule):
        if name in self.audit.names.glossary.builtin:
            return
        self.unknown.append(f"{name} (rule: {re.sub('[*`]', '', rule.title)})")
