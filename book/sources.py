"""The repository read into items: definitions and laws, declared types and functions, must-fail edits."""
import re
from pathlib import Path

HEAD = re.compile(r"^(?P<words>(?:(?:abbrev|unfoldable|pub)\s+)*)"
                  r"(?:(?P<kind>record|data)\s+(?P<type>\S+)(?=\s)|(?P<name>[^\s:(){}=]+)(?:\s+\{[^}]*\})*\s+:(?=\s|$))")
USE = re.compile(r"^(?P<words>(?:(?:ghost|pub|unfoldable|abbrev)\s+)*)use\s+(?P<path>[^\s{;]+?)"
                 r"(?:\.\{(?P<names>[^}]*)\}|\s+as\s+(?P<alias>\S+?))?;?$")
DECLARED = re.compile(r"^(?P<indent> *)(?P<pub>pub(?:\([a-z]+\))?\s+)?"
                      r"(?:(?P<type>enum|struct)\s+(?P<name>\w+)|(?:extern \"C\" )?fn\s+(?P<fn>\w+)|const\s+(?P<const>\w+))")


class Item:
    """A definition, a law, a declared type or a function, with the comment above it."""

    def __init__(self, module, kind, name, line):
        self.module, self.kind, self.name, self.line = module, kind, name, line
        self.comment, self.code, self.given, self.parts, self.public = [], [], [], [], False
        self.spans = []

    @property
    def crate(self):
        return self.module.crate

    @property
    def anchor(self):
        m = self.module
        if self.kind in ("enum", "struct"):
            return f"type.{m.crate}.{self.name}"
        if self.kind == "fn":
            return f"call.{m.crate}.{self.name.replace('::', '.')}"
        return f"{m.crate}.{'' if m.area == 'specs' else m.area + '.'}{m.name}.{self.name}"

    @property
    def place(self):
        m = self.module
        return f"{m.crate}/{m.area}/{m.name}" if m.area != "src" else f"{m.crate}/src/{m.name}.rt"

    def statement(self):
        """The lines of the type: what a law says, without its proof."""
        out = [self.code[0]]
        for line in self.code[1:]:
            if line.strip() and not line.startswith(" "):
                break
            out.append(line)
        return out

    def signature_text(self):
        """`name : type`, in one line."""
        return " ".join(line.strip() for line in self.statement()[self.head:])

    def has_line(self, number):
        return any(a <= number <= b for a, b in self.spans)

    def size(self):
        """Lines without comments and blank lines."""
        return sum(1 for line in self.code if line.strip() and not line.strip().startswith(("--", "//")))


class Module:
    def __init__(self, crate, area, name, path):
        self.crate, self.area, self.name, self.path = crate, area, name, path
        self.header, self.items, self.uses, self.mods = [], [], [], []
        self.text = path.read_text(encoding="utf-8")

    @property
    def anchor(self):
        return f"file.{self.crate}.{'' if self.area == 'specs' else self.area + '.'}{self.name}"


# ---- .antt


def indent_of(line):
    return len(line) - len(line.lstrip(" "))


class SpecReader:
    """Splits a file into items by its indentation: an item ends where the next declaration of its depth begins."""

    def __init__(self, module):
        self.module, self.lines = module, module.text.splitlines()
        self.at, self.blocks, self.comment, self.fixity = 0, [(0, [])], [], []
        self.last, self.section = None, []

    @property
    def depth(self):
        return self.blocks[-1][0]

    @property
    def given(self):
        """What the blocks around a line take, the outermost first."""
        return [line for _, lines in self.blocks for line in lines]

    def read(self):
        while self.at < len(self.lines) and self.lines[self.at].startswith("--"):
            self.module.header.append(comment_text(self.lines[self.at]))
            self.at += 1
        while self.at < len(self.lines):
            self.step()
        return self.module

    def step(self):
        line = self.lines[self.at]
        text = line.strip()
        if not text:
            if self.comment and self.comment[0].startswith("----"):
                self.section = self.comment
            self.comment = []
            self.at += 1
            return
        while indent_of(line) < self.depth:
            self.blocks.pop()
        if text.startswith("--"):
            self.comment.append(comment_text(text))
        elif USE.match(text):
            self.module.uses.append(USE.match(text).groupdict())
        elif re.match(r"(pub )?mod ", text):
            self.module.mods.append(text.split()[-1])
        elif re.match(r"module |(unfoldable |abbrev )?mutual$", text):
            self.enter(text)
        elif text.startswith("open "):
            self.blocks[-1][1].append(text)
        elif text.startswith("infix"):
            self.fixity.append(text)
        elif HEAD.match(text):
            self.item(HEAD.match(text))
            return
        else:
            self.equation(text)
        self.at += 1

    def enter(self, text):
        while text.startswith("module") and not text.endswith("where"):
            self.at += 1
            text += " " + self.lines[self.at].strip()
        # a comment above the block is its first item's
        after = self.at + 1
        while after < len(self.lines) and not self.lines[after].strip():
            after += 1
        inner = indent_of(self.lines[after]) if after < len(self.lines) else 0
        if inner > self.depth:
            self.blocks.append((inner, [text]))

    def equation(self, text):
        """An equation that stands apart from its signature, as in a mutual block."""
        if self.last:
            self.last.code.append(text)
            self.last.spans.append((self.at + 1, self.at + 1))
        self.comment = []

    def item(self, head):
        start = self.at
        item = Item(self.module, head["kind"] or "def", head["type"] or head["name"], start + 1)
        item.public = "pub" in head["words"].split()
        item.words = head["words"].split()
        item.comment, self.comment = self.section + self.comment, []
        self.section = []
        item.given = self.given
        end = self.end_of(start)
        body = [line[self.depth:] for line in self.lines[start:end]]
        while body and not body[-1].strip():
            body.pop()
        item.code, self.fixity = self.fixity + body, []
        item.head = len(item.code) - len(body)
        item.spans.append((start + 1, start + len(body)))
        item.parts = parts_of(item)
        self.module.items.append(item)
        self.last, self.at = item, end

    def end_of(self, start):
        at = start + 1
        while at < len(self.lines):
            line = self.lines[at]
            text = line.strip()
            if not text:
                rest = next((x for x in self.lines[at:] if x.strip()), "")
                if not rest or indent_of(rest) <= self.depth:
                    return at
            elif indent_of(line) > self.depth:
                pass
            elif indent_of(line) < self.depth:
                return at
            elif text.startswith("--"):
                code = next((x for x in self.lines[at:] if not x.strip().startswith("--")), "")
                if not code.strip() or indent_of(code) != self.depth or self.starts(code.strip()):
                    return at
            elif self.starts(text):
                return at
            at += 1
        return at

    def starts(self, text):
        return bool(HEAD.match(text) or re.match(r"module |(\w+ )?mutual$|open |infix|(\w+ )*use |(pub )?mod ", text))


def comment_text(line):
    return re.sub(r"^\s*--\s?", "", line.rstrip())


def parts_of(item):
    """The fields of a record, the constructors of data."""
    if item.kind not in ("record", "data"):
        return []
    depth = next((indent_of(x) for x in item.code[item.head + 1:] if x.startswith(" ") and not x.strip().startswith("--")), 0)
    out = []
    for line in item.code[item.head + 1:]:
        match = re.match(r"^ {%d}(?:pub )?([^\s:(){}][^:(){}]*?) :(?: |$)(.*)" % depth, line)
        if depth and match:
            out += [(name, match[2]) for name in match[1].split()]
    return out


# ---- .rt


class CodeReader:
    """Types and functions of a file, each with the comment above it; of a function the signature, the contract and the body."""

    def __init__(self, module):
        self.module, self.lines = module, module.text.splitlines()

    def read(self):
        for at, line in enumerate(self.lines):
            match = USE.match(line.strip())
            if match:
                self.module.uses.append(match.groupdict())
        while self.lines and len(self.module.header) < len(self.lines) and self.lines[len(self.module.header)].startswith("//"):
            self.module.header.append(self.lines[len(self.module.header)][2:].strip())
        owner = ""
        for at, line in enumerate(self.lines):
            impl = re.match(r"impl (\w+)", line)
            if impl:
                owner = impl[1] + "::"
            elif line.startswith("}"):
                owner = ""
            match = DECLARED.match(line)
            if match and len(match["indent"]) <= 4:
                self.item(at, match, owner if match["indent"] else "")
        return self.module

    def item(self, at, match, owner):
        kind = match["type"] or ("fn" if match["fn"] else "const")
        item = Item(self.module, kind, owner + (match["name"] or match["fn"] or match["const"]), at + 1)
        item.public = bool(match["pub"]) and match["pub"].strip() == "pub"
        item.comment = self.comment_above(at)
        end = self.end_of(at, kind)
        item.spans.append((at + 1, end))
        depth = len(match["indent"])
        lines = [x[depth:] for x in self.lines[at:end]]
        item.code, item.ensures, item.body = lines, [], []
        if kind == "fn":
            split_function(item, lines)
        elif kind != "const":
            item.parts = declared_parts(kind, lines)
        self.module.items.append(item)

    def comment_above(self, at):
        out = []
        at -= 1
        while at >= 0 and (self.lines[at].strip().startswith("//") or self.lines[at].strip().startswith("#[")):
            if self.lines[at].strip().startswith("//"):
                out.insert(0, self.lines[at].strip()[2:].strip())
            at -= 1
        return out

    def end_of(self, at, kind):
        depth = indent_of(self.lines[at])
        first = self.lines[at].rstrip()
        if first.endswith(";") or (kind == "const" and not first.endswith("[")):
            return at + 1
        for end in range(at + 1, len(self.lines)):
            if indent_of(self.lines[end]) == depth and self.lines[end].strip() in ("}", "];", "};"):
                return end + 1
        return at + 1


def split_function(item, lines):
    """Signature, then requires and ensures, then the body from the line that is only a brace."""
    open_at = next((i for i, x in enumerate(lines) if x == "{"), len(lines))
    clause = next((i for i, x in enumerate(lines[:open_at]) if re.match(r"\s+(requires|ensures|ghost)\b", x)), open_at)
    item.code = lines[:open_at]
    item.signature = lines[:clause]
    item.ensures = [x.strip() for x in lines[clause:open_at]]
    item.body = lines[open_at:]


def declared_parts(kind, lines):
    out = []
    for line in lines[1:-1]:
        match = re.match(r"\s+(?:pub(?:\([a-z]+\))?\s+)?(\w+)\s*(?::\s*(.*?),?$|\((.*)\)|,|\{|$)", line)
        if match and not line.strip().startswith("//"):
            out.append((match[1], match[2] or match[3] or ""))
    return out


# ---- must-fail


class Edit:
    """One edit that the prover must refuse: a sentence, a file, and what is put for what."""

    def __init__(self, crate, path):
        self.crate, self.name, self.file, self.says, self.swaps = crate, path.stem, "", [], []
        for line in path.read_text(encoding="utf-8").splitlines():
            if line.startswith("#"):
                self.says.append(line[1:].strip())
            elif line.startswith("file:"):
                self.file = line[5:].strip()
            elif line.startswith("old:"):
                self.swaps.append([line[4:].removeprefix(" "), ""])
            elif line.startswith("new:") and self.swaps:
                self.swaps[-1][1] = line[4:].removeprefix(" ")

    @property
    def anchor(self):
        return f"edit.{self.crate}.{self.name}"

    def sentence(self):
        return " ".join(self.says)


class Repository:
    """All of it, in the order of crates.txt; a crate's files in the order of its Lib."""

    def __init__(self, root):
        self.root, self.crates, self.modules, self.edits = root, [], {}, []
        for line in (root / "crates.txt").read_text(encoding="utf-8").splitlines():
            name = line.split("#")[0].split(":")[0].strip()
            if name and (root / "crates" / name).is_dir():
                self.crates.append(name)
        for crate in self.crates:
            self.read_crate(crate)

    def read_crate(self, crate):
        base = self.root / "crates" / crate
        for area, paths in (("specs", (base / "specs").rglob("*.antt")), ("proofs", (base / "proofs").glob("*.antt"))):
            for path in sorted(paths):
                name = path.relative_to(base / area).with_suffix("").as_posix()
                self.modules[crate, area, name] = SpecReader(Module(crate, area, name, path)).read()
        for path in sorted((base / "src").glob("*.rt")):
            self.modules[crate, "src", path.stem] = CodeReader(Module(crate, "src", path.stem, path)).read()
        for path in sorted((base / "must-fail").glob("*.edit")):
            self.edits.append(Edit(crate, path))

    def specs_of(self, crate):
        """The files of specs/ in the order in which Lib names them; files that it does not name follow."""
        names = self.listed(crate, "Lib", "")
        names += sorted(n for c, a, n in self.modules if c == crate and a == "specs" and n not in names and n != "Lib")
        return [self.modules[crate, "specs", n] for n in names if (crate, "specs", n) in self.modules]

    def listed(self, crate, file, folder):
        """The names that a file lists by `pub mod`, and after each those of its folder."""
        module = self.modules.get((crate, "specs", file))
        names = []
        for name in module.mods if module else []:
            names += [folder + name] + self.listed(crate, folder + name, folder + name + "/")
        return names

    def code_of(self, crate):
        return [m for (c, a, _), m in self.modules.items() if c == crate and a == "src"]

    def is_library(self, crate):
        return (crate, "src", "lib") in self.modules

    def items(self, area=None):
        for module in self.modules.values():
            if area in (None, module.area):
                yield from module.items


def find_root():
    return Path(__file__).resolve().parent.parent
