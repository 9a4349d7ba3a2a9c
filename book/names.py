"""Which definition a name in a definition means: imports, constructors, fields, and what is bound on the spot."""
import re

TOKEN = re.compile(r'"(?:\\.|[^"\\])*"|--.*|\s+|[(){};,]|[^\s(){};,"]+')
PROJECTIONS = re.compile(r"^([^\s.]+)((?:\.[^\s.]+)+)(\.?)$")
PATH = re.compile(r"^Rattle\.(?!std\.)(?P<crate>\w+)\.(?P<area>specs|proofs)\.(?P<rest>.+)$")
LIBRARIES = ("Rattle.std.", "mathlib.", "Prim.", "lib.", "mir.", "native.", "borrow.", "contract.", "denote.", "base.")
# where one of these stands, what follows is a new application
OPERATORS = set("≡ ≢ ++ ∷ && || → × ↔ ⊎ ≤ < + - * / % ^ = == : , ; ( { λ in let ⨾ ∣ ∈ ∙ ensures requires".split())
BINDER = re.compile(r"[({]\s*((?:[^\s(){}:;,=]+\s+)+):\s")
LAMBDA = re.compile(r"λ ((?:[^\s.(){}]+ )*[^\s.(){}]+)\.")
NUMERAL = re.compile(r"^-?(0x[0-9a-fA-F]+|\d[\d_]*)$")
FORMS = set("record data where abbrev unfoldable pub let in unfolding using open module infix infixl infixr ensures requires ghost = : _".split())


class Library:
    """A name that the kit's libraries define: it is explained in the glossary."""

    def __init__(self, name):
        self.name = name


class Names:
    def __init__(self, repo, glossary):
        self.repo, self.glossary = repo, glossary
        self.types = {(i.crate, i.name): i for i in repo.items("src") if i.kind in ("enum", "struct")}
        self.owners = {}
        for item in repo.items():
            for name, _ in item.parts:
                if item.kind in ("record", "struct"):
                    self.owners.setdefault(name, []).append(item)
        self.scopes = {}
        self.exported = {}
        self.not_explained = set()

    # ---- what a file has in scope

    def exports(self, module):
        key = (module.crate, module.area, module.name)
        if key not in self.exported:
            out = self.exported[key] = {}
            for item in module.items:
                out.setdefault(item.name, item)
                if item.kind == "data":
                    for name, _ in item.parts:
                        out.setdefault(name, item)
            for use in module.uses:
                if "pub" in use["words"].split():
                    self.bring(out, use)
        return self.exported[key]

    def scope(self, module):
        key = (module.crate, module.area, module.name)
        if key not in self.scopes:
            out = self.scopes[key] = {}
            for use in module.uses:
                self.bring(out, use)
            if module.area == "src":
                for item in self.repo.items("src"):
                    if item.crate == module.crate and item.kind in ("enum", "struct"):
                        out.setdefault(item.name, item)
            else:
                out.update(self.exports(module))
        return self.scopes[key]

    def bring(self, out, use):
        """Put what a `use` line imports into a scope."""
        there = self.members(use["path"])
        if use["alias"]:
            out[use["alias"] + "."] = there
        for part in (use["names"] or "").split(","):
            words = part.split()
            if not words:
                continue
            name, new = words[0], words[-1]
            if use["path"].startswith(LIBRARIES):
                out[new] = Library(name)
            elif name in there:
                out[new] = there[name]

    def split(self, scope, token):
        """`e.f.g` as e, .f and .g, where e is no other module's name."""
        match = PROJECTIONS.match(token)
        if not match or token.startswith(("--", '"')) or match[1] + "." in scope or token.startswith(LIBRARIES) or PATH.match(token.rpartition(".")[0]):
            return [token]
        fields = ["." + name for name in match[2][1:].split(".")]
        fields[-1] += match[3]
        return [match[1], *fields]

    def members(self, path):
        match = PATH.match(path)
        if not match:
            return {}
        rest = match["rest"].split(".")
        if rest[0] == "declared":
            item = self.types.get((match["crate"], rest[1]))
            if not item:
                return {}
            return {name: item for name, _ in item.parts} if rest[2:] == ["TheVariants"] else {item.name: item}
        module = self.repo.modules.get((match["crate"], match["area"], "/".join(rest)))
        return self.exports(module) if module else {}

    def lookup(self, scope, word):
        """The definition that a word means, or None."""
        for name in (word, f"◌{word}◌", f"◌{word}", f"{word}◌"):
            if name in scope:
                return scope[name]
        if "." in word.strip("."):
            front, _, last = word.rpartition(".")
            if front + "." in scope:
                return scope[front + "."].get(last)
            if PATH.match(front):
                return self.members(front).get(last)
            if front.startswith(LIBRARIES):
                return Library(last)
        if word in self.glossary.builtin:
            return Library(word)
        return None

    # ---- what a name means inside one item

    def opened(self, item, scope):
        """`open R x using (..)` brings fields of the record R as names."""
        out = {}
        for line in item.given:
            match = re.match(r"open (\S+) .*using \(([^)]*)\)", line)
            target = match and self.lookup(scope, match[1])
            if target and not isinstance(target, Library):
                out.update({name.strip(): target for name in match[2].split(",")})
        return out

    def is_constructor(self, target, word):
        if isinstance(target, Library):
            return target.name in self.glossary.constructors
        word = word.rpartition(".")[2] or word
        return target is not None and target.kind in ("data", "enum") and word != target.name

    def locals_of(self, item, scope):
        """The names that the item binds itself, each with the text of its type where that is written."""
        out = {}
        text = "\n".join(line for line in item.given + item.code if not line.strip().startswith("--"))
        for match in BINDER.finditer(text):
            kind = re.match(r"[^\s(){};,]+|\(", text[match.end():])
            for name in match[1].split():
                out[name] = kind[0] if kind else ""
        for match in LAMBDA.finditer(text):
            for name in match[1].split():
                out.setdefault(name, "")
        for match in re.finditer(r"\blet \(?([^=()]*)\)?\s*=", text):
            for name in re.split(r"[,\s:]+", match[1]):
                out.setdefault(name, "")
        if item.kind == "def":
            self.bind_patterns(item, scope, out)
        if item.kind == "record":
            for name, kind in item.parts:
                out.setdefault(name, kind.split(" ")[0])
        out.pop("", None)
        return out

    def bind_patterns(self, item, scope, out):
        types = argument_types(item.signature_text())
        for line in item.code[len(item.statement()):]:
            if line.startswith((" ", "--", "unfolding")) or " =" not in line:
                continue
            left = line.split(" =")[0]
            for place, word in enumerate(flat_patterns(left, item.name)):
                names = [w for w in re.findall(r"[^\s(){};,]+", word) if not NUMERAL.match(w)]
                inside = self.carried(scope, names[0]) if len(names) > 1 else []
                for at, name in enumerate(names):
                    if name == item.name or self.is_constructor(self.lookup(scope, name), name):
                        continue
                    if len(names) == 1 and place < len(types):
                        out.setdefault(name, types[place].split(" ")[0])
                    else:
                        out.setdefault(name, inside[at - 1] if inside and len(inside) == len(names) - 1 else "")

    def carried(self, scope, word):
        """The types of what a constructor carries, of a flat pattern."""
        owner = self.lookup(scope, word)
        if isinstance(owner, Library) or not self.is_constructor(owner, word):
            return []
        kind = dict(owner.parts).get(word.rpartition(".")[2] or word, "")
        there = self.scope(owner.module)
        if owner.kind == "enum":
            heads = [x.strip() for x in kind.split(",")]
        else:
            heads = [x.split(" ")[0] for x in argument_types("x : " + kind)]
        return [self.type_of(there, x) or "" for x in heads]

    def field(self, scope, owner, name):
        """The record of a field: the one that the expression has, else the only one that there is."""
        plain = name.strip("«»")
        if owner is not None and plain in dict(owner.parts):
            return owner
        owners = self.owners.get(plain, [])
        return owners[0] if len(owners) == 1 else None

    def type_of(self, scope, text):
        target = self.lookup(scope, text.strip("(){}")) if text else None
        return target if target is not None and not isinstance(target, Library) else None

    def result_of(self, target):
        """The record that a function answers with, if it is one."""
        if target is None or isinstance(target, Library) or target.kind != "def":
            return None
        result = result_type(target.signature_text())
        return self.type_of(self.scope(target.module), result.split(" ")[0])


def flat_patterns(left, name):
    """The arguments on the left of an equation, one text each, the function's name left out."""
    out, depth, word = [], 0, ""
    for char in left + " ":
        depth += (char in "({") - (char in ")}")
        if char == " " and depth == 0:
            if word:
                out.append(word)
            word = ""
        else:
            word += char
    return out[1:] if out and out[0] == name else out


def split_arrows(text):
    out, depth, word = [], 0, ""
    for char in text:
        depth += (char in "({") - (char in ")}")
        if char == "→" and depth == 0:
            out.append(word.strip())
            word = ""
        else:
            word += char
    return out + [word.strip()]


def argument_types(signature):
    """The explicit arguments' types of `name : A → (x y : B) → C`, one for each argument."""
    parts = split_arrows(signature.partition(" : ")[2])[:-1]
    out = []
    for part in parts:
        if part.startswith("{"):
            continue
        groups = re.findall(r"\(([^():]+) : ((?:[^()]|\([^()]*\))*)\)", part)
        if groups and part.startswith("("):
            for names, kind in groups:
                out += [kind] * len(names.split())
        else:
            out.append(part)
    return out


def result_type(signature):
    return split_arrows(signature.partition(" : ")[2])[-1]
