"""Source text as HTML in which every name is a link to its definition; and which definitions a text cites."""
import html
import re

from names import FORMS, NUMERAL, OPERATORS, TOKEN, Library

RUST = re.compile(r"[A-Za-z_]\w*(?:::[A-Za-z_]\w*)*|\s+|.")
RUST_FORMS = set("pub fn mut enum struct extern self Self const bool u8 u16 u32 u64 i64 usize C".split())


def escape(text):
    return html.escape(text, quote=False)


def attribute(value):
    """An attribute's value, in quotes only where HTML wants them."""
    value = html.escape(value)
    return f'"{value}"' if re.search(r"[\s\"'=<>`]", value) or not value else value


class Group:
    """One application inside brackets: whether its head was seen, and the record that it has, if known."""

    def __init__(self, braces=False):
        self.seen, self.type, self.braces, self.built = False, None, braces, None


class Linker:
    def __init__(self, names, glossary):
        self.names, self.glossary = names, glossary
        self.shown = None
        self.field_links = set()
        self.library_links = set()
        self.asked = {}

    def link(self, target, text, css=""):
        """A link to what a name means, if it is in the book."""
        if isinstance(target, Library):
            anchor = self.glossary.anchor(target.name)
            if not anchor:
                self.names.not_explained.add(target.name)
                return escape(text)
            self.library_links.add(anchor)
            return f"<a class=g href={attribute('#lib.' + anchor)}>{escape(text)}</a>"
        if self.shown is not None and target.anchor not in self.shown:
            return escape(text)
        css = f" class={css}" if css else ""
        return f"<a{css} href={attribute('#' + target.anchor)}>{escape(text)}</a>"

    # ---- definitions, laws and contracts

    def walk(self, item, lines, scope=None, known=None):
        """Yields (text, target or None, kind) for every token; kind is name, field, form, comment, local, line or plain."""
        names = self.names
        scope = dict(scope if scope is not None else names.scope(item.module))
        scope.update(names.opened(item, scope))
        known = known if known is not None else names.locals_of(item, scope)
        stack = [Group()]
        tokens = [t for line in lines for t in [s for m in TOKEN.finditer(line) for s in names.split(scope, m[0])] + ["\n"]]
        for at, token in enumerate(tokens):
            if token == "\n":
                yield token, None, "line"
                continue
            after = next((t for t in tokens[at + 1:] if not t.isspace()), "")
            yield self.one(item, scope, known, stack, token, after)
            if token == "{":
                stack[-1].built = self.built(scope, tokens[at + 1:], names.result_of(item))

    def built(self, scope, tokens, wanted):
        """The record that `{ f = ..; g = .. }` builds: the one that has just these fields, the wanted one of several."""
        depth, fields, last = 0, set(), ""
        for token in (t for t in tokens if not t.isspace()):
            depth += (token in "({") - (token in ")}")
            if depth < 0:
                break
            if token == "=" and depth == 0:
                fields.add(last.strip("«»"))
            last = token
        owners = [o for o in self.names.owners.get(min(fields, default=""), []) if {n for n, _ in o.parts} == fields]
        near = [o for o in owners if o in scope.values()]
        if wanted in owners:
            return wanted
        return next((some[0] for some in (near, owners) if len(some) == 1), None)

    def one(self, item, scope, known, stack, token, after):
        group = stack[-1]
        if token.isspace() or token.startswith('"') or NUMERAL.match(token):
            if not token.isspace() and not group.seen:
                group.seen = True
            return token, None, "plain"
        if token.startswith("--"):
            return token, None, "comment"
        if token in "({":
            stack.append(Group(token == "{"))
            return token, None, "plain"
        if token in ")}":
            inner = stack.pop() if len(stack) > 1 else Group()
            outer = stack[-1]
            if not outer.seen:
                outer.seen, outer.type = True, inner.type
            return token, None, "plain"
        if token.startswith(".") and token.strip(".") and len(token) > 1:
            return self.projection(item, scope, group, token)
        if group.braces and after == "=":
            return token, group.built or self.names.field(scope, None, token), "field"
        return self.word(scope, known, group, token)

    def projection(self, item, scope, group, token):
        name = token[1:]
        if name.isdigit():
            group.type = None
            return token, None, "plain"
        if item.kind == "fn" and token in (".now", ".old", ".new"):
            return token, Library(token), "name"
        owner = self.names.field(scope, group.type, name)
        kind = dict(owner.parts).get(name.strip("«»"), "") if owner else ""
        group.type = self.names.type_of(self.names.scope(owner.module), kind.split(" ")[0]) if kind else None
        return token, owner, "field"

    def word(self, scope, known, group, token):
        bare = token[:-1] if token.endswith(".") and len(token) > 1 and token != ".." else token
        if bare in known:
            if not group.seen:
                group.seen, group.type = True, self.known_type(scope, known[bare])
            if token != bare:
                group.seen, group.type = False, None
            return token, None, "local"
        target = self.names.lookup(scope, bare)
        if bare in OPERATORS or (target is not None and "◌" + bare + "◌" in scope):
            group.seen, group.type = False, None
        elif not group.seen:
            group.seen, group.type = True, self.names.result_of(target)
        if target is not None:
            return token, target, "name"
        return token, None, "form" if bare in FORMS else "plain"

    def known_type(self, scope, text):
        return text if hasattr(text, "parts") else self.names.type_of(scope, text)

    def render(self, tokens, own=""):
        """HTML lines of walked tokens; the item's own name is not a link."""
        out, line = [], ""
        for token, target, kind in tokens:
            if kind == "line":
                out.append(line)
                line = ""
            elif kind == "comment":
                line += f"<em>{escape(token)}</em>"
            elif kind == "form":
                line += f"<u>{escape(token)}</u>"
            elif kind == "field":
                line += self.render_field(target, token)
            elif target is None:
                line += escape(token)
            elif getattr(target, "anchor", None) == own:
                line += f"<b>{escape(token)}</b>"
            else:
                line += self.link(target, token)
        return out

    def render_field(self, owner, token):
        if owner is not None and (self.shown is None or owner.anchor in self.shown):
            return self.link(owner, token)
        name = token.lstrip(".").strip("«»")
        if name in self.names.owners:
            self.field_links.add(name)
            return f"<a href={attribute('#field.' + name)}>{escape(token)}</a>"
        return escape(token)

    def code(self, item, lines):
        return self.render(self.walk(item, lines), item.anchor)

    def cited(self, item, lines):
        """The items that the lines cite."""
        out = []
        for _, target, _ in self.walk(item, lines):
            if target is not None and not isinstance(target, Library) and target is not item and target not in out:
                out.append(target)
        return out

    # ---- functions and declared types

    def rust_type(self, module, text):
        crate, _, name = text.rpartition("::")
        if crate:
            return self.names.types.get((crate.rpartition("::")[2], name))
        for use in module.uses:
            if use["path"].endswith("::" + text):
                return self.names.types.get((use["path"].split("::")[0], text))
        return self.names.types.get((module.crate, text))

    def rust(self, module, line, own=""):
        """One line of a signature or of a declared type, and the types that it names."""
        out, types = "", []
        if line.strip().startswith("//"):
            return f"<em>{escape(line)}</em>", []
        for match in RUST.finditer(line):
            word = match[0]
            target = self.rust_type(module, word) if re.match(r"\w", word) and word not in RUST_FORMS else None
            if target is not None and target.name == own:
                target = None
                out += f"<b>{escape(word)}</b>"
            elif target is not None:
                types.append(target)
                out += self.link(target, word)
            elif word in ("pub", "fn", "enum", "struct", "extern"):
                out += f"<u>{word}</u>"
            elif word == own:
                out += f"<b>{escape(word)}</b>"
            else:
                out += escape(word)
        return out, types

    def parameters(self, item):
        """The parameters of a function as names with the declared type that they have."""
        text = " ".join(x.strip() for x in item.signature)
        inside = re.search(r"\((.*)\)(?:\s*->.*)?$", text)
        out = {}
        for name, kind in re.findall(r"(\w+)\s*:\s*([^,]+)", inside[1] if inside else ""):
            out[name] = self.rust_type(item.module, re.sub(r"^&?(mut )?", "", kind).strip()) or ""
        if "self" in text:
            owner = self.rust_type(item.module, item.name.partition("::")[0])
            out["self"] = owner or ""
        return out

    def result(self, item):
        match = re.search(r"->\s*([\w:]+)\s*$", " ".join(x.strip() for x in item.signature))
        if match and match[1] == "Self":
            return self.rust_type(item.module, item.name.partition("::")[0])
        return self.rust_type(item.module, match[1]) if match else None

    def contract(self, item):
        """Walked tokens of the ensures lines."""
        known = self.parameters(item)
        known["result"] = self.result(item) or ""
        text = " ".join(item.ensures)
        # a clause's own name
        known.update({name: "" for name in re.findall(r"\b(?:ensures|requires) (\w+) \{", text) if name not in known})
        for match in re.finditer(r"[({]\s*((?:[^\s(){}:;,=]+\s+)+):\s+([^\s(){}]+)", text):
            known.update({n: match[2] for n in match[1].split()})
        for match in re.finditer(r"λ ((?:[^\s.(){}]+ )*[^\s.(){}]+)\.", text):
            for name in match[1].split():
                known.setdefault(name, "")
        return self.walk(item, item.ensures, known=known)

    def promised(self, item):
        """The definitions and types that a call's promise and signature cite."""
        if item.anchor + item.place in self.asked:
            return self.asked[item.anchor + item.place]
        out = self.asked[item.anchor + item.place] = []
        for _, target, kind in self.contract(item):
            if target is not None and not isinstance(target, Library) and target not in out:
                out.append(target)
        for line in item.signature:
            out += [t for t in self.rust(item.module, line)[1] if t not in out]
        return out
