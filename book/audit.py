"""Which definitions the promises and the claims rest on, and what is proved."""
import re

from names import Library, result_type, split_arrows

# the laws of a file that MAP names as a whole are in the book if they are no more than this
FEW = 7


def binders(text):
    """The types of `(a b : T) {c : U}`, one for each group; none if the text is something else."""
    out, rest = [], text.strip()
    while rest:
        match = re.match(r"[({]([^(){}:]+) : ", rest)
        if not match:
            return []
        depth, at = 1, match.end()
        while at < len(rest) and depth:
            depth += (rest[at] in "({") - (rest[at] in ")}")
            at += 1
        out.append(rest[match.end():at - 1])
        rest = rest[at:].strip()
    return out


def blocks_of(item):
    """What the blocks around an item take."""
    return [re.sub(r"^module _ ?|\s*where$", "", line) for line in item.given if line.startswith("module")]


class Audit:
    def __init__(self, repo, names, linker):
        self.repo, self.names, self.linker = repo, names, linker
        self.cites = {}
        self.calls = [i for i in repo.items("src") if i.kind == "fn" and i.public and repo.is_library(i.crate)]
        self.promises = {call.anchor: linker.promised(call) for call in self.calls}
        self.proofs = self.find_proofs()
        self.believed = self.closure([t for call in self.calls for t in self.promises[call.anchor]])

    def cited(self, item):
        if item.anchor not in self.cites:
            if item.kind in ("enum", "struct"):
                found = [t for line in item.code[1:] for t in self.linker.rust(item.module, line, item.name)[1]]
            elif item.kind == "fn":
                found = self.linker.promised(item)
            else:
                lines = item.statement() if self.is_law(item) else item.code
                found = self.linker.cited(item, item.given + lines)
            self.cites[item.anchor] = [t for t in found if t is not item]
        return self.cites[item.anchor]

    def closure(self, start):
        seen, todo = {}, list(start)
        while todo:
            item = todo.pop()
            if item.anchor not in seen:
                seen[item.anchor] = item
                todo += self.cited(item)
        return seen

    def is_law(self, item):
        """A name with a statement for its type, and a proof: nobody has to read the proof."""
        if item.kind != "def":
            return False
        opens = item.words + [word for line in item.given if line.endswith("mutual") for word in line.split()]
        return not {"abbrev", "unfoldable"} & set(opens)

    def states(self, item):
        """Whether the definition is a statement: its type is Type."""
        if item.kind in ("record", "data"):
            return True
        return item.kind == "def" and bool(re.match(r"Type \d", result_type(item.signature_text())))

    def find_proofs(self):
        """For each statement of specs/ the laws whose type it is."""
        out = {}
        for area in ("specs", "proofs"):
            for law in self.repo.items(area):
                if not self.is_law(law):
                    continue
                head = re.match(r"[({\s]*([^\s(){}]+)", result_type(law.signature_text()))
                target = self.names.lookup(self.names.scope(law.module), head[1]) if head else None
                if target is None or isinstance(target, Library):
                    continue
                if target.module.area == "specs" and self.states(target):
                    out.setdefault(target.anchor, []).append(law)
        return out

    def proof_of(self, item):
        """The law that has the claim's name in small letters and takes no premise: the claim holds whatever it speaks of."""
        return next((x for x in self.named_like(item) if not self.has_premise(x)), None)

    def partly(self, item):
        """A law of the claim's name that has premises."""
        return next(iter(self.named_like(item)), None)

    def named_like(self, item):
        return [x for x in self.proofs.get(item.anchor, []) if x.public and x.name.replace("-", "") == item.name.lower()]

    def has_premise(self, law):
        """Whether a law's type, or the block around it, takes a fact beside the things that it speaks of."""
        scope = self.names.scope(law.module)
        signature = law.signature_text()
        parts = split_arrows(signature.partition(" : ")[2])[:-1]
        blocks = [block for block in blocks_of(law) if block]
        if any(not self.only_things(scope, part) for part in parts + blocks):
            return True
        bound = {name for text in re.findall(r"[({]([^(){}:]+) :", " ".join(parts + blocks)) for name in text.split()}
        asked = re.findall(r"[^\s(){}]+", result_type(signature))[1:]
        return len(set(asked)) < len(asked) or any(word not in bound for word in asked)

    def only_things(self, scope, part):
        groups = binders(part)
        return bool(groups) and all(self.is_thing(scope, kind) for kind in groups)

    def stands_alone(self, law):
        """Whether a law cites no definition of proofs/, and the block around it takes no fact: it can be read by itself."""
        if any(t.module.area == "proofs" for t in self.cited(law)):
            return False
        return all(self.only_things(self.names.scope(law.module), block) for block in blocks_of(law) if block)

    def is_thing(self, scope, kind):
        """Whether a binder's type is one of things (numbers, lists, events) and not a statement."""
        if set("≡≢≤<↔⊎∈⊥") & set(kind):
            return False
        for word in re.findall(r"[^\s(){}→×]+", kind):
            target = self.names.lookup(scope, word)
            if isinstance(target, Library) and target.name == "T":
                return False
            if target is not None and not isinstance(target, Library) and not self.is_data(target):
                return False
        return True

    def is_data(self, item):
        """A type of things: no statement about values that it takes."""
        if item.kind in ("enum", "struct"):
            return True
        if item.kind == "def":
            arguments = split_arrows(item.signature_text().partition(" : ")[2])[:-1]
            return not arguments and not self.proofs.get(item.anchor) and self.states(item)
        head = item.code[item.head]
        return all(re.match(r"Type \d|Events$", kind) for kind in binders(head.partition(item.name)[2].rpartition(" : ")[0]))

    def sort(self, rules):
        """Sorts what is in the book: beside the definitions that promises rest on, claims, and what only claims or rules cite."""
        for rule in rules:
            for key, module in rule.files:
                laws = self.laws_in(module)
                if key == "claim" and len(laws) <= FEW:
                    plain = [i for i in laws if self.stands_alone(i)]
                    rule.claims += [i for i in plain if i not in rule.claims]
        named = {i.anchor: i for rule in rules for i in rule.definitions + rule.claims if i.kind != "fn"}
        self.claims = {}
        for item in self.repo.items():
            if item.anchor in self.believed or item.module.area == "src":
                continue
            if self.is_law(item) and item.anchor in named or self.is_claim(item):
                self.claims[item.anchor] = item
        every = self.closure(list(self.claims.values()) + list(named.values()))
        self.beside = {a: i for a, i in every.items() if a not in self.believed and a not in self.claims and i.kind != "fn"}
        self.promised_by, self.claimed_by, self.claim_by_law = {}, {}, {}
        for call in self.calls:
            for item in self.promises[call.anchor]:
                self.promised_by.setdefault(item.anchor, []).append(call)
        for claim in self.claims.values():
            for item in self.cited(claim):
                self.claimed_by.setdefault(item.anchor, []).append(claim)
            law = None if self.is_law(claim) else self.proof_of(claim)
            if law:
                self.claim_by_law[law.anchor] = claim

    def is_claim(self, item):
        return item.module.area == "specs" and item.anchor not in self.believed and self.states(item) and self.proof_of(item) is not None

    def group(self, item):
        for name in ("believed", "claims", "beside"):
            if item.anchor in getattr(self, name):
                return name
        return ""

    def laws_in(self, module):
        """The public laws of a file, and the claims of a file of specs/."""
        return [i for i in module.items if self.is_law(i) and (i.public or module.area == "specs") or self.is_claim(i)]
