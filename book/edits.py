"""Which edit tries to break which rule: by what the edit touches, and by its sentence."""
import re

COMMON = set("a an the of is it its in to or and no not if as by that which with for are be on one at 01".split())


def plain_words(text):
    return " ".join(re.findall(r"[a-z0-9_#]+", text.lower()))


class Placing:
    """Gives each edit to a rule."""

    def __init__(self, audit):
        self.audit, self.rare, self.homeless = audit, {}, []

    def reached(self, call):
        """The functions of the crate that a call runs through, each with the number of calls on the way."""
        mine = {}
        for item in self.audit.repo.items("src"):
            if item.kind == "fn" and item.crate == call.crate:
                mine.setdefault(item.name.rpartition("::")[2], item)
        seen, todo = {}, [(call, 0)]
        while todo:
            item, depth = todo.pop(0)
            if item.anchor not in seen:
                seen[item.anchor] = depth
                words = re.findall(r"(?:(\w+)::)?(\w+)\(", "\n".join(item.body))
                todo += [(mine[name], depth + 1) for front, name in words if name in mine and front not in self.audit.repo.crates]
        return seen

    def distances(self, items):
        """The definitions that some items rest on, each with the number of steps."""
        seen, todo = {}, [(item, 0) for item in items]
        while todo:
            item, depth = todo.pop(0)
            if item.anchor not in seen:
                seen[item.anchor] = depth
                todo += [(t, depth + 1) for t in self.audit.cited(item)]
        return seen

    def touched(self, edit, users=True):
        """The items whose text the edit changes; of a constant of the code also the functions that use it."""
        area, _, name = edit.file.partition("/")
        module = self.audit.repo.modules.get((edit.crate, area, name.rpartition(".")[0]))
        out = []
        for old, _ in edit.swaps if module else []:
            place = module.text.find(old)
            if place >= 0:
                line = module.text.count("\n", 0, place) + 1
                out += [i for i in module.items if i.has_line(line) and i not in out]
        for item in [i for i in out if i.kind == "const" and users]:
            functions = [f for f in self.audit.repo.items("src") if f.kind == "fn" and f.crate == edit.crate]
            out += [f for f in functions if re.search(rf"\b{item.name}\b", "\n".join(f.body))]
        return out

    def place(self, rules):
        """Each edit that MAP gives to no rule goes to the rule that it fits best; to two where they fit alike."""
        for rule in rules:
            self.prepare(rule)
        for rule in rules:
            for word in set(rule.text.split()) | set(rule.notes.split()):
                self.rare[word] = self.rare.get(word, 0) + 1
        given = {e.anchor for rule in rules for e in rule.edits}
        for edit in self.audit.repo.edits:
            if edit.anchor in given:
                continue
            items = self.touched(edit)
            scores = [self.fit(edit, items, rule) for rule in rules]
            best = max(scores, default=0)
            if best < 1:
                self.homeless.append(edit)
                continue
            for rule in [r for r, score in zip(rules, scores) if score == best][:2]:
                rule.edits.append(edit)

    def prepare(self, rule):
        own = [i for i in rule.definitions + rule.claims if i.kind != "fn"]
        whole = [i for key, module in rule.files for i in module.items if key == "definition"]
        rule.steps = {a: d + 1 for a, d in self.distances(whole).items()}
        rule.steps.update({a: d for a, d in self.distances(own).items() if d < rule.steps.get(a, 99)})
        rule.run = {}
        for call in rule.calls:
            for anchor, depth in self.reached(call).items():
                rule.run[anchor] = min(depth, rule.run.get(anchor, 99))
        rule.text = plain_words(rule.title + " " + rule.section)
        rule.notes = plain_words(" ".join(" ".join(i.comment) for i in own + rule.calls))

    def fit(self, edit, items, rule):
        score = 0.0
        for item in items:
            if item.anchor in rule.steps:
                score = max(score, 5 / (1 + rule.steps[item.anchor]))
            if item.anchor in rule.run:
                score = max(score, 1 + 3 / (1 + rule.run[item.anchor]))
            if item.kind == "fn":
                cited = [t.anchor for t in self.audit.linker.promised(item) if t.kind == "def"]
                score = max([score] + [4 / (1 + rule.steps[a]) for a in cited if a in rule.steps])
        sentence = edit.sentence()
        quotes = [plain_words(q) for part in re.findall(r'"([^"]+)"', sentence) for q in part.split("..")]
        for quote in quotes:
            long = len(quote.split())
            if long > 1 and (f" {quote} " in f" {rule.text} " or (rule.text in quote and len(rule.text.split()) > 2)):
                score += min(long, 5) * (1 if score else 0.3)
            elif long > 1 and f" {quote} " in f" {rule.notes} ":
                score += min(long, 4) * (1 if score else 0.2)
        if rule.section and f"01, {rule.section}:" in sentence:
            score += 3
        rows = re.findall(r"\brow (\d+)", sentence)
        if any(re.match(rf"row {row}\b", rule.title) for row in rows):
            score += 3
        words = set(plain_words(sentence + " " + edit.name.replace("_", " ")).split()) - COMMON
        score += min(2, sum(1.5 / self.rare[w] for w in sorted(words & set(rule.text.split()))))
        score += min(2, sum(1 / self.rare[w] for w in sorted(words & set(rule.notes.split()))))
        return round(score, 6)
