"""The glossary: names that the kit's libraries and the language define, each with a line on what it means."""

CONSTRUCTORS = {"[]", "◌∷◌", "∷", "zero", "suc", "true", "false", "none", "some", "pos", "negsuc", "tt", "inl", "inr", "refl"}


class Glossary:
    def __init__(self, path):
        self.entries, self.anchors = [], {}
        self.constructors = CONSTRUCTORS
        for line in path.read_text(encoding="utf-8").splitlines():
            if line.startswith("# ----"):
                self.entries.append((None, line.removeprefix("# ----").strip(), ""))
            elif line.strip() and not line.startswith("# "):
                anchor, names, meaning = (x.strip() for x in line.split(" | ", 2))
                names = names.split(", ")
                self.entries.append((anchor, names, meaning))
                self.anchors.update({name: anchor for name in names})
        self.builtin = {"×", "→", "⊥", "Unit", "tt", "Type", "λ", "record", "elim", "↦", "ensures", "requires", "wrapping_add"}

    def anchor(self, name):
        return self.anchors.get(name)
