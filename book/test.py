#!/usr/bin/env python3
"""Tests of the audit book: book/test.py"""
import hashlib
import os
import re
import subprocess
import sys
import tempfile
import unittest
from pathlib import Path

sys.dont_write_bytecode = True

import make  # noqa: E402
from audit import Audit  # noqa: E402
from faults import Links, faults  # noqa: E402
from glossary import Glossary  # noqa: E402
from link import Linker  # noqa: E402
from names import Names  # noqa: E402
from rules import MapReader  # noqa: E402
from sources import Module, Repository, SpecReader, find_root  # noqa: E402

ROOT = find_root()
HASH = "import hashlib, make; print(hashlib.sha256(make.make(make.find_root()).encode()).hexdigest())"
SAMPLE = """-- A file.
use Prim.Native.Nat.{ℕ}

-- ---- a part
-- the first
abbrev pub first : ℕ → ℕ
first 0 = 1
-- of all others
first n = n

module _ (a : ℕ) where
  module _ (b : ℕ) where
    pub both : ℕ
    both = a

  -- a record
  pub record Pair (c : ℕ) : Type 0 where
    pub left : ℕ

    pub right : ℕ

unfoldable mutual
  pub even : ℕ → ℕ
  even n = odd n

  pub odd : ℕ → ℕ
  odd n = even n
"""


def parts():
    repo = Repository(ROOT)
    glossary = Glossary(ROOT / "book" / "glossary.txt")
    names = Names(repo, glossary)
    linker = Linker(names, glossary)
    return repo, Audit(repo, names, linker)


class Page(unittest.TestCase):
    @classmethod
    def setUpClass(cls):
        cls.page = make.make(ROOT)
        cls.repo, cls.audit = parts()
        cls.links = Links()
        cls.links.feed(cls.page)

    def test_links(self):
        self.assertEqual(faults(self.page), [])

    def test_a_link_without_target_is_a_fault(self):
        self.assertTrue(faults(self.page.replace("id=lib.cond", "id=lib.other")))

    def test_same_bytes(self):
        env = {**os.environ, "PYTHONHASHSEED": "7", "PYTHONDONTWRITEBYTECODE": "1"}
        run = subprocess.run([sys.executable, "-c", HASH], cwd=ROOT / "book", env=env, stdout=subprocess.PIPE, stderr=subprocess.DEVNULL, text=True, check=True)
        self.assertEqual(run.stdout.strip(), hashlib.sha256(self.page.encode()).hexdigest())

    def test_every_call_and_edit_is_there(self):
        wanted = [c.anchor for c in self.audit.calls] + [e.anchor for e in self.repo.edits]
        self.assertEqual([a for a in wanted if a not in self.links.anchors], [])

    def test_every_call_of_the_header_is_a_public_call(self):
        declared = set(re.findall(r"^uint8_t (plavdrosa_\w+)\(", (ROOT / "include" / "plavdrosa.h").read_text(encoding="utf-8"), re.M))
        self.assertGreater(len(declared), 20)
        self.assertEqual(declared - {c.name for c in self.audit.calls}, set())

    def test_no_path_of_a_machine(self):
        self.assertNotIn(str(ROOT), self.page)


class Map(unittest.TestCase):
    @classmethod
    def setUpClass(cls):
        cls.repo, cls.audit = parts()

    def read(self, *rows):
        return MapReader(self.audit, "\n".join(("| 01 | Definition | Public call | Theorem | Edits |", "|---|---|---|---|---|") + rows))

    def test_unknown_names_are_told(self):
        reader = self.read("| a rule | no/Such: `no-such-name`; table/Sound: `sound` | `slots::none` | | |")
        self.assertEqual([i.name for i in reader.rules[0].definitions], ["sound"])
        self.assertEqual(len(reader.unknown), 3)

    def test_edits_of_the_map(self):
        edit = self.repo.edits[0]
        for cell in (f"`{edit.crate}/{edit.name}`", f"{edit.crate}: `{edit.name}`", f"{edit.crate}/{edit.name}"):
            reader = self.read(f"| a rule | table/Sound: `sound` | | | {cell} |")
            self.assertEqual(reader.rules[0].edits, [edit])

    def test_range_and_section(self):
        reader = self.read("| **The table** | | | | |", "| fields | table/Layout: `id_in` .. `kind_in` | | | |")
        self.assertEqual([i.name for i in reader.rules[0].definitions], ["id_in", "sig_in", "time_in", "kind_in"])
        self.assertEqual(reader.rules[0].section, "The table")


class Reading(unittest.TestCase):
    def test_items(self):
        with tempfile.TemporaryDirectory() as folder:
            path = Path(folder) / "Sample.antt"
            path.write_text(SAMPLE, encoding="utf-8")
            module = SpecReader(Module("sample", "specs", "Sample", path)).read()
        items = {i.name: i for i in module.items}
        self.assertEqual(list(items), ["first", "both", "Pair", "even", "odd"])
        self.assertEqual(items["first"].code[-1], "first n = n")
        self.assertEqual(items["first"].comment, ["---- a part", "the first"])
        self.assertEqual(len(items["both"].given), 2)
        self.assertEqual(len(items["Pair"].given), 1)
        self.assertEqual([n for n, _ in items["Pair"].parts], ["left", "right"])
        self.assertEqual(module.header, ["A file."])


if __name__ == "__main__":
    unittest.main()
