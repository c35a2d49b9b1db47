"""Which changes make an edit due (tests/edits) and have a crate checked (tests/changed), on made-up crates."""
import os

import pytest
from serving import script
from sources import Tree

edits, changed = script("edits"), script("changed")

# Four crates, three of them one above the other; the uppermost has an edit.
MADE = {
    "crates.txt": "# base\nlynx_low:\nlynx_middle: lynx_low\nlynx_high: lynx_middle\nlynx_other:\n",
    "crates/lynx_low/src/lib.rt": "pub fn one() -> u8\n    ensures { result ≡ 1 }\n{\n    1\n}\n\nfn two(\n    a: u8,\n) -> u8 {\n    a\n}\n",
    "crates/lynx_low/specs/Lib.antt": "-- one\none : ℕ\none = 1\n",
    "crates/lynx_low/specs/inner/Lib.antt": "two : ℕ\ntwo = 2\n",
    "crates/lynx_low/proofs/Cited.antt": "use Rattle.lynx_low.proofs.Below.{three}\nfour : one ≡ one\n",
    "crates/lynx_low/proofs/Below.antt": "three : one ≡ one\n",
    "crates/lynx_low/proofs/Own.antt": "five : one ≡ one\n",
    "crates/lynx_middle/src/lib.rt": "pub fn middle() -> u8 {\n    one()\n}\n",
    "crates/lynx_high/src/lib.rt": "pub fn high() -> u8 {\n    middle() // {\n}\n",
    "crates/lynx_high/specs/Lib.antt": "-- high\nhigh : ℕ\nhigh = one\n",
    "crates/lynx_high/proofs/Lib.antt": "use Rattle.lynx_low.proofs.Cited.{four}\nsix : four ≡ four\n",
    "crates/lynx_high/edits/bug.edit": "file: src/lib.rt\nold:     middle()\nnew:     2\n",
    "crates/lynx_other/src/lib.rt": "pub fn other() -> u8\n{\n    3\n}\n",
}

# A file of these, what stands in it, what stands there instead, and whether a check of the uppermost crate reads that, so that
# its edit is due by it.
CHANGES = [
    ("crates/lynx_low/src/lib.rt", "    1\n}", "    2 - 1\n}", False),
    ("crates/lynx_low/src/lib.rt", "result ≡ 1", "result ≡ 2", True),
    ("crates/lynx_low/src/lib.rt", "one() -> u8", "one() -> u16", True),
    ("crates/lynx_low/src/lib.rt", "    a: u8,", "    b: u8,", True),
    ("crates/lynx_low/src/lib.rt", "pub fn one", "/// One.\npub fn one", False),
    ("crates/lynx_low/specs/Lib.antt", "one = 1", "one = 2", True),
    ("crates/lynx_low/specs/Lib.antt", "-- one", "-- the one", False),
    ("crates/lynx_low/specs/inner/Lib.antt", "two = 2", "two = 3", True),
    ("crates/lynx_low/proofs/Cited.antt", "four : one ≡ one", "four : one ≡ 1", True),
    ("crates/lynx_low/proofs/Below.antt", "three : one ≡ one", "three : one ≡ 1", True),
    ("crates/lynx_low/proofs/Own.antt", "five : one ≡ one", "five : one ≡ 1", False),
    ("crates/lynx_middle/src/lib.rt", "    one()", "    1", False),
    ("crates/lynx_middle/src/lib.rt", "middle() -> u8 {", "middle(a: u8) -> u8 {", True),
    ("crates/lynx_high/src/lib.rt", "    middle()", "    one()", True),
    ("crates/lynx_high/specs/Lib.antt", "high = one", "high = 1", True),
    ("crates/lynx_high/specs/Lib.antt", "-- high", "-- low", False),
    ("crates/lynx_high/proofs/Lib.antt", "six : four ≡ four", "six : one ≡ one", True),
    ("crates/lynx_high/edits/bug.edit", "new:     2", "new:     3", True),
    ("crates/lynx_other/src/lib.rt", "other() -> u8", "other() -> u16", False),
    ("crates.txt", "lynx_high: lynx_middle", "lynx_high: lynx_middle lynx_other", True),
    ("crates.txt", "lynx_high:", "lynx_high staticlib:", True),
    ("crates.txt", "lynx_other:", "lynx_other: lynx_low", False),
]



PROGRAM = "pub fn main() {\n    high()\n}\n"


class Made:
    """The made-up crates in a folder."""

    def __init__(self, folder):
        self.folder = str(folder)
        for path, text in MADE.items():
            self.put(path, text)

    def put(self, path, text):
        place = os.path.join(self.folder, path)
        os.makedirs(os.path.dirname(place), exist_ok=True)
        with open(place, "w", encoding="utf-8") as file:
            file.write(text)

    def digests(self):
        return edits.digests(Tree(self.folder))

    def change(self, *paths):
        """What changed of these files since they were made."""
        return changed.Change(Tree(self.folder), paths, lambda path: MADE.get(path, ""))


@pytest.fixture
def made(tmp_path):
    return Made(tmp_path)


@pytest.mark.parametrize("path, old, new, is_read", CHANGES)
def test_due(made, path, old, new, is_read):
    assert MADE[path].count(old) == 1
    before = made.digests()
    assert not edits.due(before, before)
    made.put(path, MADE[path].replace(old, new))
    assert edits.due(made.digests(), before) == [("lynx_high", "bug")] * is_read


@pytest.mark.parametrize("path, old, new, is_read", [it for it in CHANGES if not it[0].endswith(".edit")])
def test_checked(made, path, old, new, is_read):
    made.put(path, MADE[path].replace(old, new))
    checked = made.change(path).checked()
    assert ("lynx_high" in checked) >= is_read
    # A change of a comment has the crate itself checked, and makes no edit due.
    assert ("lynx_high" in checked) == is_read or path.startswith("crates/lynx_high/")


def test_new_files(made):
    before = made.digests()
    made.put("crates/lynx_low/src/more.rt", "pub fn more() -> u8 {\n    1\n}\n")
    assert edits.due(made.digests(), before)
    assert "lynx_high" in made.change("crates/lynx_low/src/more.rt").checked()


@pytest.mark.parametrize("path", [it for it in MADE if it.startswith("crates/lynx_low/") and not it.endswith("Own.antt")])
def test_files_that_go(made, path):
    """A file below that a crate sees, and that is there no more."""
    before = made.digests()
    os.remove(os.path.join(made.folder, path))
    assert edits.due(made.digests(), before)
    assert "lynx_high" in made.change(path).checked()


def test_handles(made):
    """What HANDLES allows is part of what a check reads."""
    before = made.digests()
    made.put("HANDLES", "Handles allowed: Net.\n")
    assert edits.due(made.digests(), before)
    assert "lynx_high" in made.change("HANDLES").checked()


def test_new_edits(made):
    before = made.digests()
    made.put("crates/lynx_high/edits/other.edit", MADE["crates/lynx_high/edits/bug.edit"])
    assert edits.due(made.digests(), before) == [("lynx_high", "other")]
    change = made.change("crates/lynx_high/edits/other.edit")
    assert (change.edited(), change.checked()) == (["lynx_high"], [])


def test_scripts(made):
    """All scripts are run where code changed that their programs stand on, and where something changed that no crate has."""
    crates = MADE["crates.txt"] + "lynx: lynx_high\nlynx_load:\n"
    made.put("crates.txt", crates)
    made.put("crates/lynx/src/main.rt", PROGRAM)
    made.put("crates/lynx_load/src/main.rt", PROGRAM)
    made.put("tests/all", '    ("tests/lint", "", ""),\n    ("tests/kills 5", "", ""),\n    ("tests/loads", "", ""),\n    ("tests/pytest", "", ""),\n')
    made.put("tests/loads", 'open("CLIENTS.md"), "lynx_load"\n')
    made.put("tests/kills", "open")

    def scripts(path, text):
        before = Tree(made.folder).text(path)
        made.put(path, text)
        found = changed.Change(Tree(made.folder), [path], lambda it: before if it == path else crates).scripts()
        made.put(path, before)
        return found

    low = MADE["crates/lynx_low/src/lib.rt"]
    whole = {"tests/kills 5": ["lynx"], "tests/loads": ["lynx", "lynx_load"], "tests/pytest": ["lynx"]}
    assert scripts("crates/lynx_low/src/lib.rt", low.replace("    1\n}", "    2\n}")) == whole
    assert scripts("crates/lynx_low/src/lib.rt", "// More.\n" + low) == {}
    assert scripts("crates/lynx_low/proofs/Own.antt", "") == {}
    assert scripts("crates/lynx_other/src/lib.rt", "") == {}
    assert scripts("crates/lynx_load/src/main.rt", "") == {"tests/loads": ["lynx", "lynx_load"]}
    assert scripts("crates/lynx/stdin", "x") == whole
    assert scripts("tests/serving.py", "x") == whole
    assert scripts("tests/kills", "x") == {"tests/kills 5": ["lynx"]}
    assert scripts("tests/test_kills.py", "x") == {"tests/pytest": ["lynx"]}
    assert scripts("tests/conftest.py", '{"load": "lynx_load"}') == {"tests/pytest": ["lynx", "lynx_load"]}
    assert scripts("docs/CLIENTS.md", "x") == {"tests/loads": ["lynx", "lynx_load"]}
    assert scripts("docs/OTHER.md", "x") == {}
    assert scripts("docs/edits.txt", "x") == {}


def test_tested(made):
    """Crates of tests are run where code below them changed, bodies too."""
    text = MADE["crates.txt"] + "# tests\nlynx_tests: lynx_middle\n"
    made.put("crates.txt", text)
    made.put("crates/lynx_low/src/lib.rt", MADE["crates/lynx_low/src/lib.rt"].replace("    1\n}", "    2\n}"))
    before = {**MADE, "crates.txt": text}
    change = changed.Change(Tree(made.folder), ["crates/lynx_low/src/lib.rt"], lambda it: before.get(it, ""))
    assert (change.checked(), change.tested()) == (["lynx_low"], ["lynx_tests"])


def test_due_by_name():
    kept = {("a", "b"): "1", ("c", "d"): "2"}
    assert edits.due({("a", "b"): "1", ("c", "d"): "3", ("e", "f"): "4"}, kept) == [("c", "d"), ("e", "f")]


def test_written():
    assert edits.written(edits.HEAD + "a b 1 refused\nc d 2 tried\n") == {("a", "b"): "1"}


def test_refused_in():
    told = "rt: must-fail a/b.edit: refused, as it must be: x\nrt: must-fail a/c.edit: NOT REFUSED: y\n"
    assert edits.refused_in(told) == {("a", "b")}
