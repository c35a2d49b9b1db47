"""The crates and their sources: what a check of a crate reads, and what of a crate those above it can see, its public side.
tests/changed and tests/edits go by this.

The public side of a crate is its folder specs/, all of src/ but comments and bodies of functions, private items too, and of
proofs/ the files that another crate cites, with those that these stand on. A check reads its own crate whole, and the public
sides of all crates below it, for a definition can be seen through the one that cites it.
"""
import collections
import hashlib
import os
import re

TOP = os.path.dirname(os.path.dirname(os.path.abspath(__file__)))
PARTS = ("src", "specs", "proofs")
COMMENTS = {".rt": "//", ".antt": "--"}
CITES_PROOF = re.compile(r"\bRattle\.(lynx\w*)\.proofs\.([\w+.]+)")
OPENS_BODY = re.compile(r"\bfn \w+.*\{$")

# What a line of crates.txt says: the crates of ours that this one uses, its layer, and the line.
Crate = collections.namedtuple("Crate", "uses layer line")


def crates_of(text):
    """Each crate of crates.txt, in its order."""
    found, layer = {}, ""
    for line in map(str.strip, text.splitlines()):
        if line.startswith("#"):
            layer = line[1:].strip()
        elif line:
            head, _, uses = line.partition(":")
            found[head.split()[0]] = Crate([it for it in uses.split() if it.startswith("lynx")], layer, line)
    return found


def below(known, name):
    """All crates that a crate stands on, without itself."""
    found, left = set(), [*known[name].uses]
    while left:
        crate = left.pop()
        if crate not in found:
            found.add(crate)
            left += known[crate].uses
    return found


def crate_of(path):
    """The crate that a file belongs to."""
    parts = path.split("/")
    return parts[1] if len(parts) > 2 and parts[0] == "crates" else None


def part_of(path):
    """The folder of its crate that a file is in."""
    return path.split("/")[2] if path.count("/") > 2 else None


def without_comments(path, text):
    """The lines of a source that are no comment's; all of another file."""
    mark = COMMENTS.get(os.path.splitext(path)[1])
    return [line for line in text.splitlines() if mark is None or not line.lstrip().startswith(mark)]


def in_bodies(lines):
    """The places of the lines of code that are in bodies of functions. A body begins behind a line that is `{`, or a head that
    ends with it, and ends at a `}` of the same indent: `rt fmt` lays it out so. What is laid out otherwise counts as outside."""
    found, ends = set(), None
    for at, line in enumerate(lines):
        if ends is not None:
            found.add(at)
            ends = None if line == ends else ends
        elif line.strip() == "{" or OPENS_BODY.search(line) and not line.endswith("{ {"):
            ends = line[:len(line) - len(line.lstrip())] + "}"
    return found


def public_side(path, text, cited=()):
    """What crates above can see of a file. `cited` are the files of proofs/ that they see."""
    part = part_of(path)
    if part not in ("src", "specs") and path not in cited:
        return ""
    lines = without_comments(path, text)
    hidden = in_bodies(lines) if path.endswith(".rt") else ()
    return "\n".join(line for at, line in enumerate(lines) if at not in hidden)


class Tree:
    """The crates of a checkout, with the texts of their sources by path."""

    def __init__(self, top=TOP):
        self.top = top
        self.crates = crates_of(self.text("crates.txt"))
        self.texts = {path: self.text(path) for crate in self.crates for path in self.sources(crate)}
        self.cited = self.cited_proofs()
        self.sums = {crate: self.public_sum(crate) for crate in self.crates}

    def text(self, path):
        """A file's text, nothing where it isn't there."""
        try:
            with open(os.path.join(self.top, path), encoding="utf-8", errors="surrogateescape") as file:
                return file.read()
        except FileNotFoundError:
            return ""

    def sources(self, crate):
        """The files that a check of the crate reads of it, by path."""
        folders = [os.path.join(self.top, "crates", crate, part) for part in PARTS]
        return sorted(os.path.relpath(os.path.join(at, name), self.top)
                      for folder in folders for at, _, names in os.walk(folder) for name in names)

    def cited_proofs(self):
        """The files of proofs/ that crates above can see: those that another crate cites, and those that these cite."""
        found, left = set(), [(crate_of(path), cite) for path, text in self.texts.items() for cite in CITES_PROOF.findall(text)
                              if cite[0] != crate_of(path)]
        modules = {}
        for path in self.texts:
            if part_of(path) == "proofs":
                module = path.split("/proofs/")[1].removesuffix(".antt").replace("/", ".")
                modules.setdefault(crate_of(path), []).append((module + ".", path))
        while left:
            _, (crate, cite) = left.pop()
            name = cite.rstrip(".") + "."
            seen = [path for module, path in modules.get(crate, ()) if name.startswith(module) or module.startswith(name)]
            for path in [it for it in seen if it not in found]:
                found.add(path)
                left += [(crate, it) for it in CITES_PROOF.findall(self.texts[path])]
        return found

    def public_sum(self, crate):
        """A sum of the crate's public side."""
        sides = [(path, public_side(path, text, self.cited)) for path, text in self.texts.items() if crate_of(path) == crate]
        return summed([self.crates[crate].line, *[it for it in sides if it[1]]])

    def checked_sum(self, crate):
        """A sum of all that a check of the crate reads, but for comments."""
        own = [(path, without_comments(path, text)) for path, text in self.texts.items() if crate_of(path) == crate]
        lower = [(it, self.sums[it]) for it in sorted(below(self.crates, crate))]
        return summed([self.text("HANDLES"), self.crates[crate].line, own, lower])


def summed(what):
    """The first digits of a SHA-256 of what is there."""
    return hashlib.sha256(repr(what).encode()).hexdigest()[:20]
