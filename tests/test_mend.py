"""`lynx mend` over the offending sets of the repository, over forty that are written as newcomers would (tests/mend: NAME.set, and in
NAME.chosen the beginnings of the lines of the change that a person would choose), and over random ones. Each change that is told, as
`--write` applies it, is accepted by the plain reading in tests/reference.py. Of the forty most keep all programs whole, and for half
of them the change that a person would choose is among the first three. Where one server decides, requests that run each alone are
answered and refused as over the first set, and leave the same in its tables."""
import glob
import os
import random
import re
import resource
import subprocess

import pytest
import reference
import reference_picture
from random_sets import set_text
from serving import TOP

# Each of so many tests has RANDOM_SETS random sets.
SEEDS = {"test_random_sets": 10}

RANDOM_SETS = 50

# Of the forty sets so many get a change that keeps all programs whole, and so many that of a person among the first three.
WHOLE, CHOSEN = 36, 20

# Requests that run over a set and over what one server decides of it.
REQUESTS = 200

# Seconds of a processor that a search takes at most.
SECONDS = 5

# What the first line of a change has, by its kind; these keep all programs whole.
WHOLE_KINDS = {"order": r"(begins at server \d+: its|runs its) hops in the order ", "turn": r"where it only waits its turn: add ",
               "drop": r" leaves out: get ", "decide": r"^server \d+ decides for "}

OTHER_KINDS = {"cut": r" becomes two programs: ", "range": r" takes \w+ in \d+\.\.\d+, and ", "leave": r" is left out \(line \d+\)$"}

KINDS = {**WHOLE_KINDS, **OTHER_KINDS}


SEE_MEND = "  see lynx mend: it tells changes each of which makes the set accepted, the smallest first\n"


class Change:
    """A change that is told: its lines, of one or two changes, and what is lost by each."""

    def __init__(self, number, lines):
        self.number = number
        self.changes = [re.sub(r"^(\d+\. |  and )", "", line) for line in lines[::2]]
        self.losses = lines[1::2]
        self.is_well_told = len(lines) in (2, 4) and all(line.startswith("  lost: ") for line in self.losses) \
            and all(line.startswith("  and ") for line in lines[2::2])

    def kinds(self):
        return [[kind for kind, words in KINDS.items() if re.search(words, line)] for line in self.changes]

    def has_its_lines(self, text):
        """Whether each change ends with the lines of the text that it names: a `get` that is left out, or programs."""
        lines = text.splitlines()
        for change in self.changes:
            words, _, numbers = change.rpartition(" (line")
            named = [lines[int(number) - 1] for number in re.findall(r"\d+", numbers)]
            if " leaves out: " in words:
                is_right = [words.split(": ")[1].split(",")[0]] == named
            else:
                is_right = named and all(line.startswith("program ") and line.split(" ")[1] in re.findall(r"\w+", words) for line in named)
            if not is_right:
                return False
        return True

    def is_whole(self):
        return all(kinds and kinds[0] in WHOLE_KINDS for kinds in self.kinds())

    def is_chosen(self, chosen):
        """Whether its lines begin as those that a person would choose, in some order."""
        return len(self.changes) == len(chosen) and all(any(line.startswith(begin) for line in self.changes) for begin in chosen)


def ends(lynx, *words):
    ran = subprocess.run([lynx, *words], stdin=subprocess.DEVNULL, capture_output=True, text=True, timeout=300)
    return ran.stdout, ran.stderr, ran.returncode


def told(lynx, path):
    """The changes that are told of a set."""
    out, err, status = ends(lynx, "mend", path)
    if (out, err, status) == ("", "lynx: no mending was found\n", 1):
        return []
    assert (err, status) == ("", 0)
    found = []
    for line in out.splitlines():
        if re.match(r"\d+\. ", line):
            found.append([])
        found[-1].append(line)
    assert [lines[0].split(".")[0] for lines in found] == [str(number) for number in range(1, len(found) + 1)]
    return [Change(number, lines) for number, lines in enumerate(found, 1)]


def written(lynx, path, number):
    """The text of the set with a change."""
    out, err, status = ends(lynx, "mend", path, "--write", str(number))
    assert (err, status) == ("", 0)
    return out


def judge(lynx, path, tally):
    """Judges each change of a set by the plain reading, and gives them."""
    changes = told(lynx, path)
    tally.holds(f"{path}: ten at most", len(changes) <= 10)
    for change in changes:
        tally.holds(f"{path}: {change.number} is told well", change.is_well_told and all(len(kinds) == 1 for kinds in change.kinds()))
        tally.holds(f"{path}: {change.number} has its lines", change.has_its_lines(read(path)))
        tally.is_same(f"{path}: {change.number}", reference.check(written(lynx, path, change.number))[1], 0)
    return changes


def judge_pictures(lynx, path, tally, most=None):
    """Compares the picture of the set with each change, or so many, in which changed hops are marked, and of its walk alone, with the
    plain reading."""
    for change in told(lynx, path)[:most]:
        mended = written(lynx, path, change.number)
        for words in ([], ["--walk"]):
            drawn = ends(lynx, "draw", path, "--mended", str(change.number), *words)
            expected, _ = reference_picture.picture(mended, *(words or [None]), before=read(path))
            tally.is_same(f"{path}: picture {change.number} {words}", drawn, (expected, "", 0))


def read(path):
    with open(path, encoding="ascii") as file:
        return file.read()


def ours():
    """The names of the forty sets."""
    return sorted(os.path.basename(path)[:-4] for path in glob.glob(os.path.join(TOP, "tests", "mend", "*.set")))


def path_of(name):
    return os.path.join(TOP, "tests", "mend", f"{name}.set")


def offending(lynx, top):
    """The paths of the sets in a folder that offend."""
    found = [os.path.join(folder, file) for folder, _, files in os.walk(os.path.join(TOP, top)) for file in files
             if file.endswith(".set")]
    return [path for path in sorted(found) if ends(lynx, "check", path)[2] == 1]


def test_examples(program, tally):
    for path in offending(program, "examples"):
        judge(program, path, tally)


@pytest.mark.parametrize("folder", sorted(os.listdir(os.path.join(TOP, "tests", "cases"))))
def test_cases(program, tally, folder):
    for path in offending(program, os.path.join("tests", "cases", folder)):
        judge(program, path, tally)
    tally.holds(folder, True)


@pytest.mark.parametrize("name", ours())
def test_ours(program, tally, name):
    tally.is_same(f"{name} offends", reference.check(read(path_of(name)))[1], 1)
    tally.holds(f"{name} is mended", judge(program, path_of(name), tally))


@pytest.mark.parametrize("name", ours())
def test_pictures(program, tally, name):
    judge_pictures(program, path_of(name), tally)


def test_no_picture(program, tally, tmp_path):
    """An accepted set is drawn as it is; a change that isn't there, and a run, are refused."""
    accepted = os.path.join(TOP, "examples", "payment.set")
    expected, _ = reference_picture.picture(read(accepted), before=read(accepted))
    tally.is_same("accepted", ends(program, "draw", accepted, "--mended", "1"), (expected, "", 0))
    offends = path_of(ours()[0])
    count = len(told(program, offends))
    if count < 10:
        tally.is_same("none", ends(program, "draw", offends, "--mended", str(count + 1)), ("", "lynx: no mending was found\n", 1))
    for number in ("0", "11", "x"):
        tally.is_same(number, ends(program, "draw", offends, "--mended", number)[2], 2)
    script = os.path.join(TOP, "examples", "payment.script")
    tally.is_same("a run", ends(program, "draw", accepted, script, "--mended", "1"), ("", "lynx: --mended draws no run\n", 2))


def test_random_sets(program, tally, tmp_path, seed):
    rng = random.Random(f"mend {seed}")
    for number in range(RANDOM_SETS):
        text, _ = set_text(rng)
        path = tmp_path / f"{number}.set"
        path.write_text(text, encoding="ascii")
        if reference.check(text)[1]:
            judge(program, str(path), tally)
            judge_pictures(program, str(path), tally, 1)
        else:
            tally.is_same(f"{path} is whole", ends(program, "mend", str(path)), ("nothing to mend\n", "", 0))
            tally.is_same(f"{path} is its own", ends(program, "mend", str(path), "--write", "1"), (text, "", 0))


def test_what_a_person_chooses(program, tally):
    changes = {name: told(program, path_of(name)) for name in ours()}
    whole = [name for name in changes if any(change.is_whole() for change in changes[name])]
    chosen = []
    for name in changes:
        lines = read(path_of(name)[:-4] + ".chosen").splitlines()
        if any(change.is_chosen(lines) for change in changes[name][:3]):
            chosen.append(name)
    print(f"{len(whole)} of {len(changes)} keep all programs whole, of {len(chosen)} a person's change is among the first three;"
          f" not of {' '.join(name for name in changes if name not in chosen)}")
    tally.is_same("sets", len(changes), 40)
    tally.holds("whole", len(whole) >= WHOLE)
    tally.holds("chosen", len(chosen) >= CHOSEN)


class Alone:
    """Requests over a set that run each alone: a begin, and then all its hops."""

    def __init__(self, text):
        self.chains = reference.Set(text)
        self.world = reference.World(self.chains)

    def ask(self, number, program, args):
        """The results of a request, or how it is refused."""
        words = ["begin", self.chains.origin(program), 1, number, program, *args]
        line = self.world.apply(" ".join(map(str, words)))
        if not line.startswith("begun "):
            return line.split(" stamp ")[0]
        chain = line.split(" ")[1]
        for hop in range(1, len(self.chains.hops(program))):
            self.world.apply(f"deliver {chain} {hop}")
        ran = [entry for entry in self.world.list if entry["kind"] != "refused" and reference.name(entry["chain"]) == chain]
        return [value for entry in ran for value in entry["results"]]

    def cells(self, tables):
        return {cell: value for cell, value in self.world.cells() if cell[0] in tables and value}


def requests(rng, chains):
    """Random requests: keys at the edges of shards, and small numbers."""
    edges = sorted({number for shards in chains.tables.values() for low, _, _ in shards for number in (low, low + 1)} | {5, 50})
    for number in range(REQUESTS):
        program = rng.choice(sorted(chains.programs))
        yield number, program, [rng.choice(edges) if rng.random() < 0.7 else rng.randrange(9)
                                for _ in chains.programs[program]["parameters"]]


@pytest.mark.parametrize("name", ours())
def test_decided(program, tally, name):
    """What one server decides is what was decided before. It may decide more: a key that is only read may lie anywhere."""
    text = read(path_of(name))
    for change in told(program, path_of(name)):
        if change.kinds() == [["decide"]]:
            first, mended = Alone(text), Alone(written(program, path_of(name), change.number))
            for number, asked, args in requests(random.Random(f"{name} {change.number}"), first.chains):
                answer = first.ask(number, asked, args)
                if answer not in ("wrong-shard", "outside-range"):
                    tally.is_same(f"{name} {change.number}: {asked} {args}", mended.ask(number, asked, args), answer)
            tally.is_same(f"{name} {change.number}: cells", mended.cells(first.chains.tables), first.cells(first.chains.tables))
    tally.holds(name, True)


def large_set(rng, actions):
    """64 programs of 8 hops each, so many actions in a hop, that meet at random."""
    lines = ["lynx 1", "servers 8", "table shared", *(f"shard {n * 10} {n * 10 + 9} {n}" for n in range(7)),
             f"shard 70 {reference.MASK} 7"]
    for number in range(64):
        lines.append(f"program p{number}")
        for hop in range(8):
            server = rng.randrange(8)
            lines.append(f"hop {server}")
            for action in range(actions):
                key = server * 10 + rng.randrange(10)
                lines.append(rng.choice([f"get n{hop}_{action} shared {key}", f"set shared {key} 1", f"add shared {key} 1"]))
        lines.append("end")
    return "".join(line + "\n" for line in lines)


@pytest.mark.alone
@pytest.mark.parametrize("actions", [1, 2, 4])
def test_large(program, tally, tmp_path, actions):
    path = tmp_path / "large.set"
    path.write_text(large_set(random.Random(1), actions), encoding="ascii")
    before = resource.getrusage(resource.RUSAGE_CHILDREN).ru_utime
    changes = told(program, str(path))
    spent = resource.getrusage(resource.RUSAGE_CHILDREN).ru_utime - before
    print(f"{actions} actions in a hop: {spent:.1f} s, {len(changes)} changes")
    tally.holds(f"{spent:.1f} s", spent < SECONDS)


@pytest.mark.parametrize("name", ours())
def test_hints(program, tally, name):
    """Where there is a smaller change, ranges aren't hinted at."""
    hints = ends(program, "check", "--why", "--hints", path_of(name))[1]
    first = told(program, path_of(name))[0].kinds()
    if first[0][0] not in ("range", "leave"):
        tally.is_same(name, hints, SEE_MEND)
    else:
        tally.holds(f"{name}: {hints}", "see lynx mend" not in hints)


def test_words(program, tally):
    """What isn't asked well, or isn't there."""
    path = path_of("bank-transfers")
    for number in ("0", "11", "x"):
        tally.is_same(f"--write {number}", ends(program, "mend", path, "--write", number)[2], 2)
    few = next(name for name in ours() if len(told(program, path_of(name))) < 10)
    tally.is_same("beyond the last", ends(program, "mend", path_of(few), "--write", "10"), ("", "lynx: no mending was found\n", 1))
    tally.is_same("no file", ends(program, "mend", "absent.set"), ("", "lynx: cannot read absent.set\n", 4))
