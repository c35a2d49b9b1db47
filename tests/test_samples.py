"""Random scripts that the program makes (`lynx sample`), of the sets under examples and tests/cases/verdicts and of random ones,
judged by the plain reading in tests/reference.py: each begin is begun or finds its server busy, no more begin than were asked
for, and in the end no chain owes a hop; the same words give the same script, other seeds give others; what `lynx run` prints of
it is what the plain reading prints; and with --cycle its run ends with a cycle, which no accepted set has. Of the sets for which
random runs by the plain reading come to a cycle, --cycle finds one for 98 of 100, each within some seconds of processor time."""
import os
import random
import resource
import subprocess

import reference
from random_sets import script, set_text
from serving import TOP

RANDOM_SETS = 60

NO_CYCLE = ("", "lynx: no run was found that ends with a cycle\n", 1)


# Seconds of a processor within which a cycle is found: one is promised, of a processor that nobody else uses.
SECONDS = 4

# Random runs by the plain reading that look for a cycle of a set, and the lines of each.
RUNS, LINES = 60, 24


def meets_a_cycle(text):
    """Whether a random run by the plain reading ends with a cycle."""
    chains, rng = reference.Set(text), random.Random(1)
    programs = [(name, len(program["parameters"]), chains.origin(name), len(program["hops"]))
                for name, program in chains.programs.items()]
    return any(reference.run(text, script(rng, text, programs, LINES))[1] for _ in range(RUNS))


def spent():
    """The processor time of the programs that were run, in seconds."""
    return resource.getrusage(resource.RUSAGE_CHILDREN).ru_utime


def stored_sets():
    """The sets of the repository that have no fault."""
    found = []
    for top in (os.path.join(TOP, "examples"), os.path.join(TOP, "tests", "cases", "verdicts")):
        for folder, _, files in sorted(os.walk(top)):
            for file in sorted(files):
                if file.endswith(".set"):
                    path = os.path.join(folder, file)
                    with open(path, encoding="ascii", errors="replace") as text:
                        found.append((os.path.relpath(path, TOP), text.read()))
    return found


def owes_nothing(world):
    """Whether each chain that began has done all its hops."""
    done = {(entry["chain"], entry["hop"]) for entry in world.list if entry["kind"] != "refused"}
    return all((entry["chain"], hop) in done for entry in world.list if entry["kind"] == "begun"
               for hop in range(len(world.chains.hops(entry["program"]))))


class Sampler:
    """The program, over a set in a file."""

    def __init__(self, lynx, room, tally):
        self.lynx, self.room, self.tally = lynx, room, tally
        self.found = self.sought = self.met = self.missed = 0

    def ends(self, *words):
        ran = subprocess.run([self.lynx, *words], stdin=subprocess.DEVNULL, capture_output=True, text=True, timeout=120)
        return ran.stdout, ran.stderr, ran.returncode

    def write(self, name, text):
        path = os.path.join(self.room, name)
        with open(path, "w", encoding="ascii") as file:
            file.write(text)
        return path

    def judge(self, name, text, script, begins):
        """Judges a script by the plain reading, and a run of it."""
        world = reference.World(reference.Set(text))
        told = [(line, world.apply(line)) for line in script.splitlines()]
        begun = [answer.split(" ")[0] for line, answer in told if line.startswith("begin ")]
        self.tally.holds(f"{name}: begins pass their checks", set(begun) <= {"begun", "busy"})
        self.tally.holds(f"{name}: not too many begin", begun.count("begun") <= begins)
        self.tally.holds(f"{name}: nothing is owed", owes_nothing(world))
        out, err, status = self.ends("run", self.write("set", text), self.write("script", script))
        self.tally.is_same(f"{name}: its run", (out, status, err), (*reference.run(text, script), ""))
        return begun

    def sample(self, name, text):
        """Scripts of three seeds."""
        path, scripts = self.write("set", text), []
        for seed, begins in (("0", 8), ("1", 8), ("18446744073709551615", 3)):
            words = ["sample", path, "--seed", seed, "--begins", str(begins)]
            script, err, status = self.ends(*words)
            self.tally.is_same(f"{name}, seed {seed}", (err, status), ("", 0))
            self.tally.is_same(f"{name}, seed {seed}, once more", self.ends(*words), (script, err, status))
            self.judge(f"{name}, seed {seed}", text, script, begins)
            scripts.append(script)
        self.tally.is_same(f"{name}, without words", self.ends("sample", path)[0], scripts[0])
        if reference.Set(text).programs:
            self.tally.holds(f"{name}: seeds matter", len(set(scripts)) == 3 or not scripts[0])

    def seek_cycle(self, name, text):
        """A script whose run ends with a cycle, or none."""
        got = self.ends("sample", self.write("set", text), "--cycle")
        if not reference.check(text)[1]:
            self.tally.is_same(f"{name} is accepted", got, NO_CYCLE)
            return
        self.sought += 1
        self.met += self.made_or_met(name, text, got)
        if got != NO_CYCLE:
            self.found += 1
            self.tally.is_same(f"{name}, --cycle", got[1:], ("", 0))
            self.judge(f"{name}, --cycle", text, got[0], 255)
            self.tally.is_same(f"{name} has a cycle", reference.run(text, got[0])[1], 1)

    def made_or_met(self, name, text, got):
        """Whether random runs come to a cycle, of which the search is to find one in time, and the same each time."""
        if not meets_a_cycle(text):
            return False
        self.missed += got == NO_CYCLE
        before = spent()
        self.tally.is_same(f"{name}, --cycle once more", self.ends("sample", self.write("set", text), "--cycle"), got)
        self.tally.holds(f"{name}: a cycle in time", spent() - before < SECONDS)
        return True


def test_samples(tally, program, tmp_path, pytestconfig):
    sampler = Sampler(program, tmp_path, tally)
    count = RANDOM_SETS * pytestconfig.getoption("--times")
    for name, text in stored_sets() + [(f"random set {seed}", set_text(random.Random(seed))[0]) for seed in range(count)]:
        if sampler.ends("check", sampler.write("set", text))[1]:
            continue
        sampler.sample(name, text)
        sampler.seek_cycle(name, text)
    tally.holds("cycles are found", sampler.missed * 50 <= sampler.met and sampler.met > 0)
    print(f"cycles were found of {sampler.found} of {sampler.sought} sets that offend, and of all but {sampler.missed} "
          f"of the {sampler.met} for which random runs met one")
