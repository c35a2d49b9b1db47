"""What commands of the built program take over stores of many entries, beside sqlite3, which dumps the same stores: rows of
tests/bench. A command has a fresh copy of the stores, and what it prints goes nowhere. The seconds are those of the whole program; of
`serve` those until it listens, and from `shut` until it has ended. The memory is the most that it had at a time. The ratio is the
dump's time by that of the command, so that machines can be compared; of `check` it is that of the smallest set."""
import os
import shutil
import subprocess
import sys
import tempfile
import time

from serving import PAYMENT, end_of, free_port, script
import lynx

PROGRAMS, HOPS, ACTIONS = 64, 8, 10
SECOND = PAYMENT.replace("lynx 1", "lynx 2", 1)


def ran(words):
    """The seconds that a program takes, and the kilobytes that it had at most."""
    since = time.perf_counter()
    child = os.posix_spawn(words[0], words, os.environ, file_actions=[
        (os.POSIX_SPAWN_OPEN, 0, os.devnull, os.O_RDONLY, 0), (os.POSIX_SPAWN_OPEN, 1, os.devnull, os.O_WRONLY, 0)])
    _, status, usage = os.wait4(child, 0)
    seconds = time.perf_counter() - since
    if os.waitstatus_to_exitcode(status) not in (0, 1):
        sys.exit(f"{' '.join(words)}: status {os.waitstatus_to_exitcode(status)}")
    return seconds, usage.ru_maxrss


def peak(pid):
    """The kilobytes that a running program had at most."""
    with open(f"/proc/{pid}/status", encoding="ascii") as file:
        return next(int(line.split()[1]) for line in file if line.startswith("VmHWM:"))


def served(built, text, folder):
    """The seconds until a service listens and from its end's beginning to its end, each with the kilobytes that it had at most."""
    port, path = free_port(), os.path.join(os.path.dirname(folder), "set")
    with open(path, "w", encoding="ascii") as file:
        file.write(text)
    since = time.perf_counter()
    service = subprocess.Popen([built, "serve", path, folder, str(port)], stdin=subprocess.DEVNULL, stdout=subprocess.PIPE, text=True)
    first = service.stdout.readline()
    start = time.perf_counter() - since
    if not first.startswith("listening "):
        sys.exit(f"serve: {first!r}")
    opened = peak(service.pid)
    since = time.perf_counter()
    lynx.Client(port, path).shut()
    service.stdout.read()
    _, status, usage = os.wait4(service.pid, 0)
    end = time.perf_counter() - since
    service.returncode = os.waitstatus_to_exitcode(status)
    if service.returncode:
        sys.exit(f"serve: status {service.returncode}")
    return (start, opened), (end, usage.ru_maxrss)


class Stores:
    """Folders of the two stores of a payment, of each version, the first with so many entries."""

    def __init__(self, built, room, count):
        self.built, self.room = built, room
        self.of = {version: os.path.join(room, f"stores-{version}") for version in (1, 2)}
        script("make_stores").make(count, self.of[1])
        shutil.copytree(self.of[1], self.of[2])
        for server in (0, 1):
            out, err, status = end_of([built, "upgrade", os.path.join(self.of[2], f"server-{server}.lynx")])
            if status:
                sys.exit(f"upgrade: {err or out}")

    def copy(self, version):
        """A fresh copy of the stores, in a folder of its own."""
        folder = os.path.join(tempfile.mkdtemp(dir=self.room), "stores")
        shutil.copytree(self.of[version], folder)
        return folder

    def grown(self):
        """The path of a set that extends the one of the stores, at version 2."""
        path = os.path.join(self.room, "grown")
        with open(path, "w", encoding="ascii") as file:
            file.write(SECOND + "program more\nhop 0\nadd acct 0 1\nend\n")
        return path


def commands(stores, folder, version):
    """The words of each command over the stores of a folder."""
    first = os.path.join(folder, "server-0.lynx")
    yield "show", [stores.built, "show", first]
    yield "audit", [stores.built, "audit", folder]
    yield "restore", [stores.built, "restore", folder, folder + ".restored"]
    if version == 1:
        yield "upgrade", [stores.built, "upgrade", first]
    yield "extend to version 2", [stores.built, "extend", folder, stores.grown()]


def store_rows(built, room, count, rounds):
    """A line for each command over stores of so many entries."""
    stores = Stores(built, room, count)
    for version in (1, 2):
        least = {}
        for _ in range(rounds):
            for name, seen in measured(stores, version):
                before = least.get(name, seen)
                least[name] = tuple(map(min, before, seen))
        dump = least.pop("dump")[0]
        for name, (seconds, kilobytes) in least.items():
            yield row(f"`{name}` {count:,} v{version}", seconds, kilobytes, dump)


def measured(stores, version):
    """The seconds and kilobytes of each command, each over a copy of its own."""
    folder = stores.copy(version)
    yield "dump", ran([shutil.which("sqlite3"), os.path.join(folder, "server-0.lynx"), ".dump"])
    for name, words in [*commands(stores, folder, version)]:
        own = stores.copy(version)
        yield name, ran([word.replace(folder, own) for word in words])
        shutil.rmtree(os.path.dirname(own))
    start, end = served(stores.built, PAYMENT if version == 1 else SECOND, folder)
    yield "serve` until it listens,", start
    yield "serve` from `shut` to its end,", end
    shutil.rmtree(os.path.dirname(folder))


def worst_set():
    """A set as large as one may be, in which each hop adds to cells to which each other hop adds."""
    tables = "abcdefgh"
    hops = "".join(f"hop {at}\n" + "".join(f"add {tables[at]} {key} 1\n" for key in range(ACTIONS)) for at in range(HOPS))
    shards = "".join(f"table {name}\nshard 0 {2 ** 64 - 1} {at}\n" for at, name in enumerate(tables))
    return f"lynx 1\nservers {HOPS}\n{shards}" + "".join(f"program p{at}\n{hops}end\n" for at in range(PROGRAMS))


def check_rows(built, room, rounds):
    """A line for each way to judge a set as large as one may be."""
    small, large = os.path.join(room, "small"), os.path.join(room, "large")
    for path, text in ((small, PAYMENT), (large, worst_set())):
        with open(path, "w", encoding="ascii") as file:
            file.write(text)
    least = min(ran([built, "check", small])[0] for _ in range(rounds))
    for name, words in (("check", []), ("check --why", ["--why"]), ("check --why --all", ["--why", "--all"])):
        seen = [ran([built, "check", *words, large]) for _ in range(rounds)]
        yield row(f"`{name}` of {PROGRAMS} programs", *map(min, zip(*seen)), least)


def row(name, seconds, kilobytes, base):
    return f"| {name.replace(',`', ',')} | {seconds:.3f} s | {kilobytes / 1000:,.0f} MB | {base / seconds:.2f} |\n"


def rows(built, count, rounds):
    """The lines of the table."""
    with tempfile.TemporaryDirectory(prefix="lynx-commands-") as room:
        yield from check_rows(built, room, rounds)
        yield from store_rows(built, room, count, rounds)
