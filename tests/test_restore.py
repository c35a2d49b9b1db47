"""`lynx restore` over copies of different moments, of runs that parted, and of a service that was killed. How much of copies fits
together is computed here once more, plainly: whatever hop's sender is missing goes, with all that is behind it at its server,
until nothing goes."""
import contextlib
import os
import random
import shutil
import signal
import sqlite3
import subprocess
import time

import pytest
from serving import PAYMENT, Room, Service, end_of, files, stored
import lynx as client

# What is told where there are stores.
OCCUPIED = ("", "lynx: there are stores already\n", 4)

RING = """lynx 1
servers 3
table acct
shard 0 99 0
shard 100 199 1
shard 200 18446744073709551615 2
program first n
hop 0
add acct 1 n
hop 1
add acct 101 n
hop 2
add acct 201 n
end
program second n
hop 1
add acct 102 n
hop 2
add acct 202 n
hop 0
add acct 2 n
end
program third n
hop 2
add acct 203 n
hop 0
add acct 3 n
hop 1
add acct 103 n
end
"""


def shown(program, store):
    """The lines of the entries of a store, and those of its cells."""
    out, fault, status = end_of([program, "show", store])
    if status != 0:
        raise ValueError(f"{store}: {fault}")
    lines = out.splitlines()[2:]
    return [line for line in lines if not line.startswith("cell ")], [line for line in lines if line.startswith("cell ")]


def hop_of(line):
    """The chain and the hop that an entry ran, by its line, or None of one that was refused."""
    words = line.split()
    return {"begun": lambda: (words[1], 0), "hop": lambda: (words[1], int(words[2]))}.get(words[0], lambda: None)()


def fitting(histories):
    """How many of the first entries of each history fit together, as many as can be."""
    counts = [len(history) for history in histories]
    while True:
        there = {hop_of(line) for history, count in zip(histories, counts) for line in history[:count]}
        for server, history in enumerate(histories):
            for place, line in enumerate(history[:counts[server]]):
                hop = hop_of(line)
                if hop and hop[1] > 0 and (hop[0], hop[1] - 1) not in there:
                    counts[server] = place
                    break
            else:
                continue
            break
        else:
            return counts


class Moments:
    """Copies of the stores of a run, one behind each of its events."""

    def __init__(self, program, room, events):
        self.room, self.path, self.count = room, os.path.join(room.path, "moments"), 0
        os.mkdir(self.path)
        for event in events:
            stored(program, room, event + "\n")
            shutil.copytree(room.stores, os.path.join(self.path, str(self.count)))
            self.count += 1

    def together(self, moments):
        """A folder with the copy of each server of its own moment."""
        found = os.path.join(self.room.path, "from")
        shutil.rmtree(found, ignore_errors=True)
        os.mkdir(found)
        for server, moment in enumerate(moments):
            shutil.copy(os.path.join(self.path, str(moment), f"server-{server}.lynx"), found)
        return found


def restored(tally, program, room, name, copies):
    """Restores copies, and compares what is told and kept with what fits together."""
    new = os.path.join(room.path, "new")
    shutil.rmtree(new, ignore_errors=True)
    os.mkdir(new)
    servers = range(len([it for it in os.listdir(copies) if it.endswith(".lynx")]))
    histories = [shown(program, os.path.join(copies, f"server-{server}.lynx"))[0] for server in servers]
    counts, before = fitting(histories), files(copies)
    told = "".join(f"restored {server} {counts[server]} of {len(histories[server])}\n" for server in servers)
    tally.is_same(f"{name}: told", end_of([program, "restore", copies, new]), (told, "", 0))
    tally.is_same(f"{name}: the copies", files(copies), before)
    tally.is_same(f"{name}: files", sorted(it for it in os.listdir(new) if not it.endswith("-wal")),
                  [f"server-{server}.lynx" for server in servers])
    for server in servers:
        entries, _ = shown(program, os.path.join(new, f"server-{server}.lynx"))
        tally.is_same(f"{name}: entries of {server}", entries, histories[server][:counts[server]])
    out, fault, status = end_of([program, "audit", new])
    tally.is_same(f"{name}: the audit", (out.split()[:2], fault, status), (["closed", "order"], "", 0))
    tally.is_same(f"{name}: what it counts", [line for line in out.splitlines() if line.startswith("entries")],
                  [f"entries {server} {counts[server]}" for server in servers])
    return counts


def test_pairs(tally, program):
    """All pairs of moments of the payment."""
    events = ("begin 0 1 1 seed 100", "begin 0 1 2 pay 30", "begin 0 1 3 pay 200", "deliver 0:1 1", "begin 0 1 4 pay 20",
              "deliver 0:2 1", "begin 0 1 5 pay 1")
    with Room(PAYMENT) as room:
        moments = Moments(program, room, events)
        for first in range(moments.count):
            for second in range(moments.count):
                counts = restored(tally, program, room, f"moments {first} {second}", moments.together((first, second)))
                tally.is_same(f"moments {first} {second}: by hand", counts,
                              [(1, 2, 3, 3, 4, 4, 5)[first], min((0, 0, 0, 1, 1, 2, 2)[second], (0, 1, 1, 1, 2, 2, 2)[first])])


def ring_events(rest, count):
    """Events at random: each chain begins at one of three servers and goes around."""
    found, owed, begun = [], [], [0, 0, 0]
    for number in range(count):
        if owed and rest.random() < 0.6:
            origin, index, hop = owed.pop(rest.randrange(len(owed)))
            found.append(f"deliver {origin}:{index} {hop}")
            if hop == 1:
                owed.append((origin, index, 2))
        else:
            origin = rest.randrange(3)
            found.append(f"begin {origin} 1 {number + 1} {('first', 'second', 'third')[origin]} {rest.randrange(10)}")
            owed.append((origin, begun[origin], 1))
            begun[origin] += 1
    return found


def test_ring(tally, program):
    """Moments at random of runs whose chains go around three servers: what goes at one may take more with it at the next."""
    rest, lost = random.Random(7), 0
    for run in range(3):
        with Room(RING) as room:
            moments = Moments(program, room, ring_events(rest, 40))
            for trial in range(12):
                chosen = [rest.randrange(12, moments.count) for _ in range(3)]
                counts = restored(tally, program, room, f"run {run}, moments {chosen}", moments.together(chosen))
                whole = [len(shown(program, os.path.join(moments.path, str(moment), f"server-{server}.lynx"))[0])
                         for server, moment in enumerate(chosen)]
                lost += counts != whole
    print(f"something goes in {lost} of 36 trials")
    tally.holds("something goes in many trials", lost >= 12)


def test_parted(tally, program):
    """Two runs that parted: the same chain with another amount is another one."""
    with Room(PAYMENT) as room:
        stored(program, room, "begin 0 1 1 seed 100\nbegin 0 1 2 pay 30\ndeliver 0:1 1\n")
        other, copies, new = (os.path.join(room.path, name) for name in ("other", "copies", "new"))
        shutil.copytree(room.stores, other)
        stored(program, room, "begin 0 1 3 pay 20\ndeliver 0:2 1\n")
        stored(program, room, "begin 0 1 3 pay 21\ndeliver 0:2 1\n", other)
        for second, wanted in ((room.stores, 2), (other, 1)):
            os.mkdir(copies)
            os.mkdir(new)
            shutil.copy(room.store(0), copies)
            shutil.copy(os.path.join(second, "server-1.lynx"), copies)
            tally.is_same(f"server 1 of {os.path.basename(second)}", end_of([program, "restore", copies, new]),
                          (f"restored 0 3 of 3\nrestored 1 {wanted} of 2\n", "", 0))
            tally.is_same("its cells", shown(program, os.path.join(new, "server-0.lynx"))[1], ["cell acct 0 50"])
            shutil.rmtree(copies)
            shutil.rmtree(new)


def test_void(tally, program):
    """What clients were answered that is void now, and which hops are undone, behind what is told."""
    with Room(RING) as room:
        moments = Moments(program, room, ("begin 0 7 1 first 5", "deliver 0:0 1", "begin 1 8 3 second 2", "begin 1 8 4 second 1"))
        new = os.path.join(room.path, "new")
        os.mkdir(new)
        stored(program, room, "")
        empty = os.path.join(room.path, "empty")
        os.mkdir(empty)
        stored(program, room, "", empty)
        copies = moments.together((0, 3, 3))
        shutil.copy(os.path.join(empty, "server-0.lynx"), copies)
        tally.is_same("told", end_of([program, "restore", "--hints", copies, new]),
                      ("restored 0 0 of 0\nrestored 1 0 of 3\nrestored 2 0 of 0\n",
                       "  undone: hop 1 of chain 0:0, at server 1\n"
                       "  void: what client 8 was answered under its number 3, at server 1: chain 1:0 goes with all that it did\n"
                       "  void: what client 8 was answered under its number 4, at server 1: chain 1:1 goes with all that it did\n", 0))


def test_owed_again(tally, program):
    """A hop that is undone of a chain whose begin stays is owed again."""
    with Room(RING) as room:
        other, copies, new = (os.path.join(room.path, name) for name in ("other", "copies", "new"))
        for folder in (other, copies, new):
            os.mkdir(folder)
        stored(program, room, "begin 0 7 1 first 5\ndeliver 0:0 1\nbegin 2 9 5 third 1\ndeliver 2:0 1\ndeliver 2:0 2\n")
        stored(program, room, "begin 2 9 5 third 1\ndeliver 2:0 1\n", other)
        for server, folder in ((0, other), (1, room.stores), (2, room.stores)):
            shutil.copy(os.path.join(folder, f"server-{server}.lynx"), copies)
        tally.is_same("told", end_of([program, "restore", "--hints", copies, new]),
                      ("restored 0 1 of 1\nrestored 1 0 of 2\nrestored 2 1 of 1\n",
                       "  undone: hop 1 of chain 0:0, at server 1\n  undone: hop 2 of chain 2:0, at server 1\n", 0))
        tally.is_same("owed", end_of([program, "owed", new]), ("owed 2:0 2 server 1 since 2\n", "", 0))


def test_refused(tally, program):
    """Folders that have stores, copies that aren't there, aren't whole, or that somebody serves."""
    with Room(PAYMENT) as room:
        stored(program, room, "begin 0 1 1 seed 100\nbegin 0 1 2 pay 30\ndeliver 0:1 1\n")
        copies, new = os.path.join(room.path, "copies"), os.path.join(room.path, "new")
        shutil.copytree(room.stores, copies)
        os.mkdir(new)
        before = files(room.stores)
        tally.is_same("into stores", end_of([program, "restore", copies, room.stores]), OCCUPIED)
        tally.is_same("into itself", end_of([program, "restore", copies, copies]), OCCUPIED)
        tally.is_same("the stores", files(room.stores), before)
        beside = os.path.join(new, "restore.new")
        shutil.copytree(copies, beside)
        tally.is_same("of where stores are made", end_of([program, "restore", beside, new]), OCCUPIED)
        tally.is_same("the copies there", [name for name in files(beside) if name.endswith(".lynx")], ["server-0.lynx", "server-1.lynx"])
        shutil.rmtree(beside)
        shutil.copy(room.store(0), os.path.join(new, "server-9.lynx"))
        tally.is_same("where a server has a store that the set hasn't", end_of([program, "restore", copies, new]), OCCUPIED)
        os.remove(os.path.join(new, "server-9.lynx"))
        absent = os.path.join(room.path, "absent")
        tally.is_same("into no folder, which can't be made", end_of([program, "restore", copies, os.path.join(absent, "new")]),
                      ("", "lynx: store 0: store\n", 4))
        tally.is_same("of no folder", end_of([program, "restore", absent, new]), ("", "lynx: store 0: store\n", 4))
        os.remove(os.path.join(copies, "server-1.lynx"))
        tally.is_same("a copy that is missing", end_of([program, "restore", copies, new]), ("", "lynx: store 1: damaged\n", 4))
        with open(os.path.join(copies, "server-1.lynx"), "w", encoding="ascii") as file:
            file.write("no database, and long enough for its head to be looked at\n" * 4)
        tally.is_same("a copy that is none", end_of([program, "restore", copies, new]), ("", "lynx: store 1: damaged\n", 4))
        with Service(program, room):
            tally.is_same("stores that are served", end_of([program, "restore", room.stores, new]), ("", "lynx: store 0: store\n", 4))
        tally.is_same("nothing was made", os.listdir(new), [])
        made = os.path.join(room.path, "made")
        shutil.copytree(room.stores, copies, dirs_exist_ok=True)
        tally.is_same("into a folder that isn't there", end_of([program, "restore", copies, made])[1:], ("", 0))
        tally.holds("it is made", os.path.exists(os.path.join(made, "server-1.lynx")) and not os.path.exists(os.path.join(made, "restore.new")))
        tally.is_same("a word too few", end_of([program, "restore", copies])[2], 2)


@pytest.mark.alone
def test_killed(tally, program):
    """A restore that is killed leaves no stores, or all, or some that no service takes; whoever begins anew has all."""
    rest = random.Random(11)
    begins = "begin 0 1 1 seed 100000\n" + "".join(
        f"begin 0 1 {number} pay 1\ndeliver 0:{number - 1} 1\n" for number in range(2, 400))
    with Room(PAYMENT) as room:
        stored(program, room, begins)
        new, wanted = os.path.join(room.path, "new"), "restored 0 399 of 399\nrestored 1 398 of 398\n"
        began = time.monotonic()
        os.mkdir(new)
        tally.is_same("whole", end_of([program, "restore", room.stores, new]), (wanted, "", 0))
        took, stopped = time.monotonic() - began, 0
        for trial in range(12):
            shutil.rmtree(new)
            os.mkdir(new)
            with subprocess.Popen([program, "restore", room.stores, new], stdout=subprocess.DEVNULL, stderr=subprocess.DEVNULL) as run:
                time.sleep(rest.random() * took)
                run.send_signal(signal.SIGKILL)
            there = [name for name in os.listdir(new) if name.startswith("server-") and name.endswith(".lynx")]
            if len(there) < 2:
                stopped += 1
                shutil.rmtree(new)
                os.mkdir(new)
            tally.is_same(f"kill {trial}, begun anew", end_of([program, "restore", room.stores, new]),
                          (wanted, "", 0) if len(there) < 2 else OCCUPIED)
            tally.is_same(f"kill {trial}, the audit", end_of([program, "audit", new])[2], 0)
        tally.holds("most kills came before its end", stopped >= 4)


def test_served(tally, program):
    """A service whose disk of server 0 is lost, with a copy of that server from before: the rest is restored, and clients ask
    again by their numbers."""
    with Room(PAYMENT) as room:
        copies, new = os.path.join(room.path, "copies"), os.path.join(room.path, "new")
        with Service(program, room) as service:
            bank = client.Client(room.stores, client=1, first=1)
            bank.begin("seed", 100)
            tally.is_same("paid", bank.begin("pay", 30).wait(5), [[100], []])
            client.Client(room.stores).shut()
            service.end()
        shutil.copytree(room.stores, copies)
        with Service(program, room) as service:
            tally.is_same("paid, and lost", client.Client(room.stores, client=1).begin("pay", 20, number=3).wait(5), [[70], []])
            client.Client(room.stores).shut()
            service.end()
        shutil.copy(room.store(1), copies)
        os.mkdir(new)
        tally.is_same("restored", end_of([program, "restore", copies, new]), ("restored 0 2 of 2\nrestored 1 1 of 2\n", "", 0))
        shutil.rmtree(room.stores)
        os.rename(new, room.stores)
        with Service(program, room) as service:
            asked = client.Client(room.stores, client=1, first=1)
            tally.is_same("the first stands", asked.begin("pay", 30, number=2).again, True)
            lost = asked.begin("pay", 20, number=3)
            tally.is_same("the lost one runs anew", (lost.again, lost.wait(5)), (False, [[70], []]))
            client.Client(room.stores).shut()
            tally.is_same("its end", service.end(), ("closed\norder 0:0 0:1 0:2\n", "", 0))


def scribble(store, page):
    """Other bytes in a page of a store."""
    with open(store, "r+b") as file:
        file.seek(page * 4096)
        file.write(random.Random(page).randbytes(4096))


def hurt(store, statement):
    """Changes rows of a store behind its back."""
    with contextlib.closing(sqlite3.connect(store)) as base, base:
        base.execute(statement)


def test_longest(tally, program):
    """Copies of which rows, pages or all are lost: the longest lawful fronts."""
    with Room(PAYMENT) as room:
        stored(program, room, "begin 0 1 1 seed 100\nbegin 0 1 2 pay 30\ndeliver 0:1 1\nbegin 0 1 3 pay 20\ndeliver 0:2 1\n")
        copies, new = os.path.join(room.path, "copies"), os.path.join(room.path, "new")
        first, second = (os.path.join(copies, f"server-{server}.lynx") for server in (0, 1))

        def restores(name, hurts, lines, told="", fault=""):
            """Restores copies that are hurt so: what is told with and without the option, and what an audit tells."""
            for folder in (copies, new):
                shutil.rmtree(folder, ignore_errors=True)
            shutil.copytree(room.stores, copies)
            os.mkdir(new)
            for store, how in hurts:
                if how is None:
                    os.remove(store)
                elif callable(how):
                    how(store)
                else:
                    hurt(store, how)
            before = files(copies)
            tally.is_same(f"{name}: without", end_of([program, "restore", copies, new]), ("", fault, 4) if fault else (lines, "", 0))
            shutil.rmtree(new)
            os.mkdir(new)
            tally.is_same(f"{name}: told", end_of([program, "restore", "--longest", "--hints", copies, new]), (lines, told, 0))
            tally.is_same(f"{name}: the copies", files(copies), before)
            tally.is_same(f"{name}: the audit", end_of([program, "audit", new])[2], 0)

        damaged, whole = "lynx: store {}: damaged\n".format, "restored 0 3 of 3\nrestored 1 2 of 2\n"
        undone = "  undone: hop 1 of chain 0:{}, at server 1\n".format
        restores("whole copies", (), whole)
        restores("a row of no entry", ((first, "update entry set body = x'00' where place = 2"),),
                 "restored 0 2 of 2\nrestored 1 1 of 2\n", undone(2), damaged(0))
        restores("a row that is gone", ((first, "delete from entry where place = 1"),),
                 "restored 0 1 of 1\nrestored 1 0 of 2\n", undone(1) + undone(2), damaged(0))
        restores("a hop that stands twice", (
            (second, "update entry set body = (select body from entry where place = 0) where place = 1"),),
                 "restored 0 3 of 3\nrestored 1 1 of 2\n", "", damaged(1))
        restores("cells that are gone", ((first, "delete from cell"),), whole, "", damaged(0))
        restores("a missing copy", ((second, None),), "restored 0 3 of 3\nrestored 1 0 of 0\n", "", damaged(1))
        restores("the first is missing", ((first, None),),
                 "restored 0 0 of 0\nrestored 1 0 of 2\n", undone(1) + undone(2), "lynx: store 0: store\n")
        lost = "restored 0 3 of 3\nrestored 1 0 of 0\n"
        restores("a copy that is cut", ((second, lambda store: os.truncate(store, 12288)),), lost, "", "lynx: store 1: store\n")
        for page in range(1, os.path.getsize(os.path.join(room.stores, "server-1.lynx")) // 4096):
            restores(f"page {page} has other bytes", ((second, lambda store, page=page: scribble(store, page)),), lost, "", "lynx: store 1: store\n")
        os.remove(first)
        os.remove(second)
        shutil.rmtree(new)
        os.mkdir(new)
        tally.is_same("nothing is there", end_of([program, "restore", "--longest", copies, new]), ("", damaged(0), 4))
        tally.is_same("nothing was made", os.listdir(new), [])
        made = os.path.join(room.path, "made")
        shutil.copytree(room.stores, copies, dirs_exist_ok=True)
        tally.is_same("into a folder that isn't there", end_of([program, "restore", copies, made])[1:], ("", 0))
        tally.holds("it is made", os.path.exists(os.path.join(made, "server-1.lynx")) and not os.path.exists(os.path.join(made, "restore.new")))
