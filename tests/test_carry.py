"""Books closed by `lynx carry`, and new ones opened: whatever the set of the new stores is, their cells are by the system's sqlite3 and by
name those of the old ones, their history is lawful and owes nothing, and the old folder is as it was but for the file that closes it."""
import os
import random
import re
import shutil
import signal
import sqlite3
import subprocess
import threading
import time

import reference
from known import MOST, cells_in, histories_of
from serving import PAYMENT, TOP, Room, Service, WatchedService, end_of, files, owed, stored, wait_until
from test_stores import SCHEMA, byte, encoding, numbers, values, word
import lynx

# Two servers with accounts on both, and how the same bank may look a year later.
BANK = f"""lynx 1
servers 2
table acct
shard 0 999 0
shard 1000 {MOST} 1
table fee
shard 0 {MOST} 1
program seed0 k n
hop 0
add acct k n
end
program seed1 k n
hop 1
add acct k n
end
program charge k n
hop 1
set fee k n
end
program pay a b n
hop 0
get x acct a
need x >= n
sub acct a n
hop 1
add acct b n
end
"""

# The same programs, but keys have moved, and there is a third server.
MOVED = f"""lynx 1
servers 3
table fee
shard 0 4 2
shard 5 {MOST} 0
table acct
shard 0 499 1
shard 500 1999 2
shard 2000 {MOST} 0
program open0 k n l m
hop 0
add acct k n
add acct l m
end
program open1 k n l m i o
hop 1
add acct k n
add acct l m
add acct i o
end
program open2 k n
hop 2
set acct k n
end
program fees0 k n
hop 0
set fee k n
end
program fees2 k n f g
hop 2
set fee k n
set fee f g
end
"""

# The same bank on three servers, in which the programs to open accounts are new ones.
MOVED_BANK = f"""lynx 1
servers 3
table acct
shard 0 999 2
shard 1000 {MOST} 0
table fee
shard 0 {MOST} 1
program open2 k n
hop 2
add acct k n
end
program open0 k n
hop 0
add acct k n
end
program pay a b n
hop 2
get x acct a
need x >= n
sub acct a n
hop 0
add acct b n
end
"""

# One that writes by a turn at the server where others begin.
TURNED = f"""lynx 1
servers 2
table acct
shard 0 999 0
shard 1000 {MOST} 1
table fee
shard 0 {MOST} 1
program fill0 k n
hop 0
set acct k n
end
program fill1 t k n
hop 0
add acct t 0
hop 1
add acct k n
end
program fees k n l m
hop 1
set fee k n
set fee l m
end
"""

# One without a program for accounts at server 1, and one without fees.
MISSING = BANK.replace("program seed1 k n\nhop 1\nadd acct k n\nend\n", "")
FEELESS = BANK.replace(f"table fee\nshard 0 {MOST} 1\n", "").replace("program charge k n\nhop 1\nset fee k n\nend\n", "")
OFFENDING = """lynx 1
servers 2
table acct
shard 0 999 0
shard 1000 18446744073709551615 1
program there a b
hop 0
add acct a 1
get x acct a
hop 1
add acct b 1
end
program back a b
hop 1
get y acct b
hop 0
get x acct a
end
"""


# What is told of a folder whose books are closed.
CLOSED = "lynx: the books are closed; remove carried to go back, if the new ones were never served\n"

# One without a program for accounts at server 1: one that begins there would come between the hops of `look`, which meets `bonus`.
ASKED = f"""lynx 1
servers 2
table acct
shard 0 999 0
shard 1000 {MOST} 1
table fee
shard 0 {MOST} 1
program seed0 k n
hop 0
add acct k n
end
program look a b
hop 0
get x acct a
hop 1
get y acct b
end
program bonus a n
hop 1
add fee 0 1
hop 0
add acct a n
end
"""

# A bank whose accounts are opened four at a time, and one that takes eight entries to write a cell.
OPENED = f"""lynx 1
servers 1
table acct
shard 0 {MOST} 0
program open a n b m c l d k
hop 0
add acct a n
add acct b m
add acct c l
add acct d k
end
"""
DEAR = f"""lynx 1
servers 1
table acct
shard 0 {MOST} 0
program open t a n
""" + "hop 0\nadd acct t 0\n" * 7 + "hop 0\nadd acct a n\nend\n"


def big_bank(room, accounts):
    """Stores of OPENED with so many accounts, each of which holds its own number and one more."""
    base = sqlite3.connect(room.store(0))
    base.executescript(";".join(SCHEMA))
    base.executemany("INSERT INTO meta VALUES(?, ?)", enumerate(["lynx store 1", "0", OPENED], 1))
    entries = []
    for at in range(accounts // 4):
        args = [it for account in range(4 * at, 4 * at + 4) for it in (account, account + 1)]
        request = word(1) + word(at) + byte(0) + values(args)
        entries.append((at, encoding(0x22, request + word(0) + byte(0) + word(at) + numbers([(0, at)]) + word(at + 1) + values([]))))
    base.executemany("INSERT INTO entry VALUES(?, ?)", entries)
    base.executemany("INSERT INTO cell VALUES(0, ?, ?)", ((word(account), word(account + 1)) for account in range(accounts)))
    base.commit()
    base.close()


def year(chance, count):
    """A script over BANK in which all hops are done."""
    lines, chains = [], 0
    for number in range(1, count + 1):
        kind = chance.randrange(4)
        if kind == 0:
            lines.append(f"begin 0 1 {number} seed0 {chance.randrange(1000)} {chance.randrange(1, 90)}")
            chains += 1
        elif kind == 1:
            lines.append(f"begin 1 2 {number} seed1 {chance.choice((chance.randrange(1000, 3000), MOST))} {chance.randrange(1, 90)}")
        elif kind == 2:
            lines.append(f"begin 1 2 {number} charge {chance.randrange(12)} {chance.choice((0, chance.randrange(MOST)))}")
        else:
            lines += [f"begin 0 1 {number} seed0 7 50", f"begin 0 3 {number} pay 7 {chance.randrange(1000, 3000)} 5", f"deliver 0:{chains + 1} 1"]
            chains += 2
    return "\n".join(lines) + "\n"


def cells(room, folder, text):
    """The nonzero cells of the stores of a folder, by the names of their tables."""
    chains, found = reference.Set(text), {}
    here = room.stores
    room.stores = folder
    for server in range(chains.servers):
        for number, table in enumerate(chains.tables):
            for key, value in cells_in(room, server, number):
                if value:
                    found[table, key] = value
    room.stores = here
    return found


def carried(program, room, text, *words, to="next"):
    """What a carrying to the set of this text prints, and its status; and the folder."""
    folder = os.path.join(room.path, to)
    return end_of([program, "carry", *words, room.stores, folder, room.file("carry.set", text)]), folder


def entries_told(printed):
    """How many entries each server takes, as it was told, and how many are left to it; and the number of the books."""
    told = re.findall(r"(?m)^carry (\d+) (\d+) left (\d+)$", printed)
    assert all(int(taken) + int(left) == 1_000_000 for _, taken, left in told)
    return {int(server): int(taken) for server, taken, _ in told}, [int(books) for books in re.findall(r"(?m)^books (\d+)$", printed)]


def is_whole(tally, program, room, folder, text, wanted):
    """The stores of the folder are of the set, hold these cells, owe nothing, and are explained by an order."""
    tally.is_same("the cells", cells(room, folder, text), wanted)
    tally.is_same("nothing is owed", end_of([program, "owed", folder]), ("", "", 0))
    told, fault, status = end_of([program, "audit", folder])
    tally.is_same("the audit", (told.split("\n")[0], fault, status), ("closed", "", 0))
    return {int(line.split()[1]): int(line.split()[2]) for line in told.splitlines() if line.startswith("entries ")}


def test_carried(tally, program):
    """A year of a bank, carried to sets that are the same, extended, moved, and written otherwise."""
    chance = random.Random(11)
    extended = BANK + "program look k\nhop 0\nget x acct k\nend\n"
    for text in (BANK, extended, MOVED, TURNED):
        with Room(BANK) as room:
            tally.holds("the set is accepted", end_of([program, "check", room.file("next.set", text)])[2] == 0)
            tally.holds("a year", stored(program, room, year(chance, 60))[2] == 0)
            wanted = cells(room, room.stores, BANK)
            before = files(room.stores)
            (told, fault, status), folder = carried(program, room, text)
            entries, books = entries_told(told)
            tally.is_same("it is done", (fault, status, books), ("", 0, [2]))
            tally.is_same("the entries that were told", is_whole(tally, program, room, folder, text, wanted), entries)
            after = files(room.stores)
            tally.is_same("what closes the old books", after.pop("carried"), f"books 2\nto {folder}\n".encode())
            tally.is_same("the old stores", after, before)
            tally.is_same("what numbers the new ones", open(os.path.join(folder, "books")).read(), f"books 2\nfrom {room.stores}\n")
            tally.is_same("nothing is left over", sorted(os.listdir(room.path)), sorted({"set", "next", "carry.set", "next.set", "script", "stores"}))
            chains = reference.Set(text)
            again, room.stores = room.stores, folder
            begun = {entry["client"] for each in histories_of(room, chains) for entry in each if entry["kind"] == "begun"}
            room.stores = again
            tally.is_same("who began them", {client for client, _ in begun}, {MOST} if wanted else set())


def shards_of(chance, servers):
    """The lines of a table's shards, at random, and which servers have one."""
    bounds = sorted(chance.sample(range(1, 3000), chance.randrange(4)))
    owners = [chance.randrange(servers) for _ in range(len(bounds) + 1)]
    starts, ends = [0, *bounds], [bound - 1 for bound in bounds] + [MOST]
    return "".join(f"shard {low} {high} {owner}\n" for low, high, owner in zip(starts, ends, owners)), {*owners}


def writer_of(chance, table, number, server, turns):
    """A program that writes cells of the table at the server: one or more at a time, by `set` or `add`, some behind a turn elsewhere."""
    pairs = [(f"k{at}", f"n{at}") for at in range(chance.randrange(1, 4))]
    verb = chance.choice(("set", "add"))
    turn = chance.choice([None, *turns])
    lines = [f"program fill{number} " + " ".join(word for pair in pairs for word in pair) + (" t" if turn else "")]
    if turn:
        lines += [f"hop {turn[0]}", f"add {turn[1]} t 0"]
    lines += [f"hop {server}", *(f"{verb} {table} {key} {value}" for key, value in pairs), "end"]
    return "\n".join(lines) + "\n"


def random_set(chance):
    """The text of a set with the tables of BANK in some order, each with writers at the servers that have keys of it, and programs
    of BANK's that go on at their new servers or are left out."""
    servers, tables, writers = chance.randrange(1, 5), chance.sample(["acct", "fee"], 2), []
    text = f"lynx 1\nservers {servers}\n"
    for table in tables:
        lines, owners = shards_of(chance, servers)
        text += f"table {table}\n" + lines
        writers += [(table, owner) for owner in owners]
    turns = [(owner, table) for table, owner in writers]
    for number, (table, owner) in enumerate(writers):
        text += writer_of(chance, table, number, owner, [turn for turn in turns if turn[0] != owner] if chance.random() < 0.3 else [])
    return text


def replayed(room, folder, text):
    """The nonzero cells that the entries of the stores leave by the plain reading, and the hops that are owed by it."""
    chains, cells, hops = reference.Set(text), {}, {}
    here, room.stores = room.stores, folder
    for history in histories_of(room, chains):
        own = {}
        for entry in history:
            if entry["kind"] != "refused":
                own = reference.run_hop(chains, entry["program"], entry["hop"], entry["args"], entry["earlier"], own)[1]
                hops.setdefault((entry["chain"], entry["program"]), set()).add(entry["hop"])
        cells.update(own)
    room.stores = here
    owed = [chain for chain, done in hops.items() if done != set(range(len(chains.hops(chain[1]))))]
    return cells, owed


def test_random(tally, program, pytestconfig):
    """Random years, carried to random sets: the cells by the system's sqlite3 and by a plain reading of the entries."""
    chance, done = random.Random(29), 0
    for turn in range(25 * pytestconfig.getoption("--times")):
        with Room(BANK) as room:
            stored(program, room, year(chance, 40))
            wanted, text = cells(room, room.stores, BANK), random_set(chance)
            if end_of([program, "check", room.file("next.set", text)])[2] != 0:
                continue
            (told, fault, status), folder = carried(program, room, text)
            if fault == "lynx: the chains don't leave the cells\n":
                continue
            done += 1
            tally.is_same(f"{turn}", (fault, status), ("", 0))
            entries, _ = entries_told(told)
            tally.is_same(f"{turn}: the entries", is_whole(tally, program, room, folder, text, wanted), entries)
            tally.is_same(f"{turn}: the plain reading", replayed(room, folder, text), (wanted, []))
    tally.holds(f"{done} were carried", done >= 15 * pytestconfig.getoption("--times"))


def test_closed(tally, program):
    """While the old books are closed nobody is served over them, extends or carries them; without the file they are open again."""
    with Room(PAYMENT) as room:
        stored(program, room, "begin 0 1 1 seed 100\n")
        filler = PAYMENT + "program fill0 k n\nhop 0\nset acct k n\nend\nprogram fill1 k n\nhop 1\nset acct k n\nend\n"
        (_, _, status), folder = carried(program, room, filler)
        tally.is_same("it is done", status, 0)
        closed = ("", CLOSED, 4)
        for words in (["serve", room.set, room.stores, "7000"], ["extend", room.stores, room.file("more", filler)],
                      ["carry", room.stores, os.path.join(room.path, "other"), room.file("more", filler)],
                      ["run", "--stores", room.stores, room.set, room.file("script", "")]):
            tally.is_same(words[0], end_of([program, *words]), closed)
        hint = f"  {room.stores}/carried tells where they go on\n"
        told = end_of([program, "serve", "--hints", room.set, room.stores, "7000"])
        tally.is_same("with hints", told, ("", closed[1] + hint, 4))
        tally.is_same("they can still be read", end_of([program, "find", room.stores, "1", "1"])[2], 0)
        with Room(filler) as served:
            served.stores = folder
            with Service(program, served) as service:
                lynx.Client(folder).shut()
                tally.is_same("the new ones are served to their end", service.end()[2], 0)
        os.remove(os.path.join(room.stores, "carried"))
        tally.is_same("they are open again", end_of([program, "run", "--stores", room.stores, room.set, room.file("script", "")])[2], 0)


def test_refused(tally, program):
    """What isn't carried, and why; then nothing is made, and the old books are as they were."""
    with Room(BANK) as room:
        stored(program, room, "begin 0 1 1 seed0 1 10\nbegin 1 2 1 seed1 1500 3\nbegin 1 2 2 charge 4 9\n")
        wanted = cells(room, room.stores, BANK)
        before = files(room.stores)
        for text, words, fault, status in (
                (FEELESS, (), "lynx: table fee: the set has no such table\n", 1),
                (FEELESS, ("--drop", "fees"), "lynx: no such table\n", 2),
                ("lynx 1\n", (), "lynx: set line 2: bad-line\n", 2)):
            (told, why, ended), folder = carried(program, room, text, *words)
            tally.is_same(f"{words} {fault}", (told, why, ended, os.path.exists(folder), files(room.stores)), ("", fault, status, False, before))
        (proposed, why, ended), folder = carried(program, room, MISSING)
        tally.is_same("a missing writer", (proposed, why, ended, os.path.exists(folder), files(room.stores)), (
            "program carry_0 k n\nhop 1\nadd acct k n\nend\n", "lynx: table acct: no program writes its cell at server 1\n", 1, False, before))
        (told, why, ended), folder = carried(program, room, MISSING + proposed, to="proposed")
        tally.is_same("with the proposed one", (why, ended, cells(room, folder, MISSING + proposed)), ("", 0, wanted))
        os.remove(os.path.join(room.stores, "carried"))
        empty = os.path.join(room.path, "empty")
        os.mkdir(empty)
        tally.is_same("an empty folder, refused", (carried(program, room, MISSING, to="empty")[0][2], os.listdir(empty)), (1, []))
        (told, why, ended), folder = carried(program, room, BANK, to="empty")
        tally.is_same("an empty folder, taken", (why, ended, cells(room, folder, BANK)), ("", 0, wanted))
        os.remove(os.path.join(room.stores, "carried"))
        (told, why, ended), folder = carried(program, room, OFFENDING)
        tally.is_same("an offending set", (told.split("\n")[0].split()[0], why, ended, os.path.exists(folder)), ("offending", "", 1, False))
        for name in ("books", "server-0.lynx", "notes"):
            full = os.path.join(room.path, "full-" + name)
            os.mkdir(full)
            open(os.path.join(full, name), "w").close()
            (told, why, ended), _ = carried(program, room, BANK, to="full-" + name)
            tally.is_same(f"a folder with {name}", (told, why, ended, os.listdir(full)), ("", "lynx: DIR is no empty folder\n", 4, [name]))
        tally.is_same("the old books", files(room.stores), before)
        (told, why, ended), folder = carried(program, room, FEELESS, "--drop", "fee")
        tally.is_same("without fees", (why, ended, cells(room, folder, FEELESS)), ("", 0, {("acct", 1): 10, ("acct", 1500): 3}))
    with Room(BANK) as room:
        stored(program, room, "begin 0 1 1 seed0 1 10\nbegin 0 1 2 pay 1 1000 3\n")
        (told, why, ended), folder = carried(program, room, BANK)
        tally.is_same("what is owed", (told, why, ended, os.path.exists(folder)), ("owed 0:1 1 server 1 since 2\n", "", 1, False))


def test_killed(tally, program, pytestconfig):
    """A carrying that is killed leaves no stores in the new folder, or whole ones; the next one goes on from nothing."""
    chance = random.Random(17)
    with Room(BANK) as room:
        lines = [f"begin 0 1 {number} seed0 {number} 5" for number in range(1, 300)]
        tally.holds("many accounts", stored(program, room, "\n".join(lines) + "\n")[2] == 0)
        wanted, text = cells(room, room.stores, BANK), room.file("carry.set", BANK)
        began = time.monotonic()
        (_, _, status), whole = carried(program, room, BANK, to="first")
        took = time.monotonic() - began
        tally.is_same("one that isn't killed", (status, cells(room, whole, BANK)), (0, wanted))
        os.remove(os.path.join(room.stores, "carried"))
        folder, ends = os.path.join(room.path, "next"), 0
        for _ in range(6 * pytestconfig.getoption("--times")):
            ran = subprocess.Popen([program, "carry", room.stores, folder, text], stdout=subprocess.DEVNULL, stderr=subprocess.DEVNULL)
            time.sleep(chance.uniform(0.3, 1.02) * took)
            ran.send_signal(signal.SIGKILL)
            ran.wait()
            if os.path.exists(folder):
                ends += 1
                tally.is_same("what a kill left is whole", cells(room, folder, BANK), wanted)
                tally.holds("and the old books are closed", os.path.exists(os.path.join(room.stores, "carried")))
                os.remove(os.path.join(room.stores, "carried"))
                shutil.rmtree(folder)
        (_, fault, status), _ = carried(program, room, BANK)
        tally.is_same("the next one", (fault, status, cells(room, folder, BANK)), ("", 0, wanted))
        tally.is_same("nothing is left over", os.path.exists(folder + ".carrying"), False)


def test_each_step(tally, program):
    """A carrying that is killed at each of its calls that change folders or sync: then FROM is open, or closed with the room of the new
    books beside, or with these in their place. The same words go on, however DIR is spelled."""
    tally.finds("strace")
    for call in ("mkdir", "rename", "unlink", "fsync", "openat"):
        with Room(BANK) as room:
            stored(program, room, year(random.Random(3), 12))
            wanted, text = cells(room, room.stores, BANK), room.file("carry.set", MOVED)
            folder, whole = os.path.join(room.path, "next"), 0
            for at in range(1, 200):
                words = ["strace", "-f", "-qq", "-o", os.path.join(room.path, "trace"), "-e", f"trace={call}",
                         "-e", f"inject={call}:signal=KILL:when={at}", program, "carry", room.stores, folder, text]
                ran = subprocess.run(words, capture_output=True, text=True)
                if os.path.exists(folder):
                    tally.is_same(f"{call} {at}: whole", cells(room, folder, MOVED), wanted)
                    tally.holds(f"{call} {at}: closed", os.path.exists(os.path.join(room.stores, "carried")))
                    shutil.rmtree(folder)
                    os.remove(os.path.join(room.stores, "carried"))
                    whole += 1
                elif os.path.exists(os.path.join(room.stores, "carried")):
                    tally.holds(f"{call} {at}: the room is there", os.path.exists(os.path.join(folder + ".carrying", "books")))
                if ran.returncode == 0:
                    break
            tally.holds(f"{call}: it ended", ran.returncode == 0 and whole > 0)
            (_, fault, status), _ = carried(program, room, MOVED, to="./next/")
            tally.is_same(f"{call}: the next one", (fault, status, cells(room, folder, MOVED)), ("", 0, wanted))
            tally.holds(f"{call}: nothing is left over", not os.path.exists(folder + ".carrying"))


def test_power(tally, program, pytestconfig):
    """A loss of power at each sync of a carrying, which leaves what was synced and some of what was written since."""
    with Room(BANK) as room:
        library = os.path.join(room.path, "lose.so")
        subprocess.run(["gcc", "-O2", "-shared", "-fPIC", "-o", library, os.path.join(TOP, "tests", "lose.c"), "-ldl"], check=True)
        stored(program, room, year(random.Random(4), 30))
        wanted, text = cells(room, room.stores, BANK), room.file("carry.set", MOVED)
        before, folder = files(room.stores), os.path.join(room.path, "next")
        for at in range(1, 200):
            env = dict(os.environ, LD_PRELOAD=library, LYNX_LOSES=room.path, LYNX_LOSE_AT=str(at), LYNX_CHANCE=str(at))
            ran = subprocess.run([program, "carry", room.stores, folder, text], env=env, capture_output=True, text=True)
            if ran.returncode == 0:
                break
            after = files(room.stores)
            tally.is_same(f"{at}: the old stores", {name: after[name] for name in before}, before)
            if os.path.exists(folder):
                tally.is_same(f"{at}: whole", cells(room, folder, MOVED), wanted)
                shutil.rmtree(folder)
                os.remove(os.path.join(room.stores, "carried"))
        tally.holds("it ended", ran.returncode == 0 and at > 3)
        tally.is_same("the new stores", cells(room, folder, MOVED), wanted)


def test_full_disk(tally, program):
    """A disk that is full: the fault names it, the old books are open, and nothing is left beside."""
    with Room(BANK) as room:
        lines = [f"begin 0 1 {number} seed0 {number} 5" for number in range(1, 900)]
        tally.holds("many accounts", stored(program, room, "\n".join(lines) + "\n")[2] == 0)
        disk = os.path.join(room.path, "disk")
        os.mkdir(disk)
        mounted = subprocess.run(["mount", "-t", "tmpfs", "-o", "size=64k", "lynx", disk], capture_output=True, text=True)
        tally.is_same("a disk of 64 kB is mounted", mounted.stderr, "")
        if mounted.returncode:
            return
        try:
            (_, fault, status), _ = carried(program, room, BANK, to="disk/next")
            tally.is_same("it is full", (fault, status, os.listdir(disk)), ("lynx: store 0: store\n", 4, []))
            tally.holds("the old books are open", not os.path.exists(os.path.join(room.stores, "carried")))
        finally:
            subprocess.run(["umount", disk], check=True)


def test_in_the_way(tally, program):
    """Folders that no carrying made stay as they are, whatever their names are; and books that were carried aren't carried again."""
    with Room(BANK) as room:
        stored(program, room, "begin 0 1 1 seed0 1 10\n")
        before = files(room.stores)
        beside = os.path.join(room.path, "next.carrying")
        shutil.copytree(room.stores, beside)
        (_, fault, status), folder = carried(program, room, BANK)
        tally.is_same("a folder of that name", (fault, status, os.path.exists(folder)), ("lynx: DIR.carrying is there already\n", 4, False))
        tally.is_same("it is as it was", files(beside), before)
        room.stores = beside
        (_, fault, status), folder = carried(program, room, BANK)
        tally.is_same("the old folder has that name", (fault, status, files(beside)), ("lynx: DIR.carrying is there already\n", 4, before))
        room.stores = os.path.join(room.path, "stores")
        (_, fault, status), _ = carried(program, room, BANK, to="stores")
        tally.is_same("the old folder for the new one", (fault, status, files(room.stores)), ("lynx: DIR is no empty folder\n", 4, before))
        (_, fault, status), _ = carried(program, room, BANK, to="no/next")
        tally.is_same("no folder to make it in", (fault, status), (f"lynx: cannot write {os.path.join(room.path, 'no/next')}\n", 4))
        shutil.rmtree(beside)
        tally.is_same("it is done", carried(program, room, BANK)[0][2], 0)
        os.rename(folder, os.path.join(room.path, "live"))
        tally.is_same("not again", carried(program, room, BANK)[0], ("", CLOSED, 4))
        os.mkdir(folder + ".carrying")
        tally.is_same("not beside an empty room", carried(program, room, BANK)[0], ("", CLOSED, 4))
        for text in ("books 0\n", "books 18446744073709551615\n", "book 1\n", ""):
            with open(os.path.join(room.path, "live", "books"), "w", encoding="ascii") as file:
                file.write(text)
            room.stores = os.path.join(room.path, "live")
            tally.is_same(f"books {text!r}", carried(program, room, BANK, to="third")[0], ("", "lynx: cannot read the file books\n", 4))


def test_served_meanwhile(tally, program):
    """Stores that change while they are carried: nothing is carried, and the old books are open."""
    for meanwhile in ("written", "open"):
        with Room(BANK) as room:
            stored(program, room, year(random.Random(5), 30))
            folder = os.path.join(room.path, "next")
            ran = subprocess.Popen([program, "carry", room.stores, folder, room.file("carry.set", MOVED)], stdout=subprocess.PIPE,
                                   stderr=subprocess.PIPE, text=True)
            ran.stdout.readline()
            ran.send_signal(signal.SIGSTOP)
            tally.holds("the room is there", os.path.exists(folder + ".carrying"))
            if os.path.exists(os.path.join(room.stores, "carried")):
                tally.holds("stopped in time", False)
            if meanwhile == "written":
                tally.is_same("an entry more", stored(program, room, "begin 0 9 1 seed0 1 1\n")[2], 0)
                ran.send_signal(signal.SIGCONT)
                _, fault = ran.communicate()
            else:
                with Service(program, room) as service:
                    ran.send_signal(signal.SIGCONT)
                    _, fault = ran.communicate()
                    tally.holds("it is served", service.first.startswith("listening"))
            tally.is_same(meanwhile, (fault, ran.returncode), ("lynx: the stores were served meanwhile\n", 4))
            tally.is_same("nothing is left", sorted(os.listdir(room.path)), ["carry.set", "script", "set", "stores"])
            tally.holds("the old books are open", not os.path.exists(os.path.join(room.stores, "carried")))


def test_passed_on(tally, program):
    """Copies know of which books they are: by a restore, and in a folder that follows."""
    with Room(PAYMENT) as room:
        with open(os.path.join(room.stores, "books"), "w", encoding="ascii") as file:
            file.write("books 7\nfrom /old\n")
        copy = os.path.join(room.path, "copy")
        os.mkdir(copy)
        with Service(program, room, words=("--copy", copy)) as service:
            with lynx.Client(room.stores) as bank:
                tally.is_same("a client's books", bank.books, 7)
                bank.begin("seed", 5)
                bank.shut()
            tally.is_same("the service ends", service.end()[2], 0)
        tally.is_same("a folder that follows", open(os.path.join(copy, "books")).read(), "books 7\nfrom /old\n")
        back = os.path.join(room.path, "back")
        tally.is_same("restored", end_of([program, "restore", copy, back])[2], 0)
        tally.is_same("its books", open(os.path.join(back, "books")).read(), "books 7\nfrom /old\n")
        with open(os.path.join(copy, "carried"), "w", encoding="ascii") as file:
            file.write("books 8\nto /new\n")
        closed = os.path.join(room.path, "closed")
        tally.is_same("restored of closed books", end_of([program, "restore", copy, closed])[2], 0)
        room.stores = closed
        tally.is_same("they are closed", stored(program, room, "begin 0 9 1 seed 1\n"), ("", CLOSED, 4))


def test_more_refusals(tally, program):
    """Old books that a cycle explains, too many entries, and a program that is proposed with a turn."""
    with Room(OFFENDING) as room:
        script = "begin 0 1 1 there 1 1000\nbegin 1 2 1 back 1 1000\ndeliver 1:0 1\ndeliver 0:0 1\n"
        tally.is_same("a run with a cycle", stored(program, room, script)[2], 1)
        (told, fault, status), folder = carried(program, room, BANK)
        tally.is_same("a cycle", (told.splitlines()[-1].split()[0], fault, status, os.path.exists(folder)), ("cycle", "", 1, False))
    with Room(OPENED) as room:
        big_bank(room, 130_000)
        (told, fault, status), folder = carried(program, room, DEAR)
        tally.is_same("too many", (told, fault, status, os.path.exists(folder)), ("", "lynx: server 0: 1040000 entries are too many\n", 1, False))
    with Room(BANK) as room:
        stored(program, room, "begin 0 1 1 seed0 1 10\nbegin 1 2 1 seed1 1500 3\n")
        wanted = cells(room, room.stores, BANK)
        (proposed, fault, status), _ = carried(program, room, ASKED)
        tally.is_same("a program with a turn", (proposed, fault, status), (
            "program carry_0 k n\nhop 0\nadd acct 0 0\nhop 1\nadd acct k n\nend\n",
            "lynx: table acct: no program writes its cell at server 1\n", 1))
        (_, fault, status), folder = carried(program, room, ASKED + proposed)
        tally.is_same("with it", (fault, status, cells(room, folder, ASKED + proposed)), ("", 0, wanted))


def test_100_000_accounts(tally, program):
    """A bank of 100,000 accounts takes 25,000 entries, and seconds."""
    with Room(OPENED) as room:
        big_bank(room, 100_000)
        began = time.monotonic()
        (told, fault, status), folder = carried(program, room, OPENED)
        took = time.monotonic() - began
        tally.is_same("it is done", (told, fault, status), ("carry 0 25000 left 975000\nbooks 2\n", "", 0))
        tally.holds(f"in {took:.1f} s", took < 60)
        base = sqlite3.connect(os.path.join(folder, "server-0.lynx"))
        counted = base.execute("SELECT count(*), count(DISTINCT k) FROM cell").fetchone()
        base.close()
        tally.is_same("its cells", counted, (100_000, 100_000))
        print(f"100,000 accounts: {took:.1f} s, 25,000 entries")


class Payer(threading.Thread):
    """A client that goes by the link and pays 1 from account 1 to account 1000, one after the other, under numbers of its own. An
    answer that it lost over a change of books is found in the old ones."""

    def __init__(self, program, room, number):
        super().__init__()
        self.program, self.room, self.client, self.paid, self.stop, self.fault, self.lost = program, room, number, 0, False, None, 0
        self.start()

    def was_done(self, number):
        """What the old books say of the request."""
        told, _, status = end_of([self.program, "find", self.room.stores, str(self.client), str(number)])
        return status == 0 and told.startswith("begun")

    def run(self):
        bank, number, books = None, 0, None
        try:
            while not self.stop or books is not None:
                try:
                    bank = bank or lynx.Client(self.room.link, client=self.client, first=1, tries=3, timeout=10)
                    if books is None:
                        number, books = number + 1, bank.books
                    bank.begin("pay", 1, 1000, 1, number=number, books=books)
                    self.paid, books = self.paid + 1, None
                except lynx.BooksClosed:
                    self.lost, books = self.lost + 1, None
                    self.paid += self.was_done(number)
                except lynx.OtherSet:
                    bank = None
                except (lynx.NoService, lynx.Lost, lynx.Stopped, ConnectionError):
                    time.sleep(0.05)
        except Exception as fault:  # noqa: BLE001
            self.fault = repr(fault)


def quiet(tally, program, room):
    """Ends the service, and has all done that is owed, while no client finds it."""
    os.remove(room.link)
    for _ in range(20):
        if end_of([program, "owed", room.stores])[0] == "":
            return
        with WatchedService(program, room) as service:
            tally.holds("what is owed is done", wait_until(lambda: owed(service) == 0))
            lynx.Client(room.stores).shut()
            service.end()


def test_under_clients(tally, program):
    """Books closed under clients that go by a link: the sum of all accounts stays, and each payment was made once."""
    with Room(BANK) as room:
        room.link = os.path.join(room.path, "current")
        tally.is_same("money", stored(program, room, "begin 0 7 1 seed0 1 1000000\n")[2], 0)
        old, payers = room.stores, []
        os.symlink(room.stores, room.link)
        with Service(program, room) as service:
            payers = [Payer(program, room, number) for number in range(1, 7)]
            tally.holds("they pay", wait_until(lambda: all(payer.paid > 20 for payer in payers), 60))
            lynx.Client(room.link).shut()
            tally.is_same("the end of the old service", service.end()[2], 0)
        quiet(tally, program, room)
        before = sum(value for (table, _), value in cells(room, room.stores, BANK).items() if table == "acct")
        (_, fault, status), folder = carried(program, room, MOVED_BANK)
        tally.is_same("carried", (fault, status, before), ("", 0, 1_000_000))
        with Room(MOVED_BANK) as served:
            served.stores = folder
            os.symlink(folder, room.link)
            paid = sum(payer.paid for payer in payers)
            with WatchedService(program, served) as service:
                tally.holds("they go on", wait_until(lambda: sum(payer.paid for payer in payers) > paid + 100, 60))
                for payer in payers:
                    payer.stop = True
                for payer in payers:
                    payer.join()
                    tally.is_same("a client", payer.fault, None)
                tally.holds("what is owed is done", wait_until(lambda: owed(service) == 0))
                lynx.Client(room.link).shut()
                tally.is_same("the end of the new service", service.end()[2], 0)
            held = cells(room, folder, MOVED_BANK)
        paid = sum(payer.paid for payer in payers)
        tally.is_same("each payment was made once", (held["acct", 1], held["acct", 1000]), (1_000_000 - paid, paid))
        tally.is_same("the old books", end_of([program, "audit", old])[2], 0)
        tally.is_same("the new books", end_of([program, "audit", folder])[2], 0)
        print(f"{sum(payer.lost for payer in payers)} answers were lost over the change")
