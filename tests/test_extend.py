"""Stores given to sets that extend theirs. Whether a set extends another is read here once more, from their texts alone."""
import glob
import hashlib
import os
import random
import re
import shutil
import sqlite3
import subprocess
import time

import pytest
import reference
from serving import PAYMENT, TOP, Room, Service, end_of
import lynx as client

READER = """program read
hop 1
get z acct 1000
end
"""

NOTE = """program note n
hop 2
add note 0 n
end
"""

# A server, a table and two programs more.
GROWN = PAYMENT.replace("servers 2\n", "servers 3\n").replace(
    "program seed", "table note\nshard 0 18446744073709551615 2\nprogram seed") + READER + NOTE

# The same at version 2, with what only that version has.
GREATEST = GROWN.replace("lynx 1\n", "lynx 2\n") + "program top n\nhop 2\nmax note 1 n\nend\n"

# Begun, and the second hop of the payment not delivered.
OWING = "begin 0 1 1 seed 100\nbegin 0 1 2 pay 30\n"

WHOLE_ORDER = "closed\norder 0:0 0:1 1:0 2:0\n"


# How many changes of a line are tried, and how many kills.
CHANGED_LINES, KILLS = 900, 20


# ---- whether a set extends another, from their texts

def parts_of(text):
    """The version, the count of servers, and the lines of each table and of each program."""
    lines = text.splitlines()
    tables, programs = [], []
    for line in lines[2:]:
        word = line.split(" ")[0]
        if word == "table":
            tables.append([line])
        elif word == "program":
            programs.append([line])
        elif programs:
            programs[-1].append(line)
        else:
            tables[-1].append(line)
    return int(lines[0].split(" ")[1]), int(lines[1].split(" ")[1]), tables, programs


def why_not(old, new):
    """The word for why the new text's set doesn't extend the old one's, None where it does."""
    old_version, old_servers, old_tables, old_programs = parts_of(old)
    version, servers, tables, programs = parts_of(new)
    if version < old_version:
        return "other-version"
    if servers < old_servers or tables[:len(old_tables)] != old_tables or programs[:len(old_programs)] != old_programs:
        return "other-set"
    return None


def lines_of(old, new, entries):
    """What is printed of stores of the old set, whose servers have so many entries, that the new one gets."""
    old_servers, servers = parts_of(old)[1], parts_of(new)[1]
    made = "".join(f"made {server}\n" for server in range(old_servers, servers))
    if old == new:
        return made + "".join(f"same {server}\n" for server in range(old_servers))
    return made + "".join(f"extended {server} {entries[server]}\n" for server in range(old_servers))


# ---- folders of stores

def filled(program, room, script, set_text=None):
    """Makes the stores of the room by a run."""
    path = room.file("run-set", set_text) if set_text else room.set
    out, err, status = end_of([program, "run", "--stores", room.stores, path, room.file("script", script)])
    if status or err:
        pytest.fail(f"no stores were made: {out}{err}")


def states(folder):
    """The bytes of each store's file, by a hash. Whoever opens a store writes the head of its log."""
    found = {}
    for name in sorted(name for name in os.listdir(folder) if not name.endswith("-wal")):
        with open(os.path.join(folder, name), "rb") as file:
            found[name] = hashlib.sha256(file.read()).hexdigest()
    return found


def extend(program, room, text, *options):
    return end_of([program, "extend", room.stores, room.file("next", text), *options])


def shown(program, room, servers):
    return [end_of([program, "show", room.store(server)])[0] for server in range(servers)]


def meta(path):
    conn = sqlite3.connect(path)
    try:
        return [row[0] for row in conn.execute("SELECT txt FROM meta ORDER BY id")]
    finally:
        conn.close()


def test_worked(tally, program, room):
    """What was owed under the old set is done under the new one, and all takes its place in one order."""
    filled(program, room, OWING)
    before = shown(program, room, 2)
    tally.is_same("extended", extend(program, room, GROWN), ("made 2\nextended 0 2\nextended 1 0\n", "", 0))
    tally.is_same("entries and cells", shown(program, room, 2), before)
    tally.is_same("a new store", shown(program, room, 3)[2], "server 2\nentries 0\n")
    for server in range(3):
        tally.is_same(f"meta of {server}", meta(room.store(server)), ["lynx store 1", str(server), GROWN])
    tally.is_same("again", extend(program, room, GROWN), ("same 0\nsame 1\nsame 2\n", "", 0))
    old = room.set
    room.set = room.file("grown", GROWN)
    with Service(program, room) as service:
        asked = client.Client(service.port, old, client=1, first=1)
        tally.is_same("an old request", asked.begin("pay", 30, number=2).again, True)
        chain = client.Chain(0, 1)
        tally.is_same("what was owed", asked.look(chain, 1, wait=10).results, [])
        new = client.Client(service.port, room.set, client=2, first=1)
        tally.is_same("a new program", new.begin("read", number=1).results, [30])
        tally.is_same("a new server", new.begin("note", 7, number=2).results, [])
        asked.close()
        new.shut()
        tally.is_same("the end", service.end(), (WHOLE_ORDER, "", 0))
    room.set = old
    with Service(program, room) as service:
        tally.is_same("the old set", service.end(), ("", "lynx: store 0: other-set\n", 4))


def test_rising(tally, program, room):
    """Version 1 rises to 2, and the hops are kept then; it doesn't fall."""
    filled(program, room, OWING + "deliver 0:1 1\n")
    before = shown(program, room, 2)
    tally.is_same("rises", extend(program, room, GREATEST), ("made 2\nextended 0 2\nextended 1 1\n", "", 0))
    tally.is_same("entries and cells", shown(program, room, 2), before)
    for server, hops in enumerate([[(0, b"\0" * 8, 0, 0), (0, b"\0" * 7 + b"\1", 0, 1)], [(0, b"\0" * 7 + b"\1", 1, 0)], []]):
        conn = sqlite3.connect(room.store(server))
        tally.is_same(f"hops of {server}", conn.execute("SELECT * FROM acted ORDER BY place").fetchall(), hops)
        conn.close()
        tally.is_same(f"meta of {server}", meta(room.store(server))[0], "lynx store 2")
    kept = states(room.stores)
    tally.is_same("falls", extend(program, room, GROWN), ("", "lynx: store 0: other-version\n", 4))
    tally.is_same("files of a refusal", states(room.stores), kept)
    tally.is_same("why it falls", extend(program, room, GROWN, "--hints")[1],
                  "lynx: store 0: other-version\n  the store's set is of version 2, and this one of version 1\n")


def test_refused(tally, program, room):
    """What isn't extended, and that nothing of it is touched."""
    filled(program, room, OWING)
    kept = states(room.stores)

    def fails(name, text, told, status=4, *options):
        tally.is_same(name, extend(program, room, text, *options), (told[0], told[1], status))
        tally.is_same(f"files after {name}", states(room.stores), kept)

    offending = GROWN + "program both\nhop 1\nget a acct 1000\nhop 0\nget b acct 0\nend\n"
    check = end_of([program, "check", room.file("offending", offending)])
    tally.is_same("a set that offends", check[2], 1)
    fails("an offending set", offending, check[:2], 1)
    fails("a faulty set", GROWN + "end\n", ("", f"lynx: set line {len(GROWN.splitlines()) + 1}: bad-line\n"), 2)
    fails("another set", GROWN.replace("acct", "cash"), ("", "lynx: store 0: other-set\n"))
    fails("another program", GROWN.replace("need x >= n", "need x > n"),
          ("", "lynx: store 0: other-set\n  line 13 of the store's set: need x >= n\n"
           "  line 15 of this set: need x > n\n"), 4, "--hints")
    fails("other shards", GROWN.replace("999", "998").replace("1000 1844", "999 1844"),
          ("", "lynx: store 0: other-set\n  line 4 of the store's set: shard 0 999 0\n"
           "  line 4 of this set: shard 0 998 0\n"), 4, "--hints")
    fewer = PAYMENT.split("program pay")[0]
    fails("a program less", fewer, ("", "lynx: store 0: other-set\n  program 1 of the store's set, counted from 0, "
                                    "isn't there: what a set has stays in each that extends it\n"), 4, "--hints")
    one = "lynx 1\nservers 1\n"
    fails("a server less", one, ("", "lynx: store 0: other-set\n  the store's set has 2 servers, and this one 1\n"), 4,
          "--hints")
    tally.is_same("a file that isn't there", end_of([program, "extend", room.stores, "nowhere.set"]),
                  ("", "lynx: cannot read nowhere.set\n", 4))
    tally.is_same("a folder that isn't there", end_of([program, "extend", room.path + "/nowhere", room.set]),
                  ("", "lynx: store 0: store\n", 4))
    tally.is_same("no words", end_of([program, "extend"])[2], 2)
    with Service(program, room) as service:
        tally.holds("listening", service.first)
        tally.is_same("a folder that is served", extend(program, room, GROWN), ("", "lynx: store 0: store\n", 4))
    old = room.set
    room.set = room.file("grown", GROWN)
    served = end_of([program, "serve", room.set, room.stores, "1", "--hints"])
    tally.is_same("served before", served, (
        "", "lynx: store 0: other-set\n  this set extends that of the store: lynx extend DIR SET gives the stores to it\n",
        4))
    room.set = old
    with open(room.store(1), "r+b") as file:
        file.write(b"no database")
    tally.is_same("no database", extend(program, room, GROWN), ("", "lynx: store 1: damaged\n", 4))


# What is done to a folder's first store by the system's sqlite3, the set that it is to be given to then, and what is told.
CHANGED = [
    ("UPDATE meta SET txt = 'lynx store 3' WHERE id = 1", GROWN, "other-version"),
    ("UPDATE meta SET txt = '1' WHERE id = 2", GROWN, "other-set"),
    ("INSERT INTO cell VALUES(1, x'0000000000000000', x'0000000000000001')", GROWN, "damaged"),
    ("INSERT INTO entry SELECT 2, body FROM entry WHERE place = 1", GREATEST, "damaged"),
    ("DELETE FROM entry WHERE place = 0", GROWN, "damaged"),
]


def test_changed(tally, program):
    """What other hands did to a store is told, and nothing of the folder is touched."""
    for statement, text, word in CHANGED:
        with Room(PAYMENT) as room:
            filled(program, room, OWING)
            conn = sqlite3.connect(room.store(0))
            conn.executescript(statement)
            conn.close()
            kept = states(room.stores)
            tally.is_same(statement, extend(program, room, text), ("", f"lynx: store 0: {word}\n", 4))
            tally.is_same(f"files after {statement}", states(room.stores), kept)


def test_halves(tally, program):
    """A folder a part of which was extended goes on, and a store that is gone is not made anew."""
    with Room(PAYMENT) as room, Room(PAYMENT) as other:
        filled(program, room, OWING)
        shutil.copytree(room.stores, other.stores, dirs_exist_ok=True)
        extend(program, other, GROWN)

        def mixed(name, grown, gone, wanted):
            """The stores of some servers are those that were extended, and some are gone."""
            with Room(PAYMENT) as mix:
                for server in range(3):
                    source = other if server in grown else room
                    if server not in gone and os.path.exists(source.store(server)):
                        for end in ["", "-wal"]:
                            if os.path.exists(source.store(server) + end):
                                shutil.copy(source.store(server) + end, mix.store(server) + end)
                kept = states(mix.stores)
                tally.is_same(name, extend(program, mix, GROWN), wanted)
                if wanted[2]:
                    tally.is_same(f"files after {name}", states(mix.stores), kept)
                else:
                    tally.is_same(f"again after {name}", extend(program, mix, GROWN), ("same 0\nsame 1\nsame 2\n", "", 0))

        mixed("all are old", [], [], ("made 2\nextended 0 2\nextended 1 0\n", "", 0))
        mixed("the new one is made", [2], [], ("extended 0 2\nextended 1 0\nsame 2\n", "", 0))
        mixed("the first is extended", [0, 2], [], ("same 0\nextended 1 0\nsame 2\n", "", 0))
        mixed("the second is extended", [1, 2], [], ("extended 0 2\nsame 1\nsame 2\n", "", 0))
        mixed("all are extended", [0, 1, 2], [], ("same 0\nsame 1\nsame 2\n", "", 0))
        mixed("an old one is gone", [], [1], ("", "lynx: store 1: damaged\n", 4))
        mixed("the first is gone", [], [0], ("", "lynx: store 0: damaged\n", 4))
        mixed("an old one is gone beside the new one", [2], [1], ("", "lynx: store 1: damaged\n", 4))
        mixed("one that was extended is gone", [0, 1, 2], [0], ("", "lynx: store 0: damaged\n", 4))
        mixed("a new one is gone", [0, 1], [2], ("", "lynx: store 2: damaged\n", 4))
        mixed("a new one is gone while an old one waits", [1], [2], ("", "lynx: store 2: damaged\n", 4))
        mixed("all are gone", [], [0, 1, 2], ("", "lynx: store 0: damaged\n", 4))
        os.rename(room.store(0), room.store(7))
        os.rename(room.store(1), room.store(0))
        os.rename(room.store(7), room.store(1))
        tally.is_same("stores of each other's names", extend(program, room, GROWN, "--hints"),
                      ("", "lynx: store 0: other-set\n  it is the store of server 1\n", 4))


def texts(random_sets=40):
    """Set texts of the repository, and random ones."""
    choose = random.Random(11)
    found = {reference.small_set(choose) for _ in range(random_sets)}
    names = glob.glob(os.path.join(TOP, "examples", "**", "*.set"), recursive=True)
    names += glob.glob(os.path.join(TOP, "tests", "cases", "**", "*.set"), recursive=True)
    for name in sorted(names):
        with open(name, encoding="utf-8", errors="replace") as file:
            found.add(file.read())
    return sorted(found)


def changes(text, choose):
    """The text with one line changed, taken away, repeated or added, in each way that is thought of here."""
    lines = text.splitlines(keepends=True)
    yield text
    yield text.replace("lynx 1\n", "lynx 2\n", 1)
    yield text.replace("lynx 2\n", "lynx 1\n", 1)
    for more in [1, 2]:
        yield re.sub(r"\nservers (\d+)\n", lambda found: f"\nservers {int(found[1]) + more}\n", text, count=1)
    yield re.sub(r"\nservers (\d+)\n", lambda found: f"\nservers {int(found[1]) - 1}\n", text, count=1)
    yield text + "program one_more\nhop 0\nlet a 1 + 1\nend\n"
    yield text.replace("\nprogram ", "\ntable one_more\nshard 0 18446744073709551615 0\nprogram ", 1)
    for place, line in enumerate(lines):
        head, tail = lines[:place], lines[place + 1:]
        yield "".join(head + tail)
        yield "".join(head + [line, line] + tail)
        yield "".join(head + [re.sub(r"\d+", lambda found: str(int(found[0]) + 1), line)] + tail)
        words = line.rstrip("\n").split(" ")
        spot = choose.randrange(len(words))
        yield "".join(head + [" ".join(words[:spot] + [words[spot] + "a"] + words[spot + 1:]) + "\n"] + tail)
        if line.startswith("need"):
            yield "".join(head + [line.replace(">=", ">")] + tail)


def test_one_line(tally, program):
    """Each change of a line of a set is taken, or refused, as the texts say."""
    choose = random.Random(7)
    tried = [(text, change) for text in texts() for change in changes(text, choose)]
    choose.shuffle(tried)
    # Few sets of version 2 are sets of version 1 too: this one is.
    tried.insert(0, (PAYMENT.replace("lynx 1\n", "lynx 2\n"), PAYMENT))
    verdicts = {}
    counts = {"taken": 0, "other-set": 0, "other-version": 0, "refused": 0}
    with Room(PAYMENT) as room:
        def verdict(text):
            if text not in verdicts:
                verdicts[text] = end_of([program, "check", room.file("next", text)])
            return verdicts[text]

        for old, new in tried:
            if sum(counts.values()) >= CHANGED_LINES:
                break
            if verdict(old)[2]:
                continue
            shutil.rmtree(room.stores)
            os.mkdir(room.stores)
            filled(program, room, "", old)
            kept = states(room.stores)
            got = extend(program, room, new)
            if verdict(new)[2]:
                wanted, kind = verdict(new), "refused"
            elif why_not(old, new):
                kind = why_not(old, new)
                wanted = ("", f"lynx: store 0: {kind}\n", 4)
            else:
                wanted, kind = (lines_of(old, new, [0] * 16), "", 0), "taken"
            counts[kind] += 1
            tally.is_same(f"{old}-- to\n{new}", got, wanted)
            if kind != "taken":
                tally.is_same(f"files of\n{old}-- to\n{new}", states(room.stores), kept)
    print(f"({counts})")
    tally.holds("each kind was met", all(counts.values()))


@pytest.mark.alone
def test_kills(tally, program):
    """An extension that is killed leaves stores that the next one takes, with all that they keep."""
    begins = "begin 0 1 1 seed 100000\n" + "".join(f"begin 0 1 {number} pay 1\n" for number in range(2, 3000))
    with Room(PAYMENT) as room:
        filled(program, room, begins)
        before = shown(program, room, 2)
        choose = random.Random(3)
        began = time.monotonic()
        with Room(PAYMENT) as whole:
            shutil.copytree(room.stores, whole.stores, dirs_exist_ok=True)
            extend(program, whole, GREATEST)
        takes = time.monotonic() - began
        for kill in range(KILLS):
            with Room(PAYMENT) as copy:
                shutil.copytree(room.stores, copy.stores, dirs_exist_ok=True)
                ran = subprocess.Popen([program, "extend", copy.stores, copy.file("next", GREATEST)], stdout=subprocess.DEVNULL)
                time.sleep(choose.random() * takes)
                ran.kill()
                ran.wait()
                out, err, status = extend(program, copy, GREATEST)
                told = re.sub(r"^(made 2|same [012]|extended 0 2999|extended 1 0)\n", "", out, flags=re.MULTILINE)
                tally.is_same(f"goes on after kill {kill}", (told, err, status), ("", "", 0))
                tally.is_same(f"kept over kill {kill}", shown(program, copy, 2), before)
                tally.is_same(f"of the set after kill {kill}", [meta(copy.store(server))[2] for server in range(3)],
                              [GREATEST] * 3)
