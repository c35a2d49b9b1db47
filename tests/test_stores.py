"""Stores in files: the worked payment is run over them, the program ends and goes on over the same files, and the sqlite3 of
the system looks at them, damages them and writes to them. The rows that are wanted are spelled here from docs/FORMATS.md, by
hand and apart from the program."""
import array
import fcntl
import os
import shutil
import sqlite3
import subprocess
import tempfile
import termios
import time

import pytest
from serving import PAYMENT, end_of, files

SQLITE = "/usr/bin/sqlite3"

# The same, but for the name of the table.
OTHER = PAYMENT.replace("acct", "cash")

WORKED = "begin 0 1 1 seed 100\nbegin 0 1 2 pay 30\ndeliver 0:1 1\n"

WORKED_LINES = """begun 0:0 stamp 1 results -
begun 0:1 stamp 2 results 100
done 0:1 1 stamp 3 results - end
cell acct 0 70
cell acct 1000 30
order 0:0 0:1
"""

FIRST_SHOWN = """server 0
entries 2
begun 0:0 stamp 1 results -
begun 0:1 stamp 2 results 100
cell acct 0 70
"""

SECOND_SHOWN = """server 1
entries 1
hop 0:1 1 stamp 3 results -
cell acct 1000 30
"""

# The tables, in the order in which they are made.
SCHEMA = [
    "CREATE TABLE meta(id INTEGER PRIMARY KEY, txt TEXT NOT NULL) STRICT",
    "CREATE TABLE entry(place INTEGER PRIMARY KEY, body BLOB NOT NULL) STRICT",
    "CREATE TABLE cell(tab INTEGER NOT NULL, k BLOB NOT NULL, v BLOB NOT NULL, PRIMARY KEY(tab, k)) STRICT",
]


def byte(number):
    return number.to_bytes(1, "big")


def word(number):
    return number.to_bytes(8, "big")


def values(members):
    return byte(len(members)) + b"".join(word(it) for it in members)


def numbers(members):
    return byte(len(members)) + b"".join(byte(server) + word(it) for server, it in members)


def encoding(tag, body):
    return byte(tag) + len(body).to_bytes(4, "big") + body


def begun(number, program, argument, index, drawn, stamp, results):
    """The entry of a begin at server 0, of client 1, that was told nothing."""
    request = word(1) + word(number) + byte(program) + values([argument])
    return encoding(0x22, request + word(0) + byte(0) + word(index) + numbers(drawn) + word(stamp) + values(results))


def arrived(index, sent, argument, drawn, found, stamp):
    """The entry of hop 1 of a payment that began at server 0."""
    message = byte(0) + word(index) + byte(1) + byte(1) + word(sent) + values([argument]) + numbers(drawn)
    return encoding(0x24, message + byte(1) + values([found]) + word(stamp) + values([]))


SEEDED = begun(1, 0, 100, 0, [(0, 0)], 1, [])
PAID = begun(2, 1, 30, 1, [(0, 1), (1, 0)], 2, [100])
ARRIVED = arrived(1, 2, 30, [(0, 1), (1, 0)], 100, 3)

# A further payment of 20, and its results.
PAID_AGAIN = begun(3, 1, 20, 2, [(0, 2), (1, 1)], 3, [70])

# The first entry as docs/FORMATS.md spells it.
SEEDED_BYTES = ("22 0000003e 0000000000000001 0000000000000001 00 01 0000000000000064 0000000000000000 00 "
                "0000000000000000 01 00 0000000000000000 0000000000000001 00")


def text_file(room, name, text):
    """A file of that text."""
    path = os.path.join(room, name)
    with open(path, "w", encoding="utf-8") as file:
        file.write(text)
    return path


def sql(store, statements):
    """What the system's sqlite3 prints."""
    out, err, status = end_of([SQLITE, store, statements])
    return out if status == 0 and not err else f"status {status}: {err}"


class Stores:
    """The stores of a fresh folder, and the program that runs over them."""

    def __init__(self, program, made_of=None):
        self.program = program
        self.room = tempfile.mkdtemp(prefix="lynx-stores-")
        if made_of:
            for name in os.listdir(made_of.room):
                if name.startswith("server-"):
                    shutil.copyfile(os.path.join(made_of.room, name), os.path.join(self.room, name))

    def __enter__(self):
        return self

    def __exit__(self, *_):
        shutil.rmtree(self.room)

    def path(self, server):
        return os.path.join(self.room, f"server-{server}.lynx")

    def words(self, script, set_text=PAYMENT):
        """The command line of a run over the stores."""
        set_file, script_file = text_file(self.room, "set", set_text), text_file(self.room, "script", script)
        return [self.program, "run", "--stores", self.room, set_file, script_file]

    def run(self, script, set_text=PAYMENT):
        return end_of(self.words(script, set_text))

    def show(self, server):
        return end_of([self.program, "show", self.path(server)])

    def upgrade(self, server):
        return end_of([self.program, "upgrade", self.path(server)])

    def sql(self, server, statements):
        return sql(self.path(server), statements)


def rows(store):
    """The rows of a store, as the system's sqlite3 reads them."""
    heads = sql(store, "SELECT id || ' ' || hex(txt) FROM meta ORDER BY id")
    entries = sql(store, "SELECT place || ' ' || hex(body) FROM entry ORDER BY place")
    cells = sql(store, "SELECT tab || ' ' || hex(k) || ' ' || hex(v) FROM cell ORDER BY tab, k")
    return [it.split("\n")[:-1] for it in (heads, entries, cells)]


def wanted_rows(server, entries, cells):
    """The rows of a store of the payment that has these entries and these cells of its table."""
    heads = ["lynx store 1", str(server), PAYMENT]
    return [[f"{id} {head.encode().hex().upper()}" for id, head in enumerate(heads, 1)],
            [f"{place} {entry.hex().upper()}" for place, entry in enumerate(entries)],
            [f"0 {word(key).hex().upper()} {word(value).hex().upper()}" for key, value in cells]]


@pytest.fixture
def stores(program):
    """The stores that the worked payment leaves."""
    with Stores(program) as made:
        made.ran = made.run(WORKED)
        yield made


def test_first_run(tally, stores):
    """The worked payment over new stores, and what stands in the files."""
    tally.is_same("worked entry", SEEDED.hex(), SEEDED_BYTES.replace(" ", ""))
    tally.is_same("first run", stores.ran, (WORKED_LINES, "", 0))
    for server, entries, cells in ((0, [SEEDED, PAID], [(0, 70)]), (1, [ARRIVED], [(1000, 30)])):
        tally.is_same(f"integrity of store {server}", stores.sql(server, "PRAGMA integrity_check"), "ok\n")
        schema = stores.sql(server, "SELECT sql FROM sqlite_schema WHERE sql NOT NULL ORDER BY rowid")
        tally.is_same(f"schema of store {server}", schema.split("\n")[:-1], SCHEMA)
        tally.is_same(f"rows of store {server}", rows(stores.path(server)), wanted_rows(server, entries, cells))
    shown(tally, stores, "first run")


def shown(tally, stores, name):
    """Both stores are listed as after the worked payment."""
    tally.is_same(f"{name}: store 0 is shown", stores.show(0), (FIRST_SHOWN, "", 0))
    tally.is_same(f"{name}: store 1 is shown", stores.show(1), (SECOND_SHOWN, "", 0))


def test_second_run(tally, stores):
    """A second run goes on: what is asked again is answered from the record, and what is new gets the next stamps."""
    script = WORKED + "begin 0 1 3 pay 20\ndeliver 0:2 1\nrestart 0\nrestart 1\nlose 0:2 1\ndeliver 0:2 1\nwake 1\ndeliver 0:3 1\n"
    wanted = """begun 0:0 stamp 1 results - again
begun 0:1 stamp 2 results 100 again
repeat 0:1 1 stamp 3 results - end
begun 0:2 stamp 3 results 70
done 0:2 1 stamp 4 results - end
restarted 0
restarted 1
lost 0:2 1
repeat 0:2 1 stamp 4 results - end
idle 1
not-sent 0:3 1
cell acct 0 50
cell acct 1000 50
order 0:0 0:1 0:2
"""
    tally.is_same("second run", stores.run(script), (wanted, "", 0))
    arrived_again = arrived(2, 3, 20, [(0, 2), (1, 1)], 70, 4)
    tally.is_same("rows of store 0 after it", rows(stores.path(0)), wanted_rows(0, [SEEDED, PAID, PAID_AGAIN], [(0, 50)]))
    tally.is_same("rows of store 1 after it", rows(stores.path(1)), wanted_rows(1, [ARRIVED, arrived_again], [(1000, 50)]))
    tally.is_same("integrity after it", stores.sql(0, "PRAGMA integrity_check"), "ok\n")


# The body of a refused payment that passes its checks.
REFUSED_BODY = "23 0000002B 0000000000000001 0000000000000002 01 01 000000000000001E 0000000000000000 00 0000000000000002".replace(" ", "")

# What is done to the payer's store by the system's sqlite3, and how a run over it then ends.
DAMAGES = [
    ("DELETE FROM meta WHERE id = 1", "damaged"),
    ("DELETE FROM meta WHERE id = 2", "damaged"),
    ("DELETE FROM meta WHERE id = 3", "damaged"),
    ("INSERT INTO meta VALUES(4, 'more')", "damaged"),
    ("UPDATE meta SET id = 4 WHERE id = 3", "damaged"),
    ("UPDATE meta SET txt = 'lynx store 2' WHERE id = 1", "other-version"),
    ("UPDATE meta SET txt = '1' WHERE id = 2", "other-set"),
    ("UPDATE meta SET txt = '00' WHERE id = 2", "other-set"),
    ("UPDATE meta SET txt = txt || ' ' WHERE id = 3", "other-set"),
    ("UPDATE meta SET txt = 'other' WHERE id < 3", "other-version"),
    ("UPDATE meta SET txt = '1' WHERE id = 2; DELETE FROM entry WHERE place = 0", "other-set"),
    ("DELETE FROM entry WHERE place = 0", "damaged"),
    ("DELETE FROM entry WHERE place = 1", "damaged"),
    ("UPDATE entry SET place = 2 WHERE place = 1", "damaged"),
    ("UPDATE entry SET place = -1 WHERE place = 0", "damaged"),
    ("UPDATE entry SET body = x'' WHERE place = 1", "damaged"),
    # A byte behind an encoding, the beginning of one, and the encoding of a request for nothing more, which is no entry.
    (f"UPDATE entry SET body = x'{REFUSED_BODY}00' WHERE place = 1", "damaged"),
    ("UPDATE entry SET body = x'230000002B0000' WHERE place = 1", "damaged"),
    ("UPDATE entry SET body = x'0300000000' WHERE place = 1", "damaged"),
    ("UPDATE cell SET v = x'0000000000000000'", "damaged"),
    ("UPDATE cell SET v = x'46'", "damaged"),
    ("UPDATE cell SET k = x'000000000000000000'", "damaged"),
    ("UPDATE cell SET tab = -1", "damaged"),
    ("UPDATE cell SET tab = 64", "damaged"),
    ("DROP TABLE cell", "damaged"),
    ("DROP TABLE entry", "damaged"),
    ("DROP TABLE meta", "damaged"),
    ("CREATE TABLE other(a INTEGER) STRICT", "damaged"),
    ("CREATE INDEX more ON cell(v)", "damaged"),
    ("DROP TABLE meta; DROP TABLE entry; DROP TABLE cell; CREATE TABLE note(a)", "damaged"),
    # Cells that aren't those of the entries: 71 in the place of 70, none, a table that the set hasn't, a key of the other server.
    ("UPDATE cell SET v = x'0000000000000047'", "damaged"),
    ("DELETE FROM cell", "damaged"),
    ("UPDATE cell SET tab = 5", "damaged"),
    ("INSERT INTO cell VALUES(5, x'0000000000000000', x'0000000000000001')", "damaged"),
    ("INSERT INTO cell VALUES(0, x'00000000000003E8', x'000000000000001E')", "damaged"),
    # Entries that aren't lawful after those before them: a payment without its seed, one that is refused though the account
    # has enough, a seed that was begun already.
    ("DELETE FROM entry WHERE place = 0; UPDATE entry SET place = 0", "damaged"),
    (f"UPDATE entry SET body = x'{REFUSED_BODY}' WHERE place = 1", "damaged"),
    ("INSERT INTO entry SELECT 2, body FROM entry WHERE place = 0", "damaged"),
]

# What is done to it, and how a listing of it then ends, which takes the store of any set and server, and doesn't judge what is
# lawful.
LISTED = [
    ("UPDATE cell SET v = x'0000000000000047'", None),
    ("UPDATE meta SET txt = 'lynx store 3' WHERE id = 1", "other-version"),
    # A set of version 1, and three tables.
    ("UPDATE meta SET txt = 'lynx store 2' WHERE id = 1", "damaged"),
    ("UPDATE meta SET txt = '1' WHERE id = 2", None),
    ("UPDATE meta SET txt = '2' WHERE id = 2", "damaged"),
    ("UPDATE meta SET txt = '00' WHERE id = 2", "damaged"),
    ("UPDATE meta SET txt = txt || ' ' WHERE id = 3", "damaged"),
    ("UPDATE meta SET id = 4 WHERE id = 3", "damaged"),
    ("DELETE FROM entry WHERE place = 0", "damaged"),
    ("UPDATE cell SET v = x'0000000000000000'", "damaged"),
    ("UPDATE cell SET tab = 1", "damaged"),
    ("DROP TABLE cell", "damaged"),
    ("DROP TABLE meta; DROP TABLE entry; DROP TABLE cell", "damaged"),
]

# The same at the store of the payee.
OTHER_DAMAGES = [
    ("UPDATE cell SET v = x'0000000000000047'", "damaged"),
    ("CREATE TABLE note(a)", "damaged"),
]


def test_damages(tally, stores):
    """What other hands did to a store is told."""
    for statements, said in DAMAGES:
        with Stores(stores.program, stores) as copy:
            tally.is_same(f"{statements}: done", copy.sql(0, statements), "")
            tally.is_same(f"{statements}: run", copy.run("wake 0\n"), ("", f"lynx: store 0: {said}\n", 4))
    for statements, said in LISTED:
        with Stores(stores.program, stores) as copy:
            copy.sql(0, statements)
            out, err, status = copy.show(0)
            wanted = ("", f"lynx: store: {said}\n", 4) if said else ("server", "", 0)
            tally.is_same(f"{statements}: shown", (out[:6], err, status), wanted)
    for statements, said in OTHER_DAMAGES:
        with Stores(stores.program, stores) as copy:
            copy.sql(1, statements)
            tally.is_same(f"{statements} at server 1", copy.run("wake 0\n"), ("", f"lynx: store 1: {said}\n", 4))
    with Stores(stores.program) as other:
        other.sql(0, "CREATE TABLE note(a); INSERT INTO note VALUES(1)")
        tally.is_same("another program's tables", other.run("wake 0\n"), ("", "lynx: store 0: damaged\n", 4))
        tally.is_same("what is left of them", other.sql(0, "SELECT count(*), (SELECT a FROM note) FROM sqlite_schema"), "1|1\n")
    with Stores(stores.program, stores) as copy:
        tally.is_same("other set", copy.run("wake 0\n", OTHER), ("", "lynx: store 0: other-set\n", 4))
    with Stores(stores.program, stores) as copy:
        with open(copy.path(0), "r+b") as file:
            file.write(b"This is no database.")
        tally.is_same("no database", copy.run("wake 0\n"), ("", "lynx: store 0: damaged\n", 4))
    with Stores(stores.program, stores) as copy:
        os.remove(copy.path(0))
        os.remove(copy.path(0) + "-wal")
        tally.is_same("store of the sender lost", copy.run("wake 0\n"), ("", "lynx: store 0: damaged\n", 4))
        tally.holds("none is made in its place", not os.path.exists(copy.path(0)))


def test_refusals(tally, stores):
    """What is refused has an entry and no cell, and a cell that comes to 0 has no row."""
    with Stores(stores.program) as fresh:
        lines = "begun 0:0 stamp 1 results -\nrefused 0 stamp 2\n"
        tally.is_same("a refusal", fresh.run("begin 0 1 1 seed 100\nbegin 0 1 2 pay 101\n"),
                      (f"{lines}cell acct 0 100\norder 0:0\n", "", 0))
        tally.is_same("a refusal is shown", fresh.show(0), (f"server 0\nentries 2\n{lines}cell acct 0 100\n", "", 0))
        fresh.run("begin 0 1 3 pay 100\nbegin 0 1 4 seed 0\n")
        tally.is_same("cells that came to 0", fresh.sql(0, "SELECT count(*) FROM cell"), "0\n")
        tally.is_same("its entries", fresh.sql(0, "SELECT count(*) FROM entry"), "4\n")


# The payment at version 2, whose stores have a fourth table.
SECOND = PAYMENT.replace("lynx 1", "lynx 2")

ACTED = ("CREATE TABLE acted(origin INTEGER NOT NULL, idx BLOB NOT NULL, hop INTEGER NOT NULL, place INTEGER NOT NULL UNIQUE, "
         "PRIMARY KEY(origin, idx, hop)) STRICT")

# What is done to the rows of that table, so that they aren't those of the entries.
ACTED_DAMAGES = [
    ("row less", "DELETE FROM acted WHERE place = 0"),
    ("row of an entry that refused", "INSERT INTO acted VALUES(0, x'0000000000000007', 0, 2)"),
    ("another place", "UPDATE acted SET place = 5 WHERE place = 1"),
    ("places changed", "UPDATE acted SET place = 9 WHERE place = 0; UPDATE acted SET place = 0 WHERE place = 1; UPDATE acted SET place = 1 WHERE place = 9"),
    ("another hop", "UPDATE acted SET hop = 1 WHERE place = 1"),
    ("another chain", "UPDATE acted SET idx = x'0000000000000009' WHERE place = 1"),
    ("short index", "UPDATE acted SET idx = x'01' WHERE place = 1"),
    ("no table", "DROP TABLE acted"),
]


def acted(store):
    """The rows of the fourth table, as the system's sqlite3 reads them."""
    return sql(store, "SELECT origin || ' ' || hex(idx) || ' ' || hop || ' ' || place FROM acted ORDER BY place").split("\n")[:-1]


def test_version_two(tally, stores):
    """Stores of a set of version 2: a row more for each hop that ran, in the entry's transaction, and none for a refusal."""
    with Stores(stores.program) as fresh:
        script = WORKED + "begin 0 1 3 pay 500\n"
        lines = WORKED_LINES.replace("cell acct 0 70", "refused 0 stamp 3\ncell acct 0 70")
        tally.is_same("run of version 2", fresh.run(script, SECOND), (lines, "", 0))
        schema = fresh.sql(0, "SELECT sql FROM sqlite_schema WHERE sql NOT NULL ORDER BY rowid").split("\n")[:-1]
        tally.is_same("schema of version 2", schema, SCHEMA + [ACTED])
        tally.is_same("integrity of version 2", fresh.sql(0, "PRAGMA integrity_check"), "ok\n")
        tally.is_same("title of version 2", fresh.sql(0, "SELECT txt FROM meta WHERE id <> 2 ORDER BY id"), f"lynx store 2\n{SECOND}\n")
        tally.is_same("hops of store 0", acted(fresh.path(0)), ["0 0000000000000000 0 0", "0 0000000000000001 0 1"])
        tally.is_same("hops of store 1", acted(fresh.path(1)), ["0 0000000000000001 1 0"])
        again = WORKED_LINES.split("\n")
        wanted = [again[0] + " again", again[1] + " again", "repeat 0:1 1 stamp 3 results - end", *again[3:]]
        tally.is_same("version 2 goes on", fresh.run(WORKED, SECOND), ("\n".join(wanted), "", 0))
        tally.is_same("version 2 is shown", fresh.show(1), (SECOND_SHOWN, "", 0))
        tally.is_same("a set of version 1 over it", fresh.run("wake 0\n"), ("", "lynx: store 0: other-version\n", 4))
        for name, statements in ACTED_DAMAGES:
            with Stores(stores.program, fresh) as copy:
                copy.sql(0, statements)
                tally.is_same(name, copy.run("wake 0\n", SECOND), ("", "lynx: store 0: damaged\n", 4))
                tally.is_same(f"{name} is shown", copy.show(0), ("", "lynx: store: damaged\n", 4))
    tally.is_same("a set of version 2 over version 1", stores.run("wake 0\n", SECOND), ("", "lynx: store 0: other-version\n", 4))


def test_upgraded(tally, stores):
    """Stores of version 1 made stores of version 2: the same entries and cells, for the same set at version 2."""
    with Stores(stores.program) as fresh:
        tally.is_same("run before an upgrade", fresh.run(WORKED), (WORKED_LINES, "", 0))
        with Stores(stores.program, fresh) as copy:
            copy.sql(0, "UPDATE cell SET v = x'00'")
            before = rows(copy.path(0))
            tally.is_same("upgrade of a damaged store", copy.upgrade(0), ("", "lynx: store: damaged\n", 4))
            tally.is_same("a damaged store after it", rows(copy.path(0)), before)
        tally.is_same("upgrade of store 0", fresh.upgrade(0), ("upgraded 2\n", "", 0))
        tally.is_same("the other is of version 1", fresh.run("wake 0\n", SECOND), ("", "lynx: store 1: other-version\n", 4))
        tally.is_same("upgrade of store 1", fresh.upgrade(1), ("upgraded 1\n", "", 0))
        tally.is_same("store 0 upgraded is shown", fresh.show(0), (FIRST_SHOWN, "", 0))
        tally.is_same("store 1 upgraded is shown", fresh.show(1), (SECOND_SHOWN, "", 0))
        schema = fresh.sql(0, "SELECT sql FROM sqlite_schema WHERE sql NOT NULL ORDER BY rowid").split("\n")[:-1]
        tally.is_same("schema of an upgrade", schema, SCHEMA + [ACTED])
        tally.is_same("integrity of an upgrade", fresh.sql(0, "PRAGMA integrity_check"), "ok\n")
        tally.is_same("title of an upgrade", fresh.sql(0, "SELECT txt FROM meta ORDER BY id"), f"lynx store 2\n0\n{SECOND}\n")
        tally.is_same("hops of store 0 upgraded", acted(fresh.path(0)), ["0 0000000000000000 0 0", "0 0000000000000001 0 1"])
        tally.is_same("hops of store 1 upgraded", acted(fresh.path(1)), ["0 0000000000000001 1 0"])
        kept = rows(fresh.path(0))
        tally.is_same("a second upgrade", fresh.upgrade(0), ("", "lynx: store: other-version\n", 4))
        tally.is_same("the store after it", rows(fresh.path(0)), kept)
        again = WORKED_LINES.split("\n")
        wanted = [again[0] + " again", again[1] + " again", "repeat 0:1 1 stamp 3 results - end", *again[3:]]
        tally.is_same("an upgraded store goes on", fresh.run(WORKED, SECOND), ("\n".join(wanted), "", 0))
        tally.is_same("a set of version 1 over an upgrade", fresh.run("wake 0\n"), ("", "lynx: store 0: other-version\n", 4))
        absent = os.path.join(fresh.room, "none.lynx")
        tally.is_same("upgrade of no file", end_of([fresh.program, "upgrade", absent]), ("", f"lynx: cannot read {absent}\n", 4))


def test_faults(tally, stores):
    """Faulty words and texts."""
    with Stores(stores.program) as fresh:
        program = stores.program
        tally.is_same("no files", end_of([program, "run", "--stores", fresh.room, "-"]),
                      ("", "lynx: --stores wants SET and SCRIPT as files\n", 2))
        tally.is_same("faulty set", fresh.run("", "lynx 3\n"), ("", "lynx: set line 1: bad-version\n", 2))
        tally.is_same("faulty script", fresh.run("sleep\n"), ("", "lynx: script line 1: bad-line\n", 2))
        tally.is_same("no store is made for them", [it for it in os.listdir(fresh.room) if it.endswith(".lynx")], [])
        words = fresh.words("")
        tally.is_same("no folder", end_of([*words[:3], words[3] + "/none", *words[4:]]), ("", "lynx: store 0: store\n", 4))
        absent = words[5] + "/none"
        tally.is_same("no script", end_of([*words[:5], absent]), ("", f"lynx: cannot read {absent}\n", 4))
        tally.is_same("empty run", fresh.run(""), ("order -\n", "", 0))
        tally.is_same("rows of a new store", rows(fresh.path(1)), wanted_rows(1, [], []))


# A set that offends: two programs that set the same two cells of two servers, in turn.
CROSSING = """lynx 1
servers 2
table t
shard 0 9 0
shard 10 18446744073709551615 1
program a
hop 0
set t 0 1
hop 1
set t 10 1
end
program b
hop 1
set t 10 2
hop 0
set t 0 2
end
"""


def test_flags(tally, stores):
    """A run over stores with the flags of a run."""
    with Stores(stores.program) as fresh:
        words = fresh.words("begin 0 1 1 seed 100\nbegin 0 1 2 pay 30\n")
        lines = "".join(f"{it}\n" for it in (*WORKED_LINES.split("\n")[:2], "cell acct 0 70", "order 0:0 0:1", "owed 0:1 1"))
        tally.is_same("a run that owes", end_of([*words, "--owed", "--checked"]), (lines, "", 0))
        tally.is_same("what it owes later", end_of([*fresh.words(""), "--owed"]),
                      ("cell acct 0 70\norder 0:0 0:1\nowed 0:1 1\n", "", 0))
    with Stores(stores.program) as fresh:
        words = fresh.words("", CROSSING)
        out, err, status = end_of([*words, "--checked"])
        tally.is_same("a set that offends", (out.split("\n")[0], err, status), ("offending", "", 1))
        tally.is_same("no store is made for it", [it for it in os.listdir(fresh.room) if it.endswith(".lynx")], [])
        first = fresh.run("begin 0 1 1 a\nbegin 1 2 1 b\ndeliver 0:0 1\n", CROSSING)
        tally.is_same("half of a cycle", (first[0].split("\n")[-2].split(" ")[0], *first[1:]), ("order", "", 0))
        second = fresh.run("deliver 1:0 1\n", CROSSING)
        tally.is_same("a cycle over two runs", (second[0].split("\n")[-2].split(" ")[0], *second[1:]), ("cycle", "", 1))


def test_written_by_hand(tally, stores):
    """A further payment that the system's sqlite3 wrote is gone on from."""
    with Stores(stores.program, stores) as copy:
        copy.sql(0, f"BEGIN; INSERT INTO entry VALUES(2, x'{PAID_AGAIN.hex()}');"
                    "UPDATE cell SET v = x'0000000000000032'; COMMIT")
        wanted = """begun 0:2 stamp 3 results 70 again
done 0:2 1 stamp 4 results - end
begun 0:3 stamp 4 results 50
cell acct 0 40
cell acct 1000 50
order 0:0 0:1 0:2 0:3
"""
        script = "begin 0 1 3 pay 20\ndeliver 0:2 1\nbegin 0 1 4 pay 10\n"
        tally.is_same("payment by hand", copy.run(script), (wanted, "", 0))


def waiting_run(stores):
    """A run that has all its entries in the stores, and waits for its output to be read, with the stores still open."""
    reader, writer = os.pipe()
    room = fcntl.fcntl(writer, 1031, 4096)  # F_SETPIPE_SZ
    ran = subprocess.Popen(stores.words(WORKED + "wake 0\n" * 2000), stdin=subprocess.DEVNULL, stdout=writer)
    os.close(writer)
    there = array.array("i", [0])
    for _ in range(3000):
        fcntl.ioctl(reader, termios.FIONREAD, there)
        if there[0] >= room:
            return ran, reader
        time.sleep(0.01)
    ran.kill()
    pytest.fail("a run over stores printed too little")


def test_locked(tally, stores):
    """A store that another process has open is refused at once."""
    with Stores(stores.program) as fresh:
        ran, reader = waiting_run(fresh)
        tally.is_same("store in use", fresh.run("wake 0\n"), ("", "lynx: store 0: store\n", 4))
        tally.is_same("store in use is shown", fresh.show(0), ("", "lynx: store: store\n", 4))
        with open(reader, "rb") as file:
            printed = file.read().decode()
        tally.is_same("run in use", ran.wait(), 0)
        lines = WORKED_LINES.split("\n")
        tally.is_same("what it prints", printed, "\n".join(lines[:3] + ["idle 0"] * 2000 + lines[3:]))
        shown(tally, fresh, "after it")


def test_killed(tally, stores):
    """A run that is killed leaves its entries in the log beside the file; both are copied together."""
    with Stores(stores.program) as fresh:
        ran, reader = waiting_run(fresh)
        ran.kill()
        ran.wait()
        os.close(reader)
        tally.is_same("log of a killed run", os.path.getsize(fresh.path(0) + "-wal") > 0, True)
        with Stores(stores.program, fresh) as copy:
            shown(tally, copy, "copy of a killed run")
        with Stores(stores.program, fresh) as copy:
            tally.is_same("integrity after a kill", copy.sql(0, "PRAGMA integrity_check"), "ok\n")
            tally.is_same("rows after a kill", rows(copy.path(0)), wanted_rows(0, [SEEDED, PAID], [(0, 70)]))
        again = """begun 0:0 stamp 1 results - again
begun 0:1 stamp 2 results 100 again
repeat 0:1 1 stamp 3 results - end
""" + "\n".join(WORKED_LINES.split("\n")[3:])
        tally.is_same("run after a kill", fresh.run(WORKED), (again, "", 0))


def test_copied(tally, stores):
    """Files that are copied after a run are the same stores, with their logs and without."""
    with Stores(stores.program, stores) as copy:
        shown(tally, copy, "copy")
    with Stores(stores.program, stores) as copy:
        for server in (0, 1):
            if os.path.exists(copy.path(server) + "-wal"):
                os.remove(copy.path(server) + "-wal")
        shown(tally, copy, "copy without logs")


def write(path, data):
    """A file of those bytes."""
    with open(path, "wb") as file:
        file.write(data)


def touches_nothing(tally, name, stores, words, wanted):
    """A command that ends so, and leaves every file of the stores' folder, and the names in it, as they are."""
    before = files(stores.room)
    tally.is_same(name, end_of([stores.program, *words]), wanted)
    after = files(stores.room)
    tally.is_same(f"{name}: names", sorted(after), sorted(before))
    tally.is_same(f"{name}: bytes", [it for it in before if after.get(it) != before[it]], [])


# Files that are no database's.
NO_DATABASES = [
    ("empty file", b""),
    ("file of one byte", b"x"),
    ("file of a byte 0", b"\0"),
    ("fifteen bytes", b"SQLite format 3"),
    ("a set text", PAYMENT.encode()),
    ("another head", b"SQLite format 4\0" + bytes(4080)),
]

DAMAGED = ("", "lynx: store: damaged\n", 4)


def test_no_databases(tally, stores):
    """What is no database is neither listed nor upgraded, nor is anything written to it or beside it."""
    for name, data in NO_DATABASES:
        with Stores(stores.program) as fresh:
            write(fresh.path(0), data)
            for verb in ("show", "upgrade"):
                touches_nothing(tally, f"{name}: {verb}", fresh, [verb, fresh.path(0)], DAMAGED)
            words = fresh.words("wake 0\n")
            if data:
                refused = ("", "lynx: store 0: damaged\n", 4)
                touches_nothing(tally, f"{name}: run", fresh, words[1:], refused)
            else:
                tally.is_same(f"{name}: run", end_of(words), ("idle 0\norder -\n", "", 0))


def left_by_a_kill(stores, room):
    """Copies the stores of a run that was killed, with the logs that have all its entries."""
    ran, reader = waiting_run(stores)
    ran.kill()
    ran.wait()
    os.close(reader)
    for name in os.listdir(stores.room):
        if name.startswith("server-"):
            shutil.copyfile(os.path.join(stores.room, name), os.path.join(room, name))


def test_emptied(tally, stores):
    """A file that was emptied beside its log: the log is not touched, and with the file back all is there."""
    with Stores(stores.program) as run, Stores(stores.program) as killed, Stores(stores.program) as shut:
        left_by_a_kill(run, killed.room)
        shut.run(WORKED)
        for whole, which in ((killed, "log of a killed run"), (shut, "log of a shut store")):
            for data in (b"", b"x", b"\0"):
                with Stores(stores.program, whole) as copy:
                    write(copy.path(0), data)
                    name = f"{which} beside {data!r}"
                    for verb in ("show", "upgrade"):
                        touches_nothing(tally, f"{name}: {verb}", copy, [verb, copy.path(0)], DAMAGED)
                    refused = ("", "lynx: store 0: damaged\n", 4)
                    touches_nothing(tally, f"{name}: run", copy, copy.words("wake 0\n")[1:], refused)
                    shutil.copyfile(whole.path(0), copy.path(0))
                    tally.is_same(f"{name}: put back", copy.show(0)[2], 0)


def test_half_made(tally, stores):
    """What a stop within the making of a new store leaves is made a store by the next run."""
    with Stores(stores.program) as run, Stores(stores.program) as killed:
        left_by_a_kill(run, killed.room)
        head = files(killed.room)["server-0.lynx-wal"][:41]
        first = files(killed.room)["server-0.lynx"][:4096]
        cases = [(b"", b""), (b"", b"\0"), (b"", b"\0" + head[1:]), (b"", head), (b"\0", head), (b"\0" + first[1:], head)]
        for at, (data, log) in enumerate(cases):
            with Stores(stores.program) as fresh:
                write(fresh.path(0), data)
                write(fresh.path(0) + "-wal", log)
                tally.is_same(f"half-made store {at}", fresh.run(WORKED), (WORKED_LINES, "", 0))


def test_only_read(tally, stores):
    """A listing, and an upgrade that is refused, leave files and logs as they are, to the byte."""
    with Stores(stores.program) as fresh:
        fresh.run(WORKED, SECOND)
        touches_nothing(tally, "shut store is shown", fresh, ["show", fresh.path(0)], (FIRST_SHOWN, "", 0))
        refused = ("", "lynx: store: other-version\n", 4)
        touches_nothing(tally, "shut store isn't upgraded", fresh, ["upgrade", fresh.path(0)], refused)
        os.remove(fresh.path(1) + "-wal")
        touches_nothing(tally, "store without a log is shown", fresh, ["show", fresh.path(1)], (SECOND_SHOWN, "", 0))
    with Stores(stores.program) as run, Stores(stores.program) as killed:
        left_by_a_kill(run, killed.room)
        touches_nothing(tally, "killed store is shown", killed, ["show", killed.path(0)], (FIRST_SHOWN, "", 0))
    with Stores(stores.program) as fresh:
        base = sqlite3.connect(fresh.path(1))
        base.execute("PRAGMA journal_mode = WAL")
        base.execute("CREATE TABLE note(a)")
        base.execute("INSERT INTO note VALUES(1)")
        base.commit()
        for ending in ("", "-wal"):
            shutil.copyfile(fresh.path(1) + ending, fresh.path(0) + ending)
        base.close()
        for verb in ("show", "upgrade"):
            touches_nothing(tally, f"foreign database: {verb}", fresh, [verb, fresh.path(0)], DAMAGED)


def test_read_only(tally, stores):
    """A store that may only be read is listed."""
    with Stores(stores.program, stores) as copy:
        drop = ["setpriv", "--reuid=65534", "--regid=65534", "--clear-groups"] if os.geteuid() == 0 else []
        program = os.path.join(copy.room, "lynx")
        shutil.copyfile(stores.program, program)
        os.chmod(program, 0o755)
        for name in os.listdir(copy.room):
            if name.startswith("server-"):
                os.chmod(os.path.join(copy.room, name), 0o444)
        for mode, where in ((0o777, "file"), (0o555, "folder")):
            os.chmod(copy.room, mode)
            shown_so = end_of([*drop, program, "show", copy.path(0)])
            tally.is_same(f"store in a {where} that may only be read", shown_so, (FIRST_SHOWN, "", 0))
        os.chmod(copy.room, 0o700)


def test_pipes(tally, stores):
    """A pipe in a file's place can't be read, at once; what is behind standard input can."""
    with Stores(stores.program) as fresh:
        pipe = os.path.join(fresh.room, "pipe")
        os.mkfifo(pipe)
        set_file = text_file(fresh.room, "set", PAYMENT)
        cases = [["show", pipe], ["upgrade", pipe], ["check", pipe], ["draw", pipe], ["run", pipe, set_file],
                 ["run", set_file, pipe], ["draw", set_file, pipe], ["sample", pipe]]
        for words in cases:
            tally.is_same(f"a pipe: {words[0]}", end_of([stores.program, *words]), ("", f"lynx: cannot read {pipe}\n", 4))
        hinted = end_of([stores.program, "check", "--hints", pipe])
        tally.is_same("a pipe, with hints", hinted, ("", f"lynx: cannot read {pipe}\n", 4))
        ran = subprocess.run([stores.program, "check", "/dev/stdin"], input=PAYMENT, capture_output=True, text=True, timeout=120)
        tally.is_same("a set behind a pipe", (ran.stdout, ran.stderr, ran.returncode), ("accepted\n", "", 0))


# What is done to a store of version 1, and whether it is listed then. None of them is upgraded.
NOT_UPGRADED = [
    ("hop in two entries", "INSERT INTO entry SELECT 2, body FROM entry WHERE place = 0", True),
    ("second hop in two entries", "INSERT INTO entry SELECT 2, body FROM entry WHERE place = 1", True),
    ("hop in two entries, the later first", "UPDATE entry SET body = (SELECT body FROM entry WHERE place = 1) WHERE place = 0", True),
    ("cell of a table that the set hasn't", "INSERT INTO cell VALUES(1, x'0000000000000000', x'0000000000000001')", False),
    ("cell that is of such a table", "UPDATE cell SET tab = 1", False),
]


def test_not_upgraded(tally, stores):
    """What no store of version 2 can hold is not upgraded, nor is anything written."""
    for name, statement, is_listed in NOT_UPGRADED:
        with Stores(stores.program) as copy:
            copy.run(WORKED)
            copy.sql(0, statement)
            touches_nothing(tally, name, copy, ["upgrade", copy.path(0)], DAMAGED)
            tally.is_same(f"{name}: shown", copy.show(0)[2], 0 if is_listed else 4)


OF_CELLS = "  the cells aren't those of the 2 entries: no server opens the store\n"


def of_entry(place):
    """What is said of the entry at that place."""
    return f"  entry {place}, counted from 0, isn't lawful after those before it: no server opens the store\n"


# What is done to the first store, and what is said behind its listing where hints are wanted.
UNLAWFUL = [
    ("cell changed", "UPDATE cell SET v = x'0000000000000047'", OF_CELLS),
    ("cells deleted", "DELETE FROM cell", OF_CELLS),
    ("cell of the other server", "INSERT INTO cell VALUES(0, x'00000000000003E8', x'000000000000001E')", OF_CELLS),
    ("entry changed", f"UPDATE entry SET body = x'{PAID[:-1].hex()}65' WHERE place = 1", of_entry(1)),
    ("entry refused", f"UPDATE entry SET body = x'{REFUSED_BODY}' WHERE place = 1", of_entry(1)),
    ("first entry gone", "DELETE FROM entry WHERE place = 0; UPDATE entry SET place = 0", of_entry(0)),
    ("entry once more", "INSERT INTO entry SELECT 2, body FROM entry WHERE place = 0", of_entry(2)),
    ("nothing", "SELECT 1", ""),
]

# Those of them after which the store is made one of version 2 all the same.
UPGRADED_SO = ("cell changed", "entry changed", "nothing")


def test_hinted(tally, stores):
    """What is listed and upgraded as it stands, though no server would open it, is said behind it where hints are wanted."""
    for name, statement, said in UNLAWFUL:
        with Stores(stores.program) as copy:
            copy.run(WORKED)
            copy.sql(0, statement)
            out, err, status = copy.show(0)
            tally.is_same(f"{name}: shown without hints", (err, status), ("", 0))
            shown_so = end_of([copy.program, "show", "--hints", copy.path(0)])
            tally.is_same(f"{name}: shown with hints", shown_so, (out, said, 0))
            if name in UPGRADED_SO:
                upgraded_so = end_of([copy.program, "upgrade", "--hints", copy.path(0)])
                tally.is_same(f"{name}: upgraded with hints", upgraded_so, ("upgraded 2\n", said, 0))


SHORT = """#define _GNU_SOURCE
#include <sys/syscall.h>
#include <sys/types.h>
#include <unistd.h>
ssize_t read(int fd, void *to, size_t n) { return syscall(SYS_read, fd, to, n > 7 ? n / 2 : n); }
ssize_t pread(int fd, void *to, size_t n, off_t at) { return syscall(SYS_pread64, fd, to, n > 7 ? n / 2 : n, at); }
ssize_t pread64(int fd, void *to, size_t n, off_t at) { return pread(fd, to, n, at); }
"""


def test_short_reads(tally, stores):
    """A listing goes on where a read gives a part of its bytes."""
    with Stores(stores.program, stores) as copy:
        source = text_file(copy.room, "short.c", SHORT)
        library = os.path.join(copy.room, "short.so")
        subprocess.run(["gcc", "-O2", "-shared", "-fPIC", "-o", library, source], check=True)
        shown_so = end_of([stores.program, "show", copy.path(0)], env=dict(os.environ, LD_PRELOAD=library))
        tally.is_same("reads of a part", shown_so, (FIRST_SHOWN, "", 0))


# Places in the body of the second entry whose lowest bit is changed, and whether the opening finds it: the client and the
# request number may be any, and the stamp that the client was told any below the entry's.
FLIPS = [("a client", 12, False), ("a request number", 20, False), ("a told stamp", 38, False), ("an argument", 30, True),
         ("an index", 47, True), ("a stamp", len(PAID) - 10, True), ("a result", len(PAID) - 1, True)]


def test_flipped(tally, stores):
    """Which flipped bits of an entry are found."""
    for name, at, is_found in FLIPS:
        with Stores(stores.program) as copy:
            copy.run(WORKED)
            body = bytearray(PAID)
            body[at] ^= 1
            copy.sql(0, f"UPDATE entry SET body = x'{body.hex()}' WHERE place = 1")
            found = ("", "lynx: store 0: damaged\n", 4)
            tally.is_same(f"flipped bit of {name}", copy.run("") == found, is_found)


def test_second_name(tally, stores):
    """A store whose file has a second name is told as the database's fault."""
    with Stores(stores.program, stores) as copy:
        os.link(copy.path(0), os.path.join(copy.room, "other"))
        for verb in ("show", "upgrade"):
            touches_nothing(tally, f"second name: {verb}", copy, [verb, copy.path(0)], ("", "lynx: store: store\n", 4))
        tally.is_same("second name: run", copy.run("wake 0\n"), ("", "lynx: store 0: store\n", 4))
