"""Look-ups in lines: what a service tells over HTTP where lines are asked for, what `lynx ask` prints for lines `read` and `find`, and
what `lynx read`, `lynx find` and `lynx show --full` tell of stores that nobody serves. What is wanted is the plain reading of
tests/known.py, put in lines."""
import os
import random
import re
import shutil
import time

import reference
from known import MOST, Kept, Known, asked_for, done, histories_of, in_lines, known_of, shut, texts
from serving import PAYMENT, Room, Service, WatchedService, end_of, stored
from test_lookups import EMPTY, PAID, SHOP
import lynx

LINES = ("accept: text/plain",)

# Fields by which no lines are asked for.
OTHERS = ((), ("accept: */*",), ("accept: application/json",), ("accept: text/html",), ("accept: text/plain; q=1",), ("accept: Text/Plain",),
          ("accept: text/plain", "accept: text/plain"))

PAYMENTS = (("seed", 100), ("pay", 30), ("pay", 1000), ("pay", 70))


def paid(tally, bank, known):
    """The worked payments are done."""
    for words in PAYMENTS:
        tally.holds(f"{words} is done", done(bank, known, *words))


def test_shapes(tally, program):
    """The worked payments in lines, each answer to the byte; with other fields they are told in JSON."""
    with Room(PAYMENT) as room, WatchedService(program, room) as service, Kept(service) as kept:
        known = Known(reference.Set(PAYMENT))
        tally.is_same("nothing", {path: kept.get(path, LINES) for path in EMPTY}, {path: in_lines(answer) for path, answer in EMPTY.items()})
        with lynx.Client(room.stores, client=1, first=1) as bank:
            paid(tally, bank, known)
        for path, answer in PAID.items():
            status, headers, body = kept.whole(path, LINES)
            tally.is_same(f"the lines of {path}", (status, body), in_lines(answer))
            tally.is_same(f"their type at {path}", headers["content-type"], "text/plain; charset=utf-8")
        for fields in OTHERS:
            path = "/requests/1/2"
            tally.is_same(f"with {fields}", kept.get(path, fields), PAID[path])
        tally.is_same("a cell", kept.get("/cells/acct/1000", LINES)[1], b"cell acct 1000 100\nserver 1 stamp 6\n")
        tally.is_same("a request", kept.get("/requests/1/3", LINES)[1], b"refused 0 stamp 4 client 1 number 3 program pay args 1000 server 0\n")
        tally.is_same("a chain", kept.get("/chains/0:2", LINES)[1],
                      b"chain 0:2 client 1 number 4 program pay args 70\nhop 0:2 0 stamp 5 results 70 server 0\nhop 0:2 1 stamp 6 results - server 1\n")
        tally.is_same("its end", shut(room, service), ("closed\norder 0:0 0:1 0:2\n", "", 0))


# ---- lines of `lynx ask`

def asked(program, room, *lines, words=()):
    """What `lynx ask` prints for lines, tells on standard error, and its status."""
    return end_of([program, "ask", room.stores, *words], "".join(f"{line}\n" for line in lines))


def read_lines(known, table, first, last):
    """What is printed for a range: page after page."""
    printed = b""
    while True:
        status, body = in_lines(known.answer(f"/cells/{table}?from={first}&to={last}&limit=1000"))
        printed += body
        further = re.search(rb" next (\d+)\n\Z", body)
        if status != 200 or not further:
            return printed.decode()
        first = int(further[1])


# Lines that look up nothing that there can be, with the faults that are told.
FAULTY = {"read acct": "bad-line", "read cash 1": "unknown", "read acct x": "bad-number", "read acct 2..1": "bad-number", "read acct 1..": "bad-number",
          "read acct ..1": "bad-number", f"read acct {MOST + 1}": "bad-number", "read acct 01": "bad-number", "read acct 1 2": "bad-line",
          "find 1": "bad-line", "find 1 x": "bad-number", "find x 1": "bad-number", f"find {MOST + 1} 1": "bad-number", "find 1 2 3": "bad-line",
          "read  acct 1": "bad-line", "Read acct 1": "bad-line"}


def test_asked(tally, program):
    """Lines that look up between lines that begin; faulty ones are told with their numbers, and the next ones asked."""
    with Room(PAYMENT) as room, WatchedService(program, room) as service:
        known = Known(reference.Set(PAYMENT))
        tally.is_same("before anything", asked(program, room, "read acct 1000", "find 1 1"), ("cell acct 1000 0\nserver 1 stamp 0\nabsent\n", "", 0))
        with lynx.Client(room.stores, client=1, first=1) as bank:
            paid(tally, bank, known)
        wanted = {f"find 1 {number}": in_lines(known.answer(f"/requests/1/{number}"))[1].decode() for number in (1, 2, 3, 4)}
        wanted |= {f"read acct {key}": in_lines(known.answer(f"/cells/acct/{key}"))[1].decode() for key in (0, 999, 1000, MOST)}
        wanted |= {f"read acct {first}..{last}": read_lines(known, "acct", first, last) for first, last in ((0, 0), (0, MOST), (999, 1000), (1000, 1000))}
        wanted |= {"find 1 5": "absent\n", "find 2 1": "absent\n"}
        tally.is_same("all lines", asked(program, room, *wanted), ("".join(wanted.values()), "", 0))
        told = asked(program, room, "find 2 1", *FAULTY, "find 2 2")
        tally.is_same("faulty lines", told, ("absent\nabsent\n", "".join(f"lynx: line {number}: {fault}\n" for number, fault in enumerate(
            FAULTY.values(), 2)), 2))
        mixed = asked(program, room, "begin 1 1 seed 100", "read acct 1000", "begin 1 3 pay 1000", "nothing", "find 1 4", "look 0:0 0", "read acct 1000")
        tally.is_same("lines of both kinds", mixed, (
            "begun 0:0 stamp 1 results - again\n" + wanted["read acct 1000"] + "refused 0 stamp 4 again\n" + wanted["find 1 4"]
            + "found stamp 1 results -\n" + wanted["read acct 1000"], "lynx: line 4: bad-line\n", 2))
        tally.is_same("no entry was taken", known.answer("/cells/acct/0"), Kept(service).get("/cells/acct/0"))
        tally.is_same("by its ports", end_of([program, "ask", room.set, str(service.port), "--status", str(service.status)], "find 1 5\n"), ("absent\n", "", 0))
        tally.is_same("its end", shut(room, service), ("closed\norder 0:0 0:1 0:2\n", "", 0))


def test_without_status(tally, program):
    """Where no status is told, the first line that looks up ends the asking, behind the answers before it."""
    told = "lynx: lines read and find want a service with --status\n"
    with Room(PAYMENT) as room, Service(program, room) as service:
        tally.is_same("by the folder", asked(program, room, "begin 1 1 seed 100", "read acct 1000", "find 1 1"), ("begun 0:0 stamp 1 results -\n", told, 4))
        tally.is_same("by the port", end_of([program, "ask", room.set, str(service.port)], "find 1 1\n"), ("", told, 4))
        tally.is_same("its end", shut(room, service), ("closed\norder 0:0\n", "", 0))


def test_hinted(tally, program):
    """With --hints a begin that is refused tells which need refused it; a look that waits for what can't be answers at once."""
    with Room(SHOP) as room, WatchedService(program, room) as service:
        lines = ("begin 1 1 pay 1 10000 5", "begin 1 2 seed 1 5", "begin 1 3 pay 1 10000 5")
        hint = "  refused 0: need x >= n\n"
        tally.is_same("with hints", asked(program, room, *lines, words=("--hints",)),
                      ("refused 0 stamp 1\nbegun 0:0 stamp 2 results -\nbegun 0:1 stamp 3 results 5\n", hint, 0))
        tally.is_same("without", asked(program, room, *lines[:1]), ("refused 0 stamp 1 again\n", "", 0))
        began = time.monotonic()
        printed = asked(program, room, "look 1:0 1 wait", "look 0:7 3 wait", "look 0:0 9 wait")
        tally.is_same("what no program of the set may do", printed, ("absent\nabsent\nabsent\n", "", 0))
        tally.holds("it wasn't waited for", time.monotonic() - began < 5)
        tally.is_same("a hop that is done", asked(program, room, "look 0:1 1 wait")[0].startswith("found stamp"), True)
        tally.holds("its end", shut(room, service)[2] == 0)


# ---- stores that nobody serves

def entry_line(entry):
    """The line of an entry in a listing."""
    if entry["kind"] == "refused":
        return f"refused {entry['need']} stamp {entry['stamp']}"
    word = "begun " + reference.name(entry["chain"]) if entry["kind"] == "begun" else f"hop {reference.name(entry['chain'])} {entry['hop']}"
    return f"{word} stamp {entry['stamp']} results {' '.join(texts(entry['results'])) or '-'}"


def full_line(entry):
    """The same, with who asked for it and for what."""
    who = "" if entry["kind"] == "hop" else " client {} number {}".format(*entry["client"])
    return entry_line(entry) + who + asked_for(dict(entry, args=texts(entry["args"])))


def shown(known, entries, line, server):
    """The listing of a store with these lines for its entries."""
    tables = [*known.chains.tables]
    cells = sorted((tables.index(table), key, value) for (table, key), value in known.cells[server].items() if value)
    return "".join([f"server {server}\nentries {len(entries)}\n", *(line(entry) + "\n" for entry in entries),
                    *(f"cell {tables[table]} {key} {value}\n" for table, key, value in cells)])


def told_cells(known, table, first, last):
    """The lines of a table's cells, server after server."""
    return "".join(f"cell {table} {key} {value}\n" for cells in known.cells
                   for (name, key), value in sorted(cells.items()) if name == table and first <= key <= last and value)


def told_request(known, client, number):
    """The lines of a request and of the later hops of its chain."""
    printed = ""
    for entry in sorted(known.requests.get((client, number), ()), key=lambda it: it["server"]):
        printed += f"{full_line(entry)} server {entry['server']}\n"
        if entry["kind"] == "begun":
            for hop, (server, _) in [*enumerate(known.chains.hops(entry["program"]))][1:]:
                act = known.acts.get((entry["chain"], hop))
                line = entry_line(act) if act else f"owed {reference.name(entry['chain'])} {hop}"
                printed += f"{line} server {server}\n"
    return printed


def compared(tally, program, room, known, histories, chance):
    """All three commands over the stores of a room tell what is known of them."""
    for server, entries in enumerate(histories):
        store = room.store(server)
        tally.is_same("the listing", end_of([program, "show", store]), (shown(known, entries, entry_line, server), "", 0))
        tally.is_same("the full one", end_of([program, "show", "--full", store]), (shown(known, entries, full_line, server), "", 0))
    for table in known.chains.tables:
        tally.is_same(f"all of {table}", end_of([program, "read", room.stores, table]), (told_cells(known, table, 0, MOST), "", 0))
        keys = [key for cells in known.cells for name, key in cells if name == table] + [0, 5000, 10000, MOST]
        for key in chance.sample(keys, min(4, len(keys))):
            value = sum(cells.get((table, key), 0) for cells in known.cells)
            tally.is_same(f"{key} of {table}", end_of([program, "read", room.stores, table, str(key)]), (f"cell {table} {key} {value}\n", "", 0))
            last = chance.choice([key, min(key + 5000, MOST), MOST])
            tally.is_same(f"{table} from {key} to {last}", end_of([program, "read", room.stores, table, f"{key}..{last}"]),
                          (told_cells(known, table, key, last), "", 0))
    for client, number in chance.sample(sorted(known.requests), min(8, len(known.requests))):
        tally.is_same(f"request {number} of {client}", end_of([program, "find", room.stores, str(client), str(number)]),
                      (told_request(known, client, number), "", 0))
    tally.is_same("no request", end_of([program, "find", room.stores, "77", "1"]), ("absent\n", "", 1))


# A script after which hops are owed, requests are refused, and each server has entries.
SHOPPING = """begin 0 1 1 seed 1 100
begin 0 1 2 pay 1 10000 30
begin 0 1 3 pay 1 10001 500
begin 0 2 1 pay 1 10002 7
begin 0 5 18446744073709551615 round 2 10003 9
deliver 0:1 1
deliver 0:3 1
begin 1 3 1 spend 10000 10
begin 1 3 2 spend 10009 10
"""


def test_stores(tally, program):
    """Stores that a script left, and those of the worked payments, by commands that read them."""
    chance = random.Random(5)
    for text, script in ((SHOP, SHOPPING), (PAYMENT, "begin 0 1 1 seed 100\nbegin 0 1 2 pay 30\nbegin 0 1 3 pay 1000\n"), (PAYMENT, "")):
        with Room(text) as room:
            tally.holds("the script runs", stored(program, room, script)[2] == 0)
            chains = reference.Set(text)
            histories = histories_of(room, chains)
            compared(tally, program, room, known_of(chains, histories), histories, chance)


# What can't be told, with the line and the status.
REFUSED = {("read", "cash"): ("no such table", 2), ("read", "Acct"): ("no such table", 2), ("read", "acct", "x"): ("KEYS is no key, and not FROM..TO", 2),
           ("read", "acct", "2..1"): ("KEYS is no key, and not FROM..TO", 2), ("read", "acct", "1..2..3"): ("KEYS is no key, and not FROM..TO", 2)}


def test_refused(tally, program):
    """Words that ask for nothing, folders without stores, lost ones and those of other sets; stores stay as they are."""
    with Room(PAYMENT) as room:
        stored(program, room, "begin 0 1 1 seed 100\n")
        before = {name: open(os.path.join(room.stores, name), "rb").read() for name in sorted(os.listdir(room.stores))}
        for (command, *words), (fault, status) in REFUSED.items():
            tally.is_same(f"{command} {words}", end_of([program, command, room.stores, *words]), ("", f"lynx: {fault}\n", status))
        tally.is_same("the stores", {name: open(os.path.join(room.stores, name), "rb").read() for name in before}, before)
        with WatchedService(program, room) as service:
            tally.is_same("while it is served", end_of([program, "read", room.stores, "acct"])[2], 4)
            shut(room, service)
        tally.is_same("a folder without stores", end_of([program, "find", room.path, "1", "1"])[2], 4)
        shutil.copy(room.store(0), room.store(1))
        tally.is_same("the store of another server", end_of([program, "read", room.stores, "acct"]), ("", "lynx: store 1: other-set\n", 4))
        os.remove(room.store(1))
        tally.is_same("a lost store", end_of([program, "find", room.stores, "1", "1"])[2], 4)
