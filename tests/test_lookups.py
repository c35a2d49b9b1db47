"""What is looked up of a service over HTTP: cells by their keys and by ranges, requests and chains. What is wanted is computed apart
from the program: by a plain reading of the rules of the paths, over what the worked payments leave, or over the entries that the
system's sqlite3 finds in the stores in the end, run one after another by tests/reference.py. So thousands of reads beside clients who
pay are held each to the state of its server behind the entry whose stamp it tells."""
import collections
import concurrent.futures
import json
import os
import random
import re
import shutil
import socket
import subprocess
import threading
import time

import pytest
import reference
from known import (BAD_QUERY, MOST, NO_CHAIN, NO_REQUEST, NO_TABLE, NOT_FOUND, Kept, Known, cells_in, done, histories_of, history,
                   known_of, metric, settled, shut)
from serving import PAYMENT, TOP, Room, Strain, WatchedService, end_of, stored, wait_until
import lynx

# Clients pay for so many seconds; on a slow machine longer, until so much was read.
PAYERS, PAYING_SECONDS, MOST_SECONDS, READS, LOOKS = 4, 4, 60, 2000, 300
RANDOM_PATHS = 1000

# Each how-many-th growth is refused of those that questions meet, of the first ones.
REFUSED_STEP, MOST_REFUSED = 4, 400

# Two servers, of which the first has the keys at both ends of a table.
SHOP = f"""lynx 2
servers 2
table acct
shard 0 9999 0
shard 10000 19999 1
shard 20000 {MOST} 0
table note
shard 0 {MOST} 1
program fill0 a b c d e f g h
hop 0
KEYS
end
program fill1 a b c d e f g h
hop 1
KEYS
end
program seed k n
range k 0..9999
hop 0
add acct k n
end
program pay a b n
range a 0..9999
range b 10000..19999
hop 0
get x acct a
need x >= n
sub acct a n
hop 1
add acct b n
end
program spend k n
range k 10000..19999
hop 1
get x acct k
need x != 0
need x >= n
sub acct k n
set note n k
end
program rest k n
range k 20000..{MOST}
hop 0
set acct k n
end
program round a b n
range a 0..9999
range b 10000..19999
hop 0
add acct a n
hop 1
get y acct b
add acct b n
hop 0
get z acct a
end
""".replace("KEYS", "\n".join(f"set acct {key} {key}" for key in "abcdefgh"))

STOPPED, WANTING = (503, b"server stopped\n"), (503, b"out of memory\n")


# ---- the worked payments

EMPTY = {
    "/cells/acct/0": (200, b'{"table":"acct","key":"0","value":"0","server":"0","stamp":"0"}\n'),
    "/cells/acct": (200, b'{"table":"acct","server":"0","stamp":"0","cells":[],"next":"1000"}\n'),
    "/cells/acct?from=1000": (200, b'{"table":"acct","server":"1","stamp":"0","cells":[]}\n'),
    "/requests/1/1": NO_REQUEST,
    "/chains/0:0": NO_CHAIN,
}

# After seed 100, pay 30, pay 1000 and pay 70 of client 1, under the numbers from 1 on, each waited for: so the third, behind a hop
# with stamp 3, has stamp 4.
PAID = {
    "/cells/acct/0": (200, b'{"table":"acct","key":"0","value":"0","server":"0","stamp":"5"}\n'),
    "/cells/acct/999": (200, b'{"table":"acct","key":"999","value":"0","server":"0","stamp":"5"}\n'),
    "/cells/acct/1000": (200, b'{"table":"acct","key":"1000","value":"100","server":"1","stamp":"6"}\n'),
    "/cells/acct/18446744073709551615": (200, b'{"table":"acct","key":"18446744073709551615","value":"0","server":"1","stamp":"6"}\n'),
    "/cells/acct/18446744073709551616": NOT_FOUND,
    "/cells/acct/01000": NOT_FOUND,
    "/cells/acct/-1": NOT_FOUND,
    "/cells/acct/": NOT_FOUND,
    "/cells/": NOT_FOUND,
    "/cells": NOT_FOUND,
    "/cells/Acct/0": NOT_FOUND,
    "/cells/cash/0": NO_TABLE,
    "/cells/cash": NO_TABLE,
    "/cells/acct": (200, b'{"table":"acct","server":"0","stamp":"5","cells":[],"next":"1000"}\n'),
    "/cells/acct?from=999&to=999": (200, b'{"table":"acct","server":"0","stamp":"5","cells":[]}\n'),
    "/cells/acct?to=999": (200, b'{"table":"acct","server":"0","stamp":"5","cells":[]}\n'),
    "/cells/acct?to=1000": (200, b'{"table":"acct","server":"0","stamp":"5","cells":[],"next":"1000"}\n'),
    "/cells/acct?from=1000": (200, b'{"table":"acct","server":"1","stamp":"6","cells":[{"key":"1000","value":"100"}]}\n'),
    "/cells/acct?limit=1&from=1000": (
        200, b'{"table":"acct","server":"1","stamp":"6","cells":[{"key":"1000","value":"100"}],"next":"1001"}\n'),
    "/cells/acct?to=1000&limit=1&from=1000": (200, b'{"table":"acct","server":"1","stamp":"6","cells":[{"key":"1000","value":"100"}]}\n'),
    "/cells/acct?from=1001": (200, b'{"table":"acct","server":"1","stamp":"6","cells":[]}\n'),
    "/cells/acct?": BAD_QUERY,
    "/cells/acct?from=2&to=1": BAD_QUERY,
    "/cells/acct?limit=0": BAD_QUERY,
    "/cells/acct?limit=10001": BAD_QUERY,
    "/cells/acct/0?": BAD_QUERY,
    "/requests/1/1": (200, b'{"client":"1","number":"1","records":['
                           b'{"server":"0","stamp":"1","program":"seed","args":["100"],"chain":"0:0","results":[]}]}\n'),
    "/requests/1/2": (200, b'{"client":"1","number":"2","records":['
                           b'{"server":"0","stamp":"2","program":"pay","args":["30"],"chain":"0:1","results":["100"]}]}\n'),
    "/requests/1/3": (
        200, b'{"client":"1","number":"3","records":[{"server":"0","stamp":"4","program":"pay","args":["1000"],"refused":"0"}]}\n'),
    "/requests/1/5": NO_REQUEST,
    "/requests/2/1": NO_REQUEST,
    "/requests/1": NOT_FOUND,
    "/requests/1/1/": NOT_FOUND,
    "/requests/1/1?x=1": BAD_QUERY,
    "/chains/0:0": (200, b'{"chain":"0:0","client":"1","number":"1","program":"seed","args":["100"],'
                         b'"hops":[{"hop":"0","server":"0","stamp":"1","results":[]}],"owed":[]}\n'),
    "/chains/0:2": (200, b'{"chain":"0:2","client":"1","number":"4","program":"pay","args":["70"],"hops":['
                         b'{"hop":"0","server":"0","stamp":"5","results":["70"]},{"hop":"1","server":"1","stamp":"6","results":[]}],'
                         b'"owed":[]}\n'),
    "/chains/0:3": NO_CHAIN,
    "/chains/1:0": NO_CHAIN,
    "/chains/15:0": NO_CHAIN,
    "/chains/16:0": NOT_FOUND,
    "/chains/0": NOT_FOUND,
    "/chains/0:0?": BAD_QUERY,
}


# What is answered besides these, at paths that were there before.
OLDER = {
    "/healthz": (200, b"ok\n"),
    "/set": (200, PAYMENT.encode()),
    "/chain/0:2": (200, b'{"chain":"0:2","program":"pay","hops":[{"hop":"0","server":"0","stamp":"5","results":["70"]},'
                        b'{"hop":"1","server":"1","stamp":"6","results":[]}]}\n'),
}

# And the statuses of others.
STATUSES = {"/status": 200, "/metrics": 200, "/": 404, "/chain/0:3": 404, "/chain/0:2?": 404, "/healthz?": 404, "/metrics?": 404,
            "/set?x=1": 404}


def told_all(tally, kept, wanted):
    """Each path has its answer, of the type that goes with it."""
    for path, (status, body) in wanted.items():
        got, headers, told = kept.whole(path)
        tally.is_same(f"GET {path}", (got, told), (status, body))
        kind = "application/json" if body.startswith(b"{") else "text/plain"
        tally.is_same(f"the type of {path}", headers["content-type"].split(";")[0], kind)
        tally.is_same(f"{path}, kept nowhere", (headers["cache-control"], headers["x-content-type-options"]), ("no-store", "nosniff"))


def test_worked(tally, program):
    """The worked payments, each answer to the byte; and the paths that were there before have theirs."""
    with Room(PAYMENT) as room, WatchedService(program, room) as service, Kept(service) as kept:
        known = Known(reference.Set(PAYMENT))
        told_all(tally, kept, EMPTY)
        tally.is_same("the plain reading, of nothing", {path: known.answer(path) for path in EMPTY}, EMPTY)
        with lynx.Client(room.stores, client=1, first=1) as bank:
            for words in (("seed", 100), ("pay", 30), ("pay", 1000), ("pay", 70)):
                tally.holds(f"{words} is done", done(bank, known, *words))
        told_all(tally, kept, PAID)
        tally.is_same("the plain reading", {path: known.answer(path) for path in PAID}, PAID)
        told_all(tally, kept, OLDER)
        tally.is_same("statuses", {path: kept.get(path)[0] for path in STATUSES}, STATUSES)
        tally.is_same("one connection", kept.made, 1)
        tally.is_same("its end", shut(room, service), ("closed\norder 0:0 0:1 0:2\n", "", 0))


# ---- ranges, page by page

def pages(kept, table, limit):
    """The cells of a table, read page by page from the key 0 on; each page has its limit at most, and goes on behind the one before."""
    found, first = [], "0"
    while first is not None:
        status, body = kept.get(f"/cells/{table}?limit={limit}&from={first}")
        page = json.loads(body)
        more = [(int(cell["key"]), int(cell["value"])) for cell in page["cells"]]
        if status != 200 or len(more) > limit or any(key < int(first) for key, _ in more) or int(page.get("next", MOST)) < int(first):
            raise ValueError(f"no page behind {first}: {page}")
        found, first = found + more, page.get("next")
    return found


def filled(tally, bank, known, chance):
    """Cells at all edges of shards and at many other keys, on both servers; some are emptied again."""
    low, middle = {0, 1, 9998, 9999, 20000, 20001, MOST - 1, MOST}, {10000, 10001, 19998, 19999}
    low |= {*chance.sample(range(10000), 1100), *(chance.randrange(20000, chance.choice((20200, MOST))) for _ in range(200))}
    middle |= {chance.randrange(10000, 20000) for _ in range(200)}
    for name, keys in (("fill0", [*low]), ("fill1", [*middle])):
        chance.shuffle(keys)
        for at in range(0, len(keys) - 7, 8):
            done(bank, known, name, *keys[at:at + 8])
    for key in chance.sample([key for key in sorted(low) if key >= 20000], 8):
        tally.holds("a cell is emptied", done(bank, known, "rest", key, 0))


def test_pages(tally, program):
    """Ranges with limits of all sizes; read page by page they are what sqlite3 finds in the stores in the end."""
    chance = random.Random(3)
    with Room(SHOP) as room:
        tally.is_same("the set", reference.check(SHOP), ("accepted by blocks\n", 0))
        with WatchedService(program, room) as service, Kept(service) as kept:
            known = Known(reference.Set(SHOP))
            with lynx.Client(room.stores, client=7, first=1) as bank:
                filled(tally, bank, known, chance)
                for words in (("seed", 5, 9), ("pay", 5, 10000, 4), ("spend", 10000, 3), ("round", 6, 10001, 2)):
                    tally.holds(f"{words} is done", done(bank, known, *words))
            edges = [0, 1, 9998, 9999, 10000, 10001, 19999, 20000, MOST - 1, MOST]
            edges += [key for _, key in chance.sample([*known.cells[0]], 10)]
            wanted = [f"/cells/acct?from={first}&to={last}&limit={limit}" for first in edges for last in edges if first <= last
                      for limit in (1, 2, 7, 1000, 10000)]
            wanted = chance.sample(wanted, 300) + [f"/cells/acct/{key}" for key in edges]
            wanted += ["/cells/acct", "/cells/acct?limit=10000", "/cells/acct?to=9999", "/cells/acct?to=9999&limit=10000", "/cells/note"]
            whole = [json.loads(kept.get(path)[1]) for path in wanted[-3:-1]]
            tally.holds("a thousand where no limit is given", len(whole[0]["cells"]) == 1000 < len(whole[1]["cells"]))
            tally.is_same("whether more may be there", ["next" in page for page in whole], [True, False])
            tally.is_same("ranges", [path for path in wanted if kept.get(path) != known.answer(path)], [])
            read = {limit: pages(kept, "acct", limit) for limit in (9, 100, 1000, 10000)}
            notes = pages(kept, "note", 1)
            tally.is_same("its end", shut(room, service)[1:], ("", 0))
        cells = sorted(cells_in(room, 0, 0) + cells_in(room, 1, 0))
        print(f"{len(wanted)} ranges, {len(cells)} cells page by page")
        tally.holds("cells enough", len(cells) > 1200)
        for limit, found in read.items():
            tally.is_same(f"page by page of {limit}", found, cells)
        tally.is_same("page by page of another table", notes, cells_in(room, 1, 1))


# ---- beside clients that pay

class Payer:
    """A client that seeds, pays, spends and asks for too much, and again under the same number; and what it was answered."""

    def __init__(self, room, number):
        self.room, self.number, self.told, self.chance = room, number, {}, random.Random(number)

    def words(self):
        """What is asked next."""
        chance = self.chance
        low, middle = chance.choice((0, 1, 2, 9999, chance.randrange(150))), 10000 + chance.choice((0, 1, 9999, chance.randrange(150)))
        return chance.choice((("seed", low, chance.randrange(1, 50)), ("pay", low, middle, chance.randrange(1, 30)), ("pay", 0, middle, 1),
                              ("pay", low, middle, 10 ** 15), ("spend", middle, chance.randrange(1, 20)),
                              ("rest", chance.choice((20000, MOST, chance.randrange(20000, 20100))), chance.randrange(3))))

    def run(self, ended):
        """Asks until that is set."""
        with lynx.Client(self.room.stores, client=self.number, first=1, tries=40) as bank:
            while not ended.is_set():
                words = self.words()
                answer = bank.begin(*words)
                self.told[answer.number] = answer
                if answer.number % 5 == 0:
                    bank.begin(*words, number=answer.number)
                if answer.number % 50 == 0:
                    self.clash(bank, "fill1" if words[0] == "spend" else "fill0", answer.number)
            bank.settle(60)
        return self

    @staticmethod
    def clash(bank, program, number):
        """Another request under a number that is taken at that server, which leaves no entry."""
        try:
            raise ValueError(f"no clash: {bank.begin(program, *range(8), number=number)}")
        except lynx.Clash:
            pass

    def least(self):
        """What the next read of server 0 has to know: the greatest stamp that this client was answered of it."""
        last = self.told.get(len(self.told))
        return last.stamp if isinstance(last, lynx.Begun) and last.chain.origin == 0 else 0


EDGES = 0, 1, 9999, 10000, 10001, 19999, 20000, MOST


def any_read(chance):
    """A cell that payers may change, or a range with some of them."""
    if chance.random() < 0.6:
        return f"/cells/acct/{chance.choice((*EDGES, chance.choice((0, 10000, 20000)) + chance.randrange(150)))}"
    first = chance.choice((*EDGES, chance.choice((0, 10000, 20000)) + chance.randrange(150)))
    last = min(MOST, first + chance.choice((0, 10, 100, 20000, MOST)))
    return f"/cells/{chance.choice(('acct', 'acct', 'note'))}?from={first}&to={last}&limit={chance.choice((1, 3, 50, 1000))}"


def reading(service, payers, goes_on):
    """What is read over a connection: each path, its answer, and which stamp server 0 had told somebody before."""
    chance, found = random.Random(11), []
    with Kept(service) as kept:
        while goes_on(found):
            path, least = any_read(chance), max(payer.least() for payer in payers)
            found.append((path, *kept.get(path), least))
    return found


def beside(service, payers, look, seconds, count):
    """What `look` finds while clients pay, for so many seconds and so often; how many seconds that took, and how many begins."""
    ended, began = threading.Event(), time.monotonic()

    def goes_on(found):
        took = time.monotonic() - began
        return took < seconds or len(found) < count and took < MOST_SECONDS

    with concurrent.futures.ThreadPoolExecutor(PAYERS + 1) as pool:
        paid = [pool.submit(payer.run, ended) for payer in payers]
        try:
            found = pool.submit(look, service, payers, goes_on).result()
            took, begins = time.monotonic() - began, sum(len(payer.told) for payer in payers)
        finally:
            ended.set()
        for each in paid:
            each.result()
    return found, took, begins


def judge(tally, chains, histories, reads):
    """Each read is of its server behind the entry with the stamp that it tells, and none is older than what was told before."""
    known, by_stamp, wrong, last = Known(chains), collections.defaultdict(list), [], [0] * chains.servers
    for path, status, body, least in reads:
        told = json.loads(body) if status == 200 else {"server": "-1", "stamp": "-1"}
        server, stamp = int(told["server"]), int(told["stamp"])
        if status != 200 or stamp < last[server] or server == 0 and stamp < least:
            wrong.append((path, status, body, least, last))
        by_stamp[server, stamp].append((path, body))
        last[server] = stamp
    for server, entries in enumerate(histories):
        for entry in (None, *entries):
            if entry:
                known.add(entry)
            for path, body in by_stamp.pop((server, known.stamps[server]), ()):
                wrong += [(path, body)] if known.answer(path) != (200, body) else []
    tally.is_same("reads that are of no moment, or older than what was told", wrong[:5], [])
    tally.is_same("reads of stamps that no entry has", [*by_stamp.items()][:5], [])


def test_reads(tally, program):
    """Thousands of reads over one connection while clients pay are each of one moment."""
    chains = reference.Set(SHOP)
    with Room(SHOP) as room:
        with WatchedService(program, room) as service:
            payers = [Payer(room, number) for number in range(1, PAYERS + 1)]
            reads, took, begins = beside(service, payers, reading, PAYING_SECONDS, READS)
            tally.holds("all chains end", settled(service))
            tally.is_same("its end", shut(room, service)[1:], ("", 0))
        histories = histories_of(room, chains)
    stamps = {json.loads(body)["stamp"] for _, status, body, _ in reads if status == 200}
    print(f"{len(reads)} reads of {len(stamps)} stamps: {len(reads) / took:.0f} reads a second beside {begins / took:.0f} begins")
    tally.holds("entries of all begins", sum(map(len, histories)) >= begins > 0)
    tally.holds("reads of many moments", len(reads) >= READS / 10 and len(stamps) > 50)
    judge(tally, chains, histories, reads)


# ---- requests and chains

def looking(service, payers, goes_on):
    """Requests and chains that were answered just now, as they are told while others are asked."""
    chance, found = random.Random(12), []
    with Kept(service) as kept:
        while goes_on(found):
            payer = chance.choice(payers)
            answer = payer.told.get(len(payer.told))
            if answer is None:
                time.sleep(0.001)
                continue
            path = f"/requests/{payer.number}/{answer.number}"
            if isinstance(answer, lynx.Begun) and chance.random() < 0.7:
                path = f"/chains/{answer.chain}"
            found.append((path, kept.get(path)))
    return found


def twice(room, numbers):
    """One client begins at both servers under the same numbers."""
    with lynx.Client(room.stores, client=MOST) as bank:
        for number in numbers:
            bank.begin("seed", 1, 50, number=number)
            bank.begin("spend", 10000, 1, number=number)
            bank.begin("seed", 1, 50, number=number)


def wrong_ones(room):
    """Client 77 begins what can't be served, which leaves no entry: why each isn't."""
    found = []
    with lynx.Client(room.stores, client=77) as bank:
        for number, words in enumerate((("seed", 10000, 1), ("fill0", *range(9994, 10002)), (63,)), 1):
            try:
                found.append(bank.begin(*words, number=number))
            except lynx.Wrong as fault:
                found.append(fault.reason)
    return found


def finds(kept, payers, numbers):
    """What is told in the end of all requests that were made, of 200 others, of all chains and of others."""
    chance, told = random.Random(13), {}
    made = {(payer.number, number) for payer in payers for number in payer.told} | {(MOST, number) for number in numbers}
    others = {(number, chance.choice((0, MOST, max(payers[0].told) + 1 + number, chance.randrange(MOST)))) for number in range(150)}
    others |= {(chance.randrange(5, MOST), number) for number in range(1, 76)}
    paths = [f"/requests/{client}/{number}" for client, number in sorted(made) + sorted(others - made)[:200]]
    answers = [answer for payer in payers for answer in payer.told.values()]
    indexes = collections.Counter(answer.chain.origin for answer in answers if isinstance(answer, lynx.Begun))
    paths += [f"/chains/{origin}:{index}" for origin in (0, 1) for index in range(indexes[origin] + len(numbers) + 5)]
    paths += [f"/requests/77/{number}" for number in range(1, 4)]
    paths += [f"/chains/{origin}:0" for origin in range(2, 18)] + [f"/chains/0:{MOST}", "/chains/1:1000000"]
    for path in paths:
        told[path] = kept.get(path)
    return told, len(others - made)


def is_part(known, path, told):
    """Whether what was told while chains ran may have been so."""
    if path.startswith("/requests/"):
        return told == known.answer(path)
    return told in known.parts(tuple(map(int, path.removeprefix("/chains/").split(":"))))


def test_found(tally, program):
    """Requests that were answered, refused and repeated, those that nobody made, and chains: all as in the stores."""
    chains, numbers = reference.Set(SHOP), (0, 1, 2, 3, 4, 5, 6, 7, 8, MOST)
    with Room(SHOP) as room:
        with WatchedService(program, room) as service, Kept(service) as kept:
            payers = [Payer(room, number) for number in range(1, PAYERS + 1)]
            early, _, _ = beside(service, payers, looking, 1, LOOKS)
            twice(room, numbers)
            tally.is_same("what can't be served", wrong_ones(room), ["outside-range", "wrong-shard", "unknown-program"])
            tally.holds("all chains end", settled(service))
            told, others = finds(kept, payers, numbers)
            tally.is_same("its end", shut(room, service)[1:], ("", 0))
        known = known_of(chains, histories_of(room, chains))
    wanted = {path: known.answer(path) for path in told}
    kinds = collections.Counter((status, body if status != 200 else path.split("/")[1]) for path, (status, body) in wanted.items())
    owed = sum(body[-6:] != b'":[]}\n' for path, (_, body) in early if path.startswith("/chains/"))
    print(f"{len(early)} looks beside clients, {owed} of them at chains that owe; told in the end: {dict(kinds)}")
    tally.is_same("what is told in the end", [(path, told[path], wanted[path]) for path in told if told[path] != wanted[path]][:3], [])
    tally.is_same("requests that nobody made", kinds[NO_REQUEST] >= min(200, others) > 190, True)
    tally.is_same("all chains are done", [path for path in told if path.startswith("/chains/") and told[path][0] == 200
                                          and json.loads(told[path][1])["owed"]], [])
    tally.is_same("all requests", sum(it == "requests" for _, it in kinds.elements()), len(known.requests))
    tally.is_same("all chains", sum(it == "chains" for _, it in kinds.elements()), sum(hop == 0 for _, hop in known.acts))
    tally.holds("refused ones and such with two records", {"refused", "two"} <= {it for records in known.requests.values() for it in (
        records[0]["kind"], "two" if len(records) == 2 else "one")})
    tally.is_same("what is told meanwhile", [it for it in early if not is_part(known, *it)][:3], [])


# What is told of the chain of `round` below, while its second hop and its third are owed.
ROUND = (b'{"chain":"0:8","client":"3","number":"9","program":"round","args":["5","10005","4"],"hops":['
         b'{"hop":"0","server":"0","stamp":"9","results":[]},{"hop":"1","server":"1"},{"hop":"2","server":"0"}],"owed":["1","2"]}\n')


def test_owed(tally, program):
    """A chain whose hops are owed at a slow server: what is told of it follows hop by hop."""
    with Room(SHOP) as room:
        strain, known = Strain(room), Known(reference.Set(SHOP))
        with WatchedService(program, room, env=strain.env) as service, Kept(service) as kept:
            strain.set(millis=300, slow="/stores/server-1.lynx")
            bank, seen = lynx.Client(room.stores, client=3, first=1), []
            for _ in range(8):
                bank.begin("pay", 5, 10006, 0)
            begun = bank.begin("round", 5, 10005, 4)
            tally.holds("it is done", wait_until(lambda: seen.append(kept.get("/chains/0:8")) or seen[-1][1].endswith(b'"owed":[]}\n')))
            tally.is_same("its results", begun.wait(30), [[], [0], [4]])
            bank.shut()
            tally.is_same("its end", service.end()[1:], ("", 0))
        for server in (0, 1):
            for entry in history(room, known.chains, server):
                known.add(entry)
        parts = known.parts((0, 8))
        print(f"{len(seen)} looks at {len(set(seen))} of {len(parts)} states")
        tally.is_same("each is told as it was", [it for it in seen if it not in parts][:3], [])
        tally.is_same("one after another", seen, sorted(seen, key=lambda it: parts.index(it) if it in parts else -1))
        tally.is_same("the first state", parts[0], (200, ROUND))
        tally.holds("it was owed", len(set(seen)) > 1)


@pytest.mark.parametrize("looks", (0, 40))
@pytest.mark.parametrize("server", (0, 1))
def test_stopped(tally, program, server, looks):
    """A server whose store fails: its cells aren't told, and those of the other one are; also where many were read before, which are
    read of a copy."""
    with Room(PAYMENT) as room:
        strain, known = Strain(room), Known(reference.Set(PAYMENT))
        with WatchedService(program, room, env=strain.env) as service, Kept(service) as kept:
            with lynx.Client(room.stores, client=1, first=1, tries=1) as bank:
                tally.holds("a payment", done(bank, known, "seed", 100) and done(bank, known, "pay", 30))
                for path in ("/cells/acct/0", "/cells/acct/1000") * looks:
                    tally.is_same(f"{path} before", kept.get(path), known.answer(path))
                strain.set(fail=f"/stores/server-{server}.lynx")
                try:
                    answer = bank.begin("pay", 5)
                    tally.is_same("a begin behind it", (answer.stamp, server), (known.begin(0, 1, 3, "pay", 5).stamps[0], 1))
                except lynx.Stopped:
                    tally.is_same("a begin is refused", server, 0)
            tally.holds("it is told", wait_until(lambda: kept.get("/healthz")[0] == 503))
            for path, place in (("/cells/acct/0", 0), ("/cells/acct", 0), ("/cells/acct/1000", 1), ("/cells/acct?from=1000", 1)):
                tally.is_same(path, kept.get(path), STOPPED if place == server else known.answer(path))
            for path in ("/requests/1/1", "/requests/1/2", "/chains/0:0", "/chains/0:1"):
                tally.holds(f"{path}: {kept.get(path)}", kept.get(path) in (STOPPED, known.answer(path)))
            for path in ("/cells/cash/0", "/cells/acct/x", "/cells/acct?limit=0", "/chains/16:0"):
                tally.is_same(path, kept.get(path), known.answer(path))
            lynx.Client(room.stores).shut()
            tally.is_same("its end", service.end(), ("", "lynx: close: stopped\n", 4))


# ---- reads write nothing

def dump(room, server):
    """What the system's sqlite3 tells of all tables of a copy of a store."""
    copied = os.path.join(room.path, "copied.lynx")
    for part in ("", "-wal"):
        if os.path.exists(copied + part):
            os.remove(copied + part)
        if os.path.exists(room.store(server) + part):
            shutil.copyfile(room.store(server) + part, copied + part)
    return end_of(["/usr/bin/sqlite3", copied, ".dump"])


def test_only_read(tally, program, room):
    """A service that is only looked at leaves its stores as they were, and makes no session."""
    script = "begin 0 1 1 seed 100\nbegin 0 1 2 pay 30\ndeliver 0:1 1\nbegin 0 1 3 pay 100\n"
    tally.is_same("the run", stored(program, room, script)[2], 0)
    before = [dump(room, server) for server in (0, 1)]
    known = Known(reference.Set(PAYMENT)).begin(0, 1, 1, "seed", 100).begin(0, 1, 2, "pay", 30).begin(0, 1, 3, "pay", 100)
    with WatchedService(program, room) as service, Kept(service) as kept:
        entries, chance = metric(service, "lynx_entries"), random.Random(2)
        paths = [any_path(chance) for _ in range(400)] + [*PAID]
        tally.is_same("what is told", [path for path in paths if kept.get(path) != known.answer(path)][:5], [])
        tally.is_same("no session", metric(service, "lynx_sessions_total"), 0)
        tally.is_same("no entry", (entries, metric(service, "lynx_entries")), (4, 4))
        tally.is_same("no begin", metric(service, "lynx_begins_total"), 0)
        tally.is_same("its end", shut(room, service), ("closed\norder 0:0 0:1\n", "", 0))
    tally.is_same("the stores", [dump(room, server) for server in (0, 1)], before)
    tally.holds("they were told", all("INSERT INTO entry" in out and not err for out, err, _ in before))


# ---- hostile requests

# What stands for a number and for a table: mostly what means something, and else what is nearly such.
NUMBERS = (*"01234", "999", "1000", "1001", str(MOST - 1), str(MOST)) * 3 + (
    str(MOST + 1), "99999999999999999999", "100000000000000000000", "9" * 60, "01", "00", "+1", "-1", "", "1e3", "0x1", "1.0", "1_0", "%31",
    "1%00", "1%", "1%2", "%zz", "one")
TABLES = ("acct",) * 15 + (
    "note", "cash", "a", "acct_", "a" * 24, "a" * 25, "Acct", "ac-ct", "", "%61cct", "acct%00", "1acct", "_acct", "%", "acct.")
SIGNS = {"requests": ("/",) * 12 + (":", "//", ""), "chains": (":",) * 12 + ("/", "%3A", "::", "")}


def any_number(chance):
    return chance.choice((*NUMBERS, str(chance.randrange(1 << 64)), str(chance.randrange(1200))))


def any_field(chance):
    """A field of a query, or nearly one."""
    name = chance.choice(("from", "to", "limit") * 6 + ("From", "fro", "limits", "", "%66rom", "x"))
    number = chance.choice((any_number(chance), str(chance.randrange(1200)), chance.choice(("1", "10000", "10001"))))
    return name + chance.choice(("=",) * 15 + ("", "==", ":")) + number


def any_query(chance):
    """No query, one whose fields are whole, or fields by chance."""
    if chance.random() < 0.2:
        return ""
    names = chance.sample(("from", "to", "limit"), chance.randrange(4))
    if names and chance.random() < 0.5:
        return "?" + "&".join(f"{name}={chance.randrange(1, 1500)}" for name in names)
    return "?" + chance.choice(("&",) * 15 + ("&&", ";", "?")).join(any_field(chance) for _ in range(chance.randrange(5)))


def any_path(chance):
    """A path that is looked up, or one that is nearly such."""
    kind = chance.choice(("cells",) * 6 + ("requests",) * 3 + ("chains",) * 3 + ("cell", "Cells", "Chains", "cells%2f", ""))
    if kind not in SIGNS and chance.random() < 0.6:
        return f"/{kind}/{chance.choice(TABLES)}{any_query(chance)}"
    first = chance.choice(("0", "1", any_number(chance))) if kind in SIGNS else chance.choice(TABLES)
    second = chance.choice((*"0123", any_number(chance)))
    return f"/{kind}/{first}{chance.choice(SIGNS.get(kind, '/'))}{second}" + (any_query(chance) if chance.random() < 0.2 else "")


def spoilt(chance, path):
    """A path with a byte more, one less or another one."""
    at, byte = chance.randrange(1, len(path) + 1), chance.choice("-_.~!$&'()*+,;=:@%/?0123456789aZ")
    return path[:at] + chance.choice((byte + path[at:], path[at + 1:], byte + path[at + 1:]))


def long_paths():
    """Paths that go on and on, within what a head may have."""
    fronts = {"/cells/": "a", "/cells/acct/": "10", "/cells/acct/0": "0", "/cells/acct?from=": "0", "/cells/acct?limit=": "9",
              "/cells/acct?": "&", "/cells/acct?from=1": "&from=1", "/requests/": "1/", "/chains/": "0:", "/": "/", "/cells": "/cells",
              "/cells/acct/%": "41"}
    return [front + more * (count // len(more)) for front, more in fronts.items() for count in (100, 1000, 15000)]


def test_hostile(tally, program, pytestconfig):
    """Each of many random requests has the one answer that the rules give it."""
    chance = random.Random(5)
    with Room(PAYMENT) as room, WatchedService(program, room) as service, Kept(service) as kept:
        known, counts, wrong = Known(reference.Set(PAYMENT)), collections.Counter(), []
        with lynx.Client(room.stores, client=1, first=1) as bank:
            for words in (("seed", 100), ("pay", 30), ("pay", 1000), ("pay", 20)):
                tally.holds(f"{words} is done", done(bank, known, *words))
        paths = [any_path(chance) for _ in range(RANDOM_PATHS * pytestconfig.getoption("--times"))]
        for path in paths + [spoilt(chance, path) for path in paths] + long_paths():
            wanted, got = known.answer(path), kept.get(path)
            counts[wanted if wanted[0] != 200 else path.split("/")[1].partition("?")[0]] += 1
            wrong += [(path, got, wanted)] if got != wanted else []
        print(f"random requests by their answers: {dict(counts)}, over {kept.made} connections")
        tally.is_same(f"{len(wrong)} are answered otherwise", sorted(wrong, key=lambda it: len(it[0]))[:10], [])
        each = NOT_FOUND, BAD_QUERY, NO_TABLE, NO_REQUEST, NO_CHAIN, "cells", "requests", "chains"
        tally.is_same("those that are rare", [it for it in each if counts[it] < 10], [])
        told_again(tally, kept, known)
        tally.is_same("its end", shut(room, service), ("closed\norder 0:0 0:1 0:2\n", "", 0))


def told_again(tally, kept, known):
    """Whatever was asked before, this is answered."""
    for path in ("/cells/acct/0", "/cells/acct?from=1000", "/requests/1/3", "/chains/0:1"):
        tally.is_same(f"then {path}", kept.get(path), known.answer(path))
    tally.is_same("then health", kept.get("/healthz"), (200, b"ok\n"))


def status_of(service, data):
    """The status and the `allow` of the answer to this text, or that there is none."""
    with Kept(service) as kept:
        try:
            status, headers, _ = kept.ask(data.encode("latin-1"))
            return status, headers.get("allow")
        except ConnectionError:
            return "no answer", None


HOSTS = {"127.0.0.1": 200, "127.0.0.1:1": 200, "localhost": 200, "LOCALHOST:80": 200, "[::1]": 200, "[::1]:9": 200, "example.org": 403,
         "127.0.0.1.example.org": 403, "localhost.": 403, "127.0.0.2": 403}


def no_requests(path):
    """What is no request, or has too long a head, and what no path may have."""
    head = " HTTP/1.1\r\nhost: localhost\r\n"
    return [f"GET {path}\r\n\r\n", f"GET {path} {path}{head}\r\n", f"GET {path}{head}x: {'y' * 70000}\r\n\r\n", f"GET {path}\x00{head}\r\n",
            f"GET {path}{'/' * 70000}{head}\r\n", f"GET {path}<{head}\r\n", f"GET {path}\xff{head}\r\n", f"GET {path}\r{head}\r\n"]


def test_refused(tally, program):
    """Hosts and methods are refused as of other paths, and so are heads that are none."""
    with Room(PAYMENT) as room, WatchedService(program, room) as service, Kept(service) as kept:
        known = Known(reference.Set(PAYMENT))
        with lynx.Client(room.stores, client=1, first=1) as bank:
            tally.holds("a payment", done(bank, known, "seed", 100) and done(bank, known, "pay", 30) and done(bank, known, "pay", 300))
        for path in ("/cells/acct/0", "/cells/acct?from=5", "/requests/1/1", "/chains/0:1"):
            for host, wanted in HOSTS.items():
                tally.is_same(f"{path} of {host}", status_of(service, f"GET {path} HTTP/1.1\r\nhost: {host}\r\n\r\n"), (wanted, None))
            tally.is_same(f"{path} without a host", status_of(service, f"GET {path} HTTP/1.1\r\n\r\n"), (400, None))
            two = status_of(service, f"GET {path} HTTP/1.1\r\nhost: localhost\r\nhost: localhost\r\n\r\n")
            tally.is_same(f"{path} with two hosts", two, (400, None))
            for method in ("POST", "PUT", "DELETE", "OPTIONS", "PATCH"):
                got = status_of(service, f"{method} {path} HTTP/1.1\r\nhost: localhost\r\n\r\n")
                tally.is_same(f"{method} {path}", got, (405, "GET"))
            tally.is_same(f"HEAD {path}", heads(service, path), (b"405", [b"GET"], False))
            for data in no_requests(path):
                status = status_of(service, data)[0]
                tally.holds(f"{data[:60]!r} is refused: {status}", status == "no answer" or 400 <= status < 600)
            told_again(tally, kept, known)
        at_once(tally, kept, known)
        tally.is_same("its end", shut(room, service), ("closed\norder 0:0 0:1\n", "", 0))


def at_once(tally, kept, known):
    """Requests that come at once over one connection are answered in their order, those with bodies too."""
    head = " HTTP/1.1\r\nhost: localhost\r\n"
    paths = [path for path in PAID for _ in range(3)]
    ends = ("\r\n", "content-length: 14\r\n\r\nGET /healthz\r\n", "transfer-encoding: chunked\r\n\r\n5\r\nhello\r\n0\r\n\r\n")
    kept.get("/healthz")
    kept.line.sendall("".join(f"GET {path}{head}{ends[at % 3]}" for at, path in enumerate(paths)).encode())
    got = [kept.ask(b"")[::2] for _ in paths]
    tally.is_same("what is asked at once", [it for it in zip(paths, got) if it[1] != known.answer(it[0])][:3], [])


def heads(service, path):
    """The status of a HEAD, what it allows, and whether a body follows."""
    with socket.create_connection(("127.0.0.1", service.status), 30) as line:
        line.sendall(f"HEAD {path} HTTP/1.1\r\nhost: localhost\r\nconnection: close\r\n\r\n".encode())
        found = b""
        while piece := line.recv(65536):
            found += piece
    head, _, body = found.partition(b"\r\n\r\n")
    return head.split(b" ")[1], re.findall(rb"(?i)\r\nallow: ([^\r]*)", head), bool(body)


# ---- memory wanting

ASKED = ("/cells/acct/0", "/cells/acct/1000", "/cells/acct", "/cells/acct?from=1000&limit=1", "/requests/1/2", "/requests/1/3",
         "/chains/0:1", "/cells/cash", "/requests/9/9", "/chains/0:9", "/cells/acct?limit=0", "/cells/acct/x")


class Wanting:
    """Services over the same stores, each of which is refused one growth of its memory (tests/refuse.c)."""

    def __init__(self, program, room):
        self.program, self.room = program, room
        self.library, self.told = (os.path.join(room.path, name) for name in ("refuse.so", "told"))
        subprocess.run(["gcc", "-O2", "-shared", "-fPIC", "-o", self.library, os.path.join(TOP, "tests", "refuse.c")], check=True)
        self.answers = collections.Counter()

    def has_come(self):
        return os.path.exists(self.told)

    def is_well(self, kept):
        """Whether the service has listened and answered over a connection, and was refused nothing for that."""
        try:
            return not self.has_come() and kept.get("/healthz") == (200, b"ok\n") and not self.has_come()
        except OSError:
            return False

    def asked(self, number, known):
        """When that growth is refused: before the first question, at one of them or never. And what is wrong then."""
        if self.has_come():
            os.remove(self.told)
        env = dict(os.environ, LD_PRELOAD=self.library, LYNX_REFUSED=str(number), LYNX_TOLD=self.told)
        with WatchedService(self.program, self.room, env=env) as service, Kept(service, 10) as kept:
            if not service.second or not self.is_well(kept):
                return "before", []
            wrong = [it for path in ASKED for it in self.compared(kept, path, known)]
            return ("at a question" if self.has_come() else "never"), wrong + ([] if service.ran.poll() is None else ["it ended"])

    def compared(self, kept, path, known):
        """What is wrong with the answer to a path, and to the same path again where memory wanted."""
        for _ in range(2):
            try:
                got = kept.get(path)
            except OSError as fault:
                got = repr(fault)
            if got == known.answer(path):
                return []
            self.answers[got] += 1
            if got != WANTING:
                return [(path, got)]
        return [(path, "wanting twice")]


def test_wanting(tally, program, room, pytestconfig):
    """A growth that is refused while something is looked up: that memory wants is told, or what was asked, and the next is answered."""
    tally.is_same("the run", stored(program, room, "begin 0 1 1 seed 100\nbegin 0 1 2 pay 30\ndeliver 0:1 1\nbegin 0 1 3 pay 100\n")[2], 0)
    known = Known(reference.Set(PAYMENT)).begin(0, 1, 1, "seed", 100).begin(0, 1, 2, "pay", 30).begin(0, 1, 3, "pay", 100)
    wanting, low, high = Wanting(program, room), 0, 4096
    while wanting.asked(high, known)[0] == "before":
        low, high = high, 2 * high
    while high - low > 4:
        middle = (low + high) // 2
        low, high = (middle, high) if wanting.asked(middle, known)[0] == "before" else (low, middle)
    wanting.answers.clear()
    met, wrong, step = 0, [], max(1, REFUSED_STEP // pytestconfig.getoption("--times"))
    for number in range(low, low + MOST_REFUSED, step):
        when, found = wanting.asked(number, known)
        met, wrong = met + (when == "at a question"), wrong + [(number, it) for it in found]
        if when == "never" and number > high:
            break
    print(f"{met} growths from {low} to {number} were refused at a question: {dict(wanting.answers)}")
    tally.is_same("answers where a growth was refused", wrong[:5], [])
    tally.holds("growths were refused, and told", met > 5 and wanting.answers[WANTING] > 0)
