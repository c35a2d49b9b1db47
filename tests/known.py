"""What a service tells over HTTP of cells, requests and chains, computed apart from the program: by a plain reading of the rules of the
paths over the entries that the system's sqlite3 finds in stores, run one after another by tests/reference.py."""
import collections
import json
import re
import socket
import sqlite3
import struct
import urllib.request

import reference
from serving import wait_until
import lynx

MOST = 2 ** 64 - 1

NUMBER, NAME = re.compile("0|[1-9][0-9]{0,19}"), re.compile("[a-z][a-z0-9_]{0,23}")
NOT_FOUND, BAD_QUERY = (404, b"not found\n"), (400, b"bad query\n")
NO_TABLE, NO_REQUEST, NO_CHAIN = ((404, f"no such {what}\n".encode()) for what in ("table", "request", "chain"))


# ---- a service, and connections to the port of its status

class Kept:
    """A connection that is kept from one request to the next, and made anew where the service has ended it."""

    def __init__(self, service, timeout=30):
        self.port, self.timeout, self.line, self.left, self.made = service.status, timeout, None, b"", 0

    def __enter__(self):
        return self

    def __exit__(self, *_):
        self.drop()

    def drop(self):
        if self.line:
            self.line.close()
        self.line, self.left = None, b""

    def ask(self, data):
        """The status, the headers and the body of the answer to these bytes; a ConnectionError where none comes."""
        if self.line is None:
            self.line, self.made = socket.create_connection(("127.0.0.1", self.port), self.timeout), self.made + 1
            self.line.setsockopt(socket.IPPROTO_TCP, socket.TCP_NODELAY, 1)
        try:
            self.line.sendall(data)
            head, _, self.left = self.until(lambda: b"\r\n\r\n" in self.left).partition(b"\r\n\r\n")
            first, *lines = head.decode("latin-1").split("\r\n")
            headers = {name.lower(): text.strip() for name, _, text in (line.partition(":") for line in lines)}
            length = int(headers["content-length"])
            body, self.left = self.until(lambda: len(self.left) >= length)[:length], self.left[length:]
        except OSError:
            self.drop()
            raise
        if headers.get("connection") == "close":
            self.drop()
        return int(first.split(" ")[1]), headers, body

    def until(self, fact):
        """What came, once the fact holds of it."""
        while not fact():
            piece = self.line.recv(65536)
            if not piece:
                raise ConnectionError("the service ended the connection")
            self.left += piece
        return self.left

    def whole(self, path, fields=()):
        """The answer to a GET of a path, with these fields besides. Where a kept connection has ended it is asked over another one."""
        lines = "".join(f"{field}\r\n" for field in ("host: localhost", *fields))
        data = f"GET {path} HTTP/1.1\r\n{lines}\r\n".encode("latin-1")
        if self.line:
            try:
                return self.ask(data)
            except ConnectionError:
                pass
        return self.ask(data)

    def get(self, path, fields=()):
        """The status and the body for a path."""
        status, _, body = self.whole(path, fields)
        return status, body


def metric(service, name):
    """The sum of a metric's samples."""
    with urllib.request.urlopen(f"http://127.0.0.1:{service.status}/metrics", timeout=30) as page:
        return sum(float(found) for found in re.findall(rf"(?m)^{name}(?:\{{[^}}]*\}})? (\S+)$", page.read().decode()))


def shut(room, service):
    """How the service ends that is asked to."""
    lynx.Client(room.stores).shut()
    return service.end()


def settled(service):
    """Whether all chains come to their ends."""
    return wait_until(lambda: metric(service, "lynx_owed_hops") == 0, 60)


# ---- what stands in stores, by docs/FORMATS.md

class Encoding:
    """The body of an encoding, read from the left."""

    def __init__(self, data):
        self.data, self.at = data, 0

    def take(self, form):
        found = struct.unpack_from(form, self.data, self.at)[0]
        self.at += struct.calcsize(form)
        return found

    def byte(self):
        return self.take(">B")

    def word(self):
        return self.take(">Q")

    def chain(self):
        return self.byte(), self.word()

    def values(self):
        return [self.word() for _ in range(self.byte())]

    def numbers(self):
        return dict(self.chain() for _ in range(self.byte()))


def entry_of(chains, server, data):
    """The entry of a server that has this encoding, with the fields that tests/reference.py gives one."""
    names, encoding = [*chains.programs], Encoding(data[5:])
    if data[0] == 0x24:
        entry = {"kind": "hop", "chain": encoding.chain(), "program": names[encoding.byte()], "hop": encoding.byte(), "sent": encoding.word(),
                 "args": encoding.values(), "numbers": encoding.numbers(), "earlier": [encoding.values() for _ in range(encoding.byte())]}
        entry.update(stamp=encoding.word(), results=encoding.values())
    else:
        entry = {"client": (encoding.word(), encoding.word()), "program": names[encoding.byte()], "hop": 0, "args": encoding.values(),
                 "earlier": [], "seen": encoding.word()}
        if data[0] == 0x23:
            entry.update(kind="refused", need=encoding.byte(), stamp=encoding.word())
        else:
            entry.update(kind="begun", chain=encoding.chain(), numbers=encoding.numbers(), stamp=encoding.word(), results=encoding.values())
    if encoding.at != len(encoding.data):
        raise ValueError(f"no entry: {data.hex()}")
    return dict(entry, server=server)


def rows(room, server, statement):
    """The rows of a store that nobody has open."""
    with sqlite3.connect(room.store(server)) as store:
        found = store.execute(statement).fetchall()
    store.close()
    return found


def history(room, chains, server):
    """The entries of a store, in their order."""
    return [entry_of(chains, server, body) for body, in rows(room, server, "SELECT body FROM entry ORDER BY place")]


def cells_in(room, server, table):
    """The cells of a table that a store has, keys rising; `table` is its number."""
    found = rows(room, server, f"SELECT k, v FROM cell WHERE tab = {table} ORDER BY k")
    return [tuple(int.from_bytes(each, "big") for each in row) for row in found]


# ---- what is answered, by the rules of the paths

def line_of(value):
    """One line of JSON."""
    return json.dumps(value, separators=(",", ":")).encode() + b"\n"


def texts(values):
    return [str(value) for value in values]


def number_in(text):
    """The number that a text spells, or None."""
    return int(text) if NUMBER.fullmatch(text) and int(text) <= MOST else None


def range_in(query):
    """The first key, the last and the limit of a query, which is None where no ? stands; None if it is bad."""
    found = {}
    for field in [] if query is None else query.split("&"):
        name, sign, text = field.partition("=")
        if not sign or name not in ("from", "to", "limit") or name in found or number_in(text) is None:
            return None
        found[name] = number_in(text)
    first, last, limit = found.get("from", 0), found.get("to", MOST), found.get("limit", 1000)
    return (first, last, limit) if first <= last and 1 <= limit <= 10000 else None


class Known:
    """What servers have done so far, and what is answered of it then."""

    def __init__(self, chains):
        self.chains = chains
        self.cells, self.stamps = [{} for _ in range(chains.servers)], [0] * chains.servers
        self.requests, self.acts = collections.defaultdict(list), {}
        self.seen = 0  # the greatest stamp that the client of `done` was told

    def add(self, entry):
        """A server adds this entry to its own, which it has to be by what the server's cells are then."""
        server = entry["server"]
        ran = reference.run_hop(self.chains, entry["program"], entry["hop"], entry["args"], entry["earlier"], self.cells[server])
        if entry["stamp"] <= self.stamps[server] or (ran != entry["need"] if isinstance(ran, int) else ran[0] != entry["results"]):
            raise ValueError(f"no entry behind stamp {self.stamps[server]}: {entry}")
        self.stamps[server] = entry["stamp"]
        if entry["kind"] != "hop":
            self.requests[entry["client"]].append(entry)
        if entry["kind"] != "refused":
            self.cells[server] = ran[1]
            self.acts[entry["chain"], entry["hop"]] = entry
        return self

    def begin(self, server, client, number, program, *args):
        """A begin, and all that follows it, done before anything else is, of a client that has seen no greater stamp than `seen`."""
        chains, stamp, earlier = self.chains, self.seen, []
        chain = server, sum(hop == 0 and begun[0] == server for begun, hop in self.acts)
        for hop, (place, _) in enumerate(chains.hops(program)):
            stamp = max(stamp, self.stamps[place]) + 1
            entry = {"server": place, "client": (client, number), "program": program, "hop": hop, "args": [*args], "earlier": [*earlier],
                     "stamp": stamp}
            ran = reference.run_hop(chains, program, hop, args, earlier, self.cells[place])
            if isinstance(ran, int):
                return self.add(dict(entry, kind="refused", need=ran))
            self.add(dict(entry, kind="hop" if hop else "begun", chain=chain, results=ran[0]))
            earlier.append(ran[0])
        return self

    def answer(self, path):
        """The status and the body for a path with its query. One that is bad is told before a path that spells nothing."""
        place, mark, query = path.partition("?")
        kind, _, rest = place[1:].partition("/")
        first, sign, second = rest.partition(":" if kind == "chains" else "/")
        if kind not in ("cells", "requests", "chains") or place.count("/") < 2:
            return NOT_FOUND
        if kind == "cells" and not sign:
            return self.range(first, range_in(query if mark else None))
        if mark:
            return BAD_QUERY
        return {"cells": self.cell, "requests": self.request, "chains": self.chain}[kind](first, number_in(second) if sign else None)

    def cell(self, table, key):
        if not NAME.fullmatch(table) or key is None:
            return NOT_FOUND
        if table not in self.chains.tables:
            return NO_TABLE
        server = self.chains.server_of(table, key)
        return 200, line_of({"table": table, "key": str(key), "value": str(self.cells[server].get((table, key), 0)),
                             "server": str(server), "stamp": str(self.stamps[server])})

    def range(self, table, wanted):
        if wanted is None:
            return BAD_QUERY
        if not NAME.fullmatch(table):
            return NOT_FOUND
        if table not in self.chains.tables:
            return NO_TABLE
        first, last, limit = wanted
        high, server = next((high, server) for low, high, server in self.chains.tables[table] if low <= first <= high)
        found = sorted((key, value) for (name, key), value in self.cells[server].items()
                       if name == table and first <= key <= min(last, high) and value)[:limit]
        further = (found[-1][0] if len(found) == limit else high) + 1
        told = {"table": table, "server": str(server), "stamp": str(self.stamps[server]),
                "cells": [{"key": str(key), "value": str(value)} for key, value in found]}
        return 200, line_of(dict(told, next=str(further)) if further <= last else told)

    def request(self, client, number):
        if number_in(client) is None or number is None:
            return NOT_FOUND
        records = [self.record(entry) for entry in sorted(self.requests.get((int(client), number), ()), key=lambda it: it["server"])]
        return (200, line_of({"client": client, "number": str(number), "records": records})) if records else NO_REQUEST

    @staticmethod
    def record(entry):
        told = {"server": str(entry["server"]), "stamp": str(entry["stamp"]), "program": entry["program"], "args": texts(entry["args"])}
        if entry["kind"] == "refused":
            return dict(told, refused=str(entry["need"]))
        return dict(told, chain=reference.name(entry["chain"]), results=texts(entry["results"]))

    def chain(self, origin, index, most=MOST):
        """What is told of a chain of which no more than so many hops have run."""
        if number_in(origin) is None or int(origin) >= 16 or index is None:
            return NOT_FOUND
        chain = int(origin), index
        begun = self.acts.get((chain, 0))
        if not begun:
            return NO_CHAIN
        hops = [(str(hop), str(server), self.acts.get((chain, hop)) if hop < most else None)
                for hop, (server, _) in enumerate(self.chains.hops(begun["program"]))]
        return 200, line_of({
            "chain": reference.name(chain), "client": str(begun["client"][0]), "number": str(begun["client"][1]),
            "program": begun["program"], "args": texts(begun["args"]),
            "hops": [{"hop": hop, "server": server, **({"stamp": str(act["stamp"]), "results": texts(act["results"])} if act else {})}
                     for hop, server, act in hops],
            "owed": [hop for hop, _, act in hops if not act]})

    def parts(self, chain):
        """All that may be told of a chain while it runs: after its first hop, after its second and so on."""
        program = self.acts[chain, 0]["program"]
        return [self.chain(str(chain[0]), chain[1], most) for most in range(1, len(self.chains.hops(program)) + 1)]


def known_of(chains, histories):
    """What is known of servers that have these histories."""
    known = Known(chains)
    for entry in (entry for each in histories for entry in each):
        known.add(entry)
    return known


def histories_of(room, chains):
    return [history(room, chains, server) for server in range(chains.servers)]


def done(bank, known, program, *args):
    """Begins a chain, waits for all its hops, and has that known."""
    origin, number = known.chains.origin(program), bank.next_number
    answer = bank.begin(program, *args)
    known.begin(origin, bank.client, number, program, *args)
    known.seen = max(known.stamps[server] for server in known.chains.visited(program))
    return isinstance(answer, lynx.Refused) or answer.wait(30) is not None


# ---- the same in lines

def spaced(values):
    """Results or arguments, as lines have them."""
    return " ".join(values) or "-"


def asked_for(told):
    return f" program {told['program']} args {spaced(told['args'])}"


def who(told):
    return f" client {told['client']} number {told['number']}"


def record_line(told, record):
    """The line of a record of the request that is told of."""
    first = f"refused {record['refused']} stamp {record['stamp']}" if "refused" in record else \
        f"begun {record['chain']} stamp {record['stamp']} results {spaced(record['results'])}"
    return f"{first}{who(told)}{asked_for(record)} server {record['server']}\n"


def hop_line(chain, hop):
    """The line of a hop of a chain."""
    done = f"hop {chain} {hop['hop']} stamp {hop['stamp']} results {spaced(hop['results'])}" if "stamp" in hop else f"owed {chain} {hop['hop']}"
    return f"{done} server {hop['server']}\n"


def in_lines(answer):
    """The answer in lines of which this is the one in JSON; a refusal is the same in both."""
    status, body = answer
    if status != 200:
        return answer
    told = json.loads(body)
    if "hops" in told:
        lines = [f"chain {told['chain']}{who(told)}{asked_for(told)}\n", *(hop_line(told["chain"], hop) for hop in told["hops"])]
    elif "records" in told:
        lines = [record_line(told, record) for record in told["records"]]
    else:
        cells = told["cells"] if "cells" in told else [told]
        further = f" next {told['next']}" if "next" in told else ""
        lines = [*(f"cell {told['table']} {cell['key']} {cell['value']}\n" for cell in cells),
                 f"server {told['server']} stamp {told['stamp']}{further}\n"]
    return status, "".join(lines).encode()
