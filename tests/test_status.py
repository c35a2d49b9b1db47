"""What a service tells of itself: over HTTP while clients pay, in its log, and by the set that clients compare. What is wanted
stands in docs/FORMATS.md; the metrics are read by a parser of Prometheus' text format that is written here, and compared with
what the clients were answered."""
import collections
import concurrent.futures
import datetime
import http.client
import json
import os
import re
import socket
import threading
import time

import pytest
from serving import PAYMENT, Room, Service, Strain, WatchedService, end_of, free_port, pays, wait_until
import lynx as client

SEED, PAY = PAYMENT[PAYMENT.index("program seed"):PAYMENT.index("program pay")], PAYMENT[PAYMENT.index("program pay"):]
TURNED = PAYMENT[:PAYMENT.index("program seed")] + PAY + SEED


def hash_of(text):
    """The 64-bit FNV-1a hash of a text, as its definition says, in 16 hex digits."""
    found = 0xCBF29CE484222325
    for byte in text.encode("ascii"):
        found = ((found ^ byte) * 0x100000001B3) % 2 ** 64
    return f"{found:016x}"


class Watched(WatchedService):
    """A service that tells its status, asked over HTTP."""

    def asked(self, data, within=30.0):
        """All that comes for these bytes until the service ends the connection, which is told to end behind them."""
        with socket.create_connection(("127.0.0.1", self.status), within) as line:
            try:
                line.sendall(data)
                found = b""
                while piece := line.recv(65536):
                    found += piece
            except ConnectionError:
                pass
            return found

    def get(self, path, host="127.0.0.1", method="GET"):
        """The status, the headers and the body of an answer."""
        asked = http.client.HTTPConnection("127.0.0.1", self.status, timeout=30)
        asked.putrequest(method, path, skip_host=True)
        if host is not None:
            asked.putheader("Host", host)
        asked.putheader("Connection", "close")
        asked.endheaders()
        answer = asked.getresponse()
        body = answer.read()
        asked.close()
        return answer.status, dict((name.lower(), value) for name, value in answer.getheaders()), body


SAMPLE = re.compile(r'([a-zA-Z_:][a-zA-Z0-9_:]*)(?:\{(.*)\})? (\S+)')
LABEL = re.compile(r'([a-zA-Z_][a-zA-Z0-9_]*)="((?:[^"\\\n]|\\[\\"n])*)"')


def metrics_in(text):
    """The samples of a text by name and labels, and the type of each family. Whatever breaks the format is a ValueError."""
    found, types, helped, last = {}, {}, set(), None
    if not text.endswith("\n"):
        raise ValueError("no line feed at the end")
    for line in text.splitlines():
        if line.startswith("# HELP "):
            name = line.split(" ", 3)[2]
            if name in helped:
                raise ValueError(f"helped twice: {name}")
            helped.add(name)
        elif line.startswith("# TYPE "):
            _, _, name, kind = line.split(" ")
            if name in types or kind not in ("counter", "gauge", "histogram"):
                raise ValueError(f"typed twice, or of no type: {line}")
            types[name], last = kind, name
        else:
            match = SAMPLE.fullmatch(line)
            if not match:
                raise ValueError(f"no sample: {line}")
            name, labels, value = match[1], match[2] or "", float(match[3])
            family = re.sub(r"_(bucket|sum|count)$", "", name) if types.get(last) == "histogram" else name
            if family != last or name in types and name != last:
                raise ValueError(f"{name} stands behind the head of {last}")
            parts = LABEL.findall(labels)
            if ",".join(f'{key}="{text}"' for key, text in parts) != labels:
                raise ValueError(f"no labels: {labels}")
            key = (name, tuple(sorted(parts)))
            if key in found:
                raise ValueError(f"told twice: {line}")
            found[key] = value
    return found, types


def summed(samples, name, **labels):
    """The sum of the samples of that name that have these labels."""
    wanted = set(labels.items())
    return sum(value for (own, has), value in samples.items() if own == name and wanted <= set(has))


def test_paths(tally, program):
    """Each path, and each way to be refused."""
    with Room(PAYMENT) as room:
        with Watched(program, room) as service:
            tally.is_same("the first line", service.first, f"listening 127.0.0.1:{service.port}\n")
            tally.is_same("the second", service.second, f"status 127.0.0.1:{service.status}\n")
            with open(os.path.join(room.stores, "service"), encoding="ascii") as file:
                tally.is_same("the notice", file.read(),
                              f"listening 127.0.0.1:{service.port}\nstatus 127.0.0.1:{service.status}\n--\n{PAYMENT}")
            with client.Client(room.stores, client=1, first=1) as bank:
                bank.begin("seed", 100)
                bank.begin("pay", 30).wait(5)
            tally.is_same("health", service.get("/healthz")[::2], (200, b"ok\n"))
            tally.is_same("the set", service.get("/set")[::2], (200, PAYMENT.encode()))
            status, headers, body = service.get("/chain/0:1")
            tally.is_same("a chain", (status, headers["content-type"], json.loads(body)), (200, "application/json", {
                "chain": "0:1", "program": "pay",
                "hops": [{"hop": "0", "server": "0", "stamp": "2", "results": ["100"]}, {"hop": "1", "server": "1", "stamp": "3", "results": []}]}))
            for path in ("/chain/0:2", "/chain/1:0", "/chain/16:0", "/chain/0:01", "/chain/0", "/chain/0:1/", "/chain/0:99999999999999999999",
                         "/", "/status/", "/metrics?x=1", "/setx"):
                tally.is_same(f"no path {path}", service.get(path)[0], 404)
            for host, wanted in (("127.0.0.1", 200), ("127.0.0.1:1", 200), ("localhost", 200), ("LOCALHOST:80", 200), ("[::1]", 200),
                                 ("[::1]:9", 200), ("example.org", 403), ("127.0.0.1.example.org", 403), ("localhost.", 403),
                                 ("127.0.0.2", 403), (None, 400)):
                tally.is_same(f"host {host}", service.get("/healthz", host)[0], wanted)
            for method in ("POST", "PUT", "DELETE", "OPTIONS"):
                status, headers, _ = service.get("/metrics", method=method)
                tally.is_same(f"method {method}", (status, headers.get("allow")), (405, "GET"))
            two = service.asked(b"GET /healthz HTTP/1.1\r\nhost: localhost\r\nhost: example.org\r\nconnection: close\r\n\r\n")
            tally.is_same("two hosts", two.split(b" ")[1:2], [b"400"])
            for path in ("/status", "/metrics"):
                _, headers, _ = service.get(path)
                tally.is_same(f"{path}, kept nowhere", (headers.get("cache-control"), headers.get("x-content-type-options")), ("no-store", "nosniff"))
            status, headers, body = service.get("/status")
            tally.is_same("the page", (status, headers["content-type"].split(";")[0]), (200, "text/html"))
            tally.holds("nothing from elsewhere", not re.search(rb"""(src|href)\s*=\s*["']?(https?:)?//|@import|url\((?!#)""", body))
            client.Client(room.stores).shut()
            tally.is_same("its end", service.end(), ("closed\norder 0:0 0:1\n", "", 0))
        tally.is_same("a port that is taken", taken(program, room), ("", "lynx: cannot listen for the status\n", 4))


def taken(program, room):
    """What a service says whose port for the status is taken; it leaves no notice."""
    with socket.socket() as other:
        other.bind(("127.0.0.1", 0))
        other.listen()
        ended = end_of([program, "serve", room.set, room.stores, str(free_port()), "--status", str(other.getsockname()[1])])
        return ended if not os.path.exists(os.path.join(room.stores, "service")) else ("a notice is left", *ended)


def test_broken(tally, program):
    """Requests that are none, that stop halfway or are too long, and more connections than may watch."""
    with Room(PAYMENT) as room:
        with Watched(program, room) as service:
            for name, data in (("no request", b"\x00\x01\x02\r\n\r\n"), ("a request of clients", bytes.fromhex("010000001a") + bytes(26)),
                               ("no version", b"GET /healthz\r\n\r\n"), ("a long path", b"GET /" + b"x" * 70000 + b" HTTP/1.1\r\nhost: localhost\r\n\r\n"),
                               ("a long head", b"GET /healthz HTTP/1.1\r\nhost: localhost\r\nx: " + b"y" * 70000 + b"\r\n\r\n"),
                               ("many headers", b"GET /healthz HTTP/1.1\r\nhost: localhost\r\n" + b"x: y\r\n" * 100 + b"\r\n"),
                               ("a body that is too long", b"GET /healthz HTTP/1.1\r\nhost: localhost\r\ncontent-length: 9999999999\r\n\r\n")):
                found = service.asked(data)
                tally.holds(f"{name} is refused", found == b"" or found.split(b" ")[1][:1] in (b"4", b"5"))
                tally.is_same(f"behind {name}", service.get("/healthz")[0], 200)
            time.sleep(1)  # whoever watched before is gone
            lines = [socket.create_connection(("127.0.0.1", service.status), 30) for _ in range(8)]
            for line in lines:
                line.sendall(b"GET /healthz HTTP/1.1\r\nhost: loc")
            time.sleep(0.3)
            others = [socket.create_connection(("127.0.0.1", service.status), 30) for _ in range(56)]
            ends = []
            for line in others:
                try:
                    ends.append(line.recv(1))
                except ConnectionError:
                    ends.append(b"")
            tally.is_same("those beyond eight are closed unread", set(ends), {b""})
            for line in lines[:4]:
                line.sendall(b"alhost\r\nconnection: close\r\n\r\n")
                tally.is_same("a half-sent request goes on", line.recv(65536).split(b" ")[1], b"200")
            for line in (*lines, *others):
                line.close()
            tally.holds("others watch then", wait_until(lambda: watches(service)))
            with client.Client(room.stores, client=1, first=1) as bank:
                tally.is_same("clients are served", bank.begin("seed", 1).results, [])
                line = socket.create_connection(("127.0.0.1", service.status), 30)
                line.sendall(b"GET /set HT")
                began = time.monotonic()
                bank.shut()
                tally.is_same("its end", service.end()[2], 0)
                tally.holds("one who watches holds nothing up", time.monotonic() - began < 10)
                line.close()


def watches(service):
    """Whether somebody is answered."""
    try:
        return service.get("/healthz")[0] == 200
    except (OSError, http.client.HTTPException):
        return False


def paying(folder, number, counts, lock, until):
    """A client that seeds, pays, pays again under the same number and asks for too much, and counts what it is answered."""
    with client.Client(folder, client=number, first=1, tries=40) as bank:
        own = collections.Counter()
        for at in range(10 ** 9):
            if time.monotonic() > until:
                break
            for words in (("seed", 5), ("pay", 1 + at % 7), ("pay", 10 ** 15)):
                begun = bank.begin(*words)
                own["begun" if isinstance(begun, client.Begun) else "refused"] += 1
                again = bank.begin(*words, number=begun.number)
                own[("begun" if isinstance(again, client.Begun) else "refused") + " again"] += 1
            try:
                bank.begin("seed", 6, number=1)
            except client.Clash:
                own["clash"] += 1
        bank.settle(30)
        with lock:
            counts.update(own)


def test_measured(tally, program):
    """While 16 clients pay and all paths are asked: the figures rise, and in the end they are what clients were answered."""
    counts, lock = collections.Counter(), threading.Lock()
    with Room(PAYMENT) as room:
        with Watched(program, room) as service:
            until = time.monotonic() + 4
            with concurrent.futures.ThreadPoolExecutor(24) as pool:
                clients = [pool.submit(paying, room.stores, number, counts, lock, until) for number in range(16)]
                asked, last = 0, 0
                while time.monotonic() < until:
                    samples, _ = metrics_in(service.get("/metrics")[2].decode("ascii"))
                    now = summed(samples, "lynx_entries")
                    tally.holds("entries don't fall", now >= last) if now < last else None
                    last, asked = now, asked + 1
                    if asked % 5 == 0:
                        service.get("/status")
                        service.get("/chain/0:0")
                for each in clients:
                    each.result()
            print(f"metrics asked {asked} times beside 16 clients")
            tally.holds("metrics were asked", asked > 1)
            samples, types = metrics_in(service.get("/metrics")[2].decode("ascii"))
            tally.holds("entries rose", last > 0)
            for answer, again in (("begun", "false"), ("begun", "true"), ("refused", "false"), ("refused", "true")):
                tally.is_same(f"{answer}, again {again}", summed(samples, "lynx_begins_total", answer=answer, again=again),
                              counts[answer + (" again" if again == "true" else "")])
            tally.is_same("clash", summed(samples, "lynx_begins_total", answer="clash"), counts["clash"])
            fresh = counts["begun"] + counts["refused"]
            done = summed(samples, "lynx_deliveries_total", kind="done")
            tally.is_same("entries of server 0", summed(samples, "lynx_entries", server="0"), fresh)
            tally.is_same("entries of server 1", summed(samples, "lynx_entries", server="1"), done)
            tally.is_same("room", summed(samples, "lynx_room_entries"), 2000000 - fresh - done)
            tally.is_same("commits", summed(samples, "lynx_commit_seconds_count"), fresh + done)
            tally.is_same("the last bucket", summed(samples, "lynx_commit_seconds_bucket", le="+Inf"), fresh + done)
            buckets = [summed(samples, "lynx_commit_seconds_bucket", le=le) for le in ("0.0001", "0.001", "0.01", "0.1", "1", "5", "+Inf")]
            tally.is_same("buckets rise", buckets, sorted(buckets))
            tally.holds("commits took time", summed(samples, "lynx_commit_seconds_sum") > 0)
            tally.is_same("nothing is owed", summed(samples, "lynx_owed_hops"), 0)
            tally.is_same("nothing is held", summed(samples, "lynx_held_messages"), 0)
            tally.is_same("all run", summed(samples, "lynx_server_running"), 2)
            tally.is_same("clients are gone", wait_until(lambda: summed(metrics_in(service.get("/metrics")[2].decode())[0], "lynx_connections") == 0), True)
            tally.holds("sessions", 1 <= summed(samples, "lynx_sessions_total") <= 64)
            tally.holds("bytes were told", summed(samples, "lynx_told_bytes") > 25 * fresh)
            tally.is_same("the build", [dict(labels)["set"] for name, labels in samples if name == "lynx_build_info"], [hash_of(PAYMENT)])
            tally.is_same("its version", [dict(labels)["version"] for name, labels in samples if name == "lynx_build_info"],
                          [end_of([program, "--version"])[0].split()[1]])
            tally.is_same("types", (types["lynx_entries"], types["lynx_begins_total"], types["lynx_commit_seconds"]), ("gauge", "counter", "histogram"))
            client.Client(room.stores).shut()
            tally.is_same("its end", service.end()[2], 0)


def test_owed(tally, program):
    """What is owed over a restart: hops of chains that an earlier service left count too, and are done."""
    with Room(PAYMENT) as room:
        end_of([program, "run", "--stores", room.stores, room.set, room.file("script", "begin 0 1 1 seed 9\nbegin 0 1 2 pay 3\nbegin 0 1 3 pay 3\n")])
        with Watched(program, room) as service:
            def left():
                return summed(metrics_in(service.get("/metrics")[2].decode())[0], "lynx_owed_hops")
            tally.holds("they are done", wait_until(lambda: left() == 0))
            samples, _ = metrics_in(service.get("/metrics")[2].decode())
            tally.is_same("entries", (summed(samples, "lynx_entries", server="0"), summed(samples, "lynx_entries", server="1")), (3, 2))
            tally.is_same("clocks", summed(samples, "lynx_clock_stamp", server="0"), 3)
            client.Client(room.stores).shut()
            service.end()


def by_server(service, name):
    """A metric of both servers, which has a sample of each."""
    samples, _ = metrics_in(service.get("/metrics")[2].decode("ascii"))
    return [samples[name, (("server", str(server)),)] for server in (0, 1)]


def answered(bank, *words):
    """What a begin comes to."""
    try:
        return type(bank.begin(*words)).__name__
    except client.LynxError as fault:
        return fault.reason


@pytest.mark.parametrize("server, answer, owed", ((0, "stopped", [0, 0]), (1, "Begun", [0, 2])))
def test_stopped(tally, program, server, answer, owed):
    """A server whose store fails: /healthz and the metrics tell it, of that server alone, and how many hops are owed there. The next
    service is well, and does them."""
    with Room(PAYMENT) as room:
        strain = Strain(room)
        with Watched(program, room, env=strain.env) as service:
            with client.Client(room.stores, client=1, first=1, tries=1) as bank:
                bank.begin("seed", 100)
                tally.holds("a payment", bank.begin("pay", 30).wait(10))
                tally.is_same("health before", service.get("/healthz")[::2], (200, b"ok\n"))
                tally.is_same("who runs before", by_server(service, "lynx_server_running"), [1, 1])
                strain.set(fail=f"/stores/server-{server}.lynx")
                tally.is_same("begins behind it", [answered(bank, "pay", amount) for amount in (1, 2)], [answer] * 2)
            tally.holds("it is told", wait_until(lambda: service.get("/healthz")[0] != 200))
            tally.is_same("health", service.get("/healthz")[::2], (503, f"server {server} stopped\n".encode()))
            tally.is_same("who runs", by_server(service, "lynx_server_running"), [int(each != server) for each in (0, 1)])
            tally.is_same("what is owed", by_server(service, "lynx_owed_hops"), owed)
            client.Client(room.stores).shut()
            tally.is_same("its end", service.end(), ("", "lynx: close: stopped\n", 4))
        with Watched(program, room) as service:
            tally.is_same("health of the next", service.get("/healthz")[::2], (200, b"ok\n"))
            tally.holds("what was owed is done", wait_until(lambda: by_server(service, "lynx_owed_hops") == [0, 0]))
            client.Client(room.stores).shut()
            tally.is_same("the end of the next", service.end()[1:], ("", 0))


def test_slow(tally, program):
    """Hops are owed while the disk of their server is slow: of that server, and until they are done."""
    with Room(PAYMENT) as room:
        strain = Strain(room)
        with Watched(program, room, env=strain.env) as service, client.Client(room.stores, client=1, first=1) as bank:
            bank.begin("seed", 1000)
            strain.set(millis=200, slow="/stores/server-1.lynx")
            with service.connect() as line:
                line.send(pays(2, 300))
                for _ in range(300):
                    line.item()
            owed = [by_server(service, "lynx_owed_hops")]
            tally.holds("nothing is owed then", wait_until(lambda: owed.append(by_server(service, "lynx_owed_hops")) or owed[-1][1] == 0))
            tally.is_same("what is owed at server 0", {first for first, _ in owed}, {0})
            tally.holds(f"what is owed at server 1: {[second for _, second in owed]}", 0 < owed[0][1] <= 300)
            tally.is_same("entries", by_server(service, "lynx_entries"), [301, 300])
            bank.shut()
            tally.is_same("its end", service.end()[1:], ("", 0))


def test_compared(tally, program):
    """Clients compare their set with the one that is served."""
    with Room(PAYMENT) as room:
        turned, front = room.file("turned", TURNED), room.file("front", PAYMENT[:PAYMENT.index("program pay")])
        with Watched(program, room) as service:
            at = [str(service.port), "--status", str(service.status)]
            tally.is_same("ask by the same set", end_of([program, "ask", room.set, *at], "begin 1 1 seed 5\n"),
                          ("begun 0:0 stamp 1 results -\n", "", 0))
            tally.is_same("ask by one that it extends", end_of([program, "ask", front, *at], "begin 1 2 seed 5\n"),
                          ("begun 0:1 stamp 2 results -\n", "", 0))
            tally.is_same("ask by another order", end_of([program, "ask", turned, *at], "begin 1 3 seed 5\n"), ("", "lynx: other-set\n", 4))
            tally.is_same("ask by a folder", end_of([program, "ask", room.stores], "look 0:1 0\n"), ("found stamp 2 results -\n", "", 0))
            tally.is_same("no status there", end_of([program, "ask", room.set, str(service.port), "--status", str(service.port)], ""), ("", "lynx: no status\n", 4))
            tally.is_same("nobody there", end_of([program, "ask", room.set, str(service.port), "--status", str(free_port())], ""), ("", "lynx: cannot connect\n", 4))
            tally.is_same("a folder has its own", end_of([program, "ask", room.stores, "--status", str(service.status)], ""),
                          ("", "lynx: --status wants SET and PORT\n", 2))
            tally.is_same("the set that is served", client.served_set(service.status), PAYMENT)
            tally.is_same("a client", client.Client(service.port, room.set, status=service.status, client=9, first=1).begin("seed", 1).results, [])
            try:
                client.Client(service.port, turned, status=service.status, client=8, first=1).begin("seed", 1)
                tally.holds("a client of another order", False)
            except client.OtherSet as fault:
                tally.is_same("a client of another order", fault.reason, "other-set")
            client.Client(room.stores).shut()
            tally.is_same("its end", service.end(), ("closed\norder 0:0 0:1 0:2\n", "", 0))
        with Room(TURNED) as other, Watched(program, other) as service:
            with open(os.path.join(room.stores, "service"), "w", encoding="ascii") as file:
                file.write(f"listening 127.0.0.1:{service.port}\nstatus 127.0.0.1:{service.status}\n--\n{PAYMENT}")
            tally.is_same("what a kill left", end_of([program, "ask", room.stores], "begin 1 9 seed 5\n"), ("", "lynx: other-set\n", 4))
            try:
                client.Client(room.stores, client=1, first=1, tries=2).begin("seed", 5)
                tally.holds("a client by what a kill left", False)
            except client.OtherSet as fault:
                tally.is_same("a client by what a kill left", fault.reason, "other-set")
            client.Client(other.stores).shut()
            tally.is_same("nothing ran there", service.end(), ("closed\norder -\n", "", 0))


def events_of(text):
    """The events of a log: each a dict of its words, behind a time that has the form of RFC 3339."""
    found = []
    for line in text.splitlines():
        stamp, *words = line.split(" ")
        datetime.datetime.fromisoformat(stamp.replace("Z", "+00:00")[:19] + "+00:00")
        if not re.fullmatch(r"\d{4}-\d\d-\d\dT\d\d:\d\d:\d\d(\.\d+)?Z", stamp):
            raise ValueError(stamp)
        found.append(dict(word.split("=", 1) for word in words))
    return found


def test_logged(tally, program):
    """The log: a line for each event, and none without it."""
    with Room(PAYMENT) as room:
        with Watched(program, room, "--log") as service:
            with client.Client(room.stores, client=1, first=1) as bank:
                bank.begin("seed", 100)
                bank.begin("pay", 30).wait(5)
            with service.connect() as line:
                line.send(b"\xff\x00\x00\x00\x00")
                line.rest()
            client.Client(room.stores).shut()
            out, err, status = service.end()
            tally.is_same("its end", (out, status), ("closed\norder 0:0 0:1\n", 0))
            events = events_of(err)
            tally.is_same("stores", [(it["server"], it["entries"]) for it in events if it["event"] == "opened"], [("0", "0"), ("1", "0")])
            tally.is_same("where", [it["address"] for it in events if it["event"] in ("listening", "status")],
                          [f"127.0.0.1:{service.port}", f"127.0.0.1:{service.status}"])
            tally.is_same("clients", sum(it["event"] == "client" for it in events), 3)
            tally.is_same("why they went", sorted(it["reason"] for it in events if it["event"] == "gone"), ["no-frame", "quit", "shut"])
            tally.is_same("the end", [(it["event"], it.get("owed") or it.get("well")) for it in events[-2:]], [("closing", "0"), ("audited", "true")])
        with Service(program, room) as service:
            client.Client(room.stores).shut()
            tally.is_same("no log", service.end()[1], "")


def ticks_of(pid):
    with open(f"/proc/{pid}/stat", encoding="ascii") as file:
        fields = file.read().rpartition(")")[2].split()
    return int(fields[11]) + int(fields[12])


def test_idle(tally, program):
    """A service that is looked at each second and asked nothing else takes next to nothing of a processor."""
    with Room(PAYMENT) as room:
        with Watched(program, room) as service:
            time.sleep(2)
            before, began = ticks_of(service.ran.pid), time.monotonic()
            for _ in range(6):
                service.get("/status")
                time.sleep(1)
            took = (ticks_of(service.ran.pid) - before) / os.sysconf("SC_CLK_TCK") / (time.monotonic() - began)
            print(f"idle, looked at each second: {100 * took:.2f} of 100 of a processor")
            tally.holds("below 2 of 100, or 4 beside other work", took < 0.04)
            client.Client(room.stores).shut()
            service.end()
