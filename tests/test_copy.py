"""A folder that follows a service, `lynx serve SET DIR PORT --copy DIR2`. At all times, over kills, pauses, disks that fill and
disks that hang, what a store of DIR2 has is a front of what the store of DIR has; `lynx restore` makes of it a folder with all
promises; and no begin waits for DIR2."""
import concurrent.futures
import http.client
import itertools
import os
import random
import re
import shutil
import socket
import subprocess
import tempfile
import threading
import time

import pytest
from serving import PAYMENT, Room, Strain, WatchedService, end_of, files, pays, stored, wait_until
import lynx as client

SERVERS = (0, 1)
KILLS, MOMENTS, PAYMENTS = 50, 10, 300

# A shut, and the bytes of the answer that a payment began, and of a bye.
SHUT, ANSWER, BYE = bytes.fromhex("0400000000"), 5 + 1 + 1 + 8 + 8 + 1 + 1 + 8, 5


class CopyRoom(Room):
    """A room with a folder that follows, and one in which stores are restored."""

    def __init__(self, set_text=PAYMENT):
        super().__init__(set_text)
        self.copy, self.taken, self.new = (os.path.join(self.path, name) for name in ("copy", "taken", "new"))
        os.mkdir(self.copy)

    def copied(self, server):
        return os.path.join(self.copy, f"server-{server}.lynx")


class Followed(WatchedService):
    """A service with a folder that follows."""

    def __init__(self, program, room, *words, env=None):
        super().__init__(program, room, "--copy", room.copy, *words, env=env)

    def command(self, path, method="POST", **fields):
        """The status and the body of what is answered to a command."""
        asked = http.client.HTTPConnection("127.0.0.1", self.status, timeout=60)
        asked.request(method, path, headers={"Connection": "close", **fields})
        answer = asked.getresponse()
        found = answer.status, answer.read().decode()
        asked.close()
        return found

    def posted(self, path):
        """The first line and the body of what is answered to a command without a length, as curl sends it."""
        with socket.create_connection(("127.0.0.1", self.status), 30) as asked, asked.makefile("rb") as answer:
            asked.sendall(f"POST {path} HTTP/1.1\r\nHost: 127.0.0.1:{self.status}\r\nConnection: close\r\n\r\n".encode())
            lines = answer.read().split(b"\r\n")
        return lines[0], lines[-1]

    def figures(self):
        """The figures of the stores that follow, by name and server."""
        found = {}
        for line in self.command("/metrics", "GET")[1].splitlines():
            if line.startswith("lynx_copy_"):
                name, _, value = line.partition(" ")
                found[name] = int(value)
        return found

    def is_whole(self):
        """Whether all stores follow and lack nothing."""
        return self.figures() == figures_of(1, 0)

    def follows(self):
        """Whether each store follows."""
        figures = self.figures()
        return [figures[f'lynx_copy_follows{{server="{server}"}}'] for server in SERVERS]

    def has_open(self, folder):
        """The files of a folder that it has open."""
        own = f"/proc/{self.ran.pid}/fd"
        found = set()
        for handle in os.listdir(own):
            try:
                found.add(os.readlink(os.path.join(own, handle)))
            except FileNotFoundError:
                pass
        return sorted(os.path.basename(path) for path in found if path.startswith(folder + "/"))


def figures_of(follows, behind):
    """The figures where each store is so."""
    found = {f'lynx_copy_follows{{server="{server}"}}': follows for server in SERVERS}
    return found | {f'lynx_copy_behind_entries{{server="{server}"}}': behind for server in SERVERS}


def listed(program, path):
    """The lines of entries and cells of a store, read of a copy of its files, or none where there is no store."""
    with tempfile.TemporaryDirectory() as folder:
        for end in ("", "-wal"):
            if os.path.exists(path + end):
                shutil.copy(path + end, os.path.join(folder, "store" + end))
        if not os.path.exists(os.path.join(folder, "store")):
            return []
        out, fault, status = end_of([program, "show", os.path.join(folder, "store")])
        if status != 0:
            raise ValueError(f"{path}: {fault}")
        return out.splitlines()[2:]


def entries(lines):
    return [line for line in lines if not line.startswith("cell ")]


def logs(folder):
    """The sizes of the logs of a folder."""
    return [os.path.getsize(os.path.join(folder, name)) for name in os.listdir(folder) if name.endswith("-wal")]


def fitting(first, second):
    """How many first entries of two servers fit together, of payments from the first to the second: a hop at the second goes
    where its chain didn't begin at the first, with all behind it."""
    begun = {line.split()[1] for line in first if line.startswith("begun ")}
    for place, line in enumerate(second):
        if line.split()[1] not in begun:
            return [len(first), place]
    return [len(first), len(second)]


def restored(tally, program, room, name, copies):
    """Restores copies, audits what is made, and compares it with what fits together of them."""
    shutil.rmtree(room.new, ignore_errors=True)
    os.mkdir(room.new)
    found = [entries(listed(program, os.path.join(copies, f"server-{server}.lynx"))) for server in SERVERS]
    counts = fitting(*found)
    told = "".join(f"restored {server} {counts[server]} of {len(found[server])}\n" for server in SERVERS)
    tally.is_same(f"{name}: restored", end_of([program, "restore", copies, room.new]), (told, "", 0))
    for server in SERVERS:
        tally.is_same(f"{name}: entries of {server}", entries(listed(program, os.path.join(room.new, f"server-{server}.lynx"))),
                      found[server][:counts[server]])
    out, fault, status = end_of([program, "audit", room.new])
    tally.is_same(f"{name}: the audit", (out.split()[:2], fault, status), (["closed", "order"], "", 0))
    return counts


class Payer:
    """A client that pays one after the other, and notes how long it waited at most."""

    def __init__(self, room, number, pause=0.0):
        self.room, self.number, self.pause = room, number, pause
        self.paid, self.worst, self.failed, self.stop = 0, 0.0, None, False
        self.thread = threading.Thread(target=self.run)
        self.thread.start()

    def run(self):
        try:
            with client.Client(self.room.stores, client=self.number, first=1, timeout=20, tries=400) as bank:
                while not self.stop:
                    began = time.monotonic()
                    bank.begin("pay", 1)
                    self.worst, self.paid = max(self.worst, time.monotonic() - began), self.paid + 1
                    time.sleep(self.pause)
        except Exception as fault:  # noqa: BLE001
            self.failed = repr(fault)

    def end(self):
        self.stop = True
        self.thread.join()
        return self


def seed(room, amount=1_000_000):
    with client.Client(room.stores, client=99, first=1) as bank:
        bank.begin("seed", amount, number=1)


def shut(tally, room, service):
    client.Client(room.stores).shut()
    out, fault, status = service.end()
    tally.is_same("its end", (out[:13], fault, status), ("closed\norder ", "", 0))


def test_follows(tally, program):
    """What is paid is soon in the folder that follows, and all of it in the end; a service goes on with the folder."""
    with CopyRoom() as room:
        for turn in range(2):
            with Followed(program, room) as service:
                seed(room)
                payers = [Payer(room, number) for number in (3 * turn + 1, 3 * turn + 2, 3 * turn + 3)]
                time.sleep(1)
                for payer in payers:
                    tally.is_same("a client", payer.end().failed, None)
                tally.holds("soon nothing lacks", wait_until(service.is_whole, 20))
                shut(tally, room, service)
            for server in SERVERS:
                tally.is_same(f"the store of {server}", listed(program, room.copied(server)), listed(program, room.store(server)))
            tally.holds("the logs of closed stores are no more than heads", all(size <= 41 for size in logs(room.copy)))
        whole = [len(entries(listed(program, room.store(server)))) for server in SERVERS]
        tally.is_same("all is restored", restored(tally, program, room, "in the end", room.copy), whole)


def fill(tally, program, room, payments):
    """Makes stores in which so many payments are done, by scripts of 1,200 each."""
    script = "begin 0 1 1 seed 100000\n"
    for first in range(2, payments + 2, 1_200):
        for number in range(first, first + 1_200):
            script += f"begin 0 1 {number} pay 1\ndeliver 0:{number - 1} 1\n"
        ran = end_of([program, "run", "--stores", room.stores, room.set, room.file("script", script)])
        tally.is_same("entries are there", ran[1:], ("", 0))
        script = ""


def test_behind(tally, program):
    """A folder that is empty, or older, beside stores with thousands of entries gets them a thousand at a time."""
    with CopyRoom() as room:
        fill(tally, program, room, 1_200)
        for turn in range(3):
            with Followed(program, room) as service:
                tally.holds("soon nothing lacks", wait_until(service.is_whole, 20))
                shut(tally, room, service)
            for server in SERVERS:
                tally.is_same(f"the store of {server}", listed(program, room.copied(server)), listed(program, room.store(server)))
            if turn == 1:
                for end in ("", "-wal"):
                    os.remove(room.copied(1) + end)


def test_refused(tally, program):
    """Folders that can't follow: they stay as they are, and nobody is listened to."""
    with CopyRoom() as room, CopyRoom(PAYMENT.replace("999", "998").replace("shard 1000", "shard 999")) as other:
        run = "begin 0 1 1 seed 100\nbegin 0 1 2 pay 30\ndeliver 0:1 1\n"
        end_of([program, "run", "--stores", room.stores, room.set, room.file("script", run)])
        end_of([program, "run", "--stores", other.stores, other.set, other.file("script", run)])
        serve = [program, "serve", room.set, room.stores, "1", "--copy"]
        serve[4] = str(7_000 + os.getpid() % 20_000)
        tally.is_same("the same folder", end_of(serve + [room.stores]), ("", "lynx: copy: same folder\n", 4))
        os.symlink(room.stores, os.path.join(room.path, "link"))
        tally.is_same("the same by a link", end_of(serve + [os.path.join(room.path, "link")]), ("", "lynx: copy: same folder\n", 4))
        tally.is_same("no folder", end_of(serve + [os.path.join(room.path, "absent")]), ("", "lynx: copy 0: store\n", 4))
        tally.is_same("another set", end_of(serve + [other.stores]), ("", "lynx: copy 0: other-set\n", 4))
        longer, parted = os.path.join(room.path, "longer"), os.path.join(room.path, "parted")
        for folder, more in ((longer, "begin 0 1 3 pay 5\n"), (parted, "")):
            shutil.copytree(room.stores, folder)
            end_of([program, "run", "--stores", folder, room.set, room.file("script", more)])
        shutil.rmtree(parted)
        os.mkdir(parted)
        end_of([program, "run", "--stores", parted, room.set, room.file("script", run.replace("seed 100", "seed 101"))])
        for folder in (longer, parted):
            before = [listed(program, os.path.join(folder, f"server-{server}.lynx")) for server in SERVERS]
            tally.is_same(os.path.basename(folder), end_of(serve + [folder]), ("", "lynx: copy 0: other-history\n", 4))
            tally.is_same("as it was", [listed(program, os.path.join(folder, f"server-{server}.lynx")) for server in SERVERS], before)
        out, fault, status = end_of(serve + [longer, "--hints"])
        tally.is_same("with hints", (out, fault.splitlines()[0], status), ("", "lynx: copy 0: other-history", 4))
        tally.holds("what to do", "keeps what server 0 didn't do" in fault)
        with open(room.copied(1), "w", encoding="ascii") as file:
            file.write("no database, and long enough for its head to be looked at\n" * 4)
        tally.is_same("no database", end_of(serve + [room.copy]), ("", "lynx: copy 1: damaged\n", 4))
        with Followed(program, other) as service:
            tally.is_same("another service follows", end_of(serve + [other.copy]), ("", "lynx: copy 0: store\n", 4))
            shut(tally, other, service)


def test_paused(tally, program):
    """While it is paused the files of the folder are closed, and can be taken away; behind it, it goes on."""
    with CopyRoom() as room:
        with Followed(program, room) as service:
            seed(room)
            payer = Payer(room, 1, 0.005)
            for turn in range(3):
                time.sleep(0.3)
                tally.is_same("paused", service.command("/copy/pause"), (200, "paused\n"))
                tally.is_same("paused again", service.posted("/copy/pause"), (b"HTTP/1.1 200 OK", b"paused\n"))
                before = files(room.copy)
                tally.holds("its logs are no more than heads", all(size <= 41 for size in logs(room.copy)))
                time.sleep(0.3)
                tally.is_same("nothing is written", files(room.copy), before)
                found = service.figures()
                tally.is_same("it doesn't follow", [found[name] for name in found if "follows" in name], [0, 0])
                tally.holds("it lacks something", sum(found.values()) > 0)
                shutil.copytree(room.copy, f"{room.taken}-{turn}")
                tally.is_same("resumed", service.command("/copy/resume"), (200, "resumed\n"))
            tally.is_same("a client", payer.end().failed, None)
            tally.holds("soon nothing lacks", wait_until(service.is_whole, 20))
            for turn in range(3):
                restored(tally, program, room, f"pause {turn}", f"{room.taken}-{turn}")
            for path, method, fields, wanted in (
                    ("/copy/pause", "POST", {"Origin": "http://127.0.0.1"}, (403, "other origin\n")),
                    ("/copy/resume", "POST", {"Origin": "null"}, (403, "other origin\n")),
                    ("/copy/pause", "POST", {"Host": "example.org"}, (403, "other host\n")),
                    ("/copy/pause", "GET", {}, (404, "not found\n")), ("/copy/pause", "PUT", {}, (405, "other method\n")),
                    ("/copy", "POST", {}, (405, "other method\n")), ("/copy/pause/", "POST", {}, (405, "other method\n"))):
                tally.is_same(f"{method} {path} {fields}", service.command(path, method, **fields), wanted)
            tally.holds("nothing of it paused", service.is_whole())
            service.command("/copy/pause")
            os.remove(room.copied(1))
            shutil.copy(room.copied(0), room.copied(1))
            service.command("/copy/resume")
            tally.holds("a store of another server doesn't follow",
                        wait_until(lambda: service.figures()['lynx_copy_follows{server="0"}'] == 1, 20)
                        and service.figures()['lynx_copy_follows{server="1"}'] == 0)
            tally.holds("all of it lacks",
                        wait_until(lambda: service.figures()['lynx_copy_behind_entries{server="1"}'] > 0, 20))
            with client.Client(room.stores, client=5, first=1) as bank:
                tally.holds("the service goes on", bank.begin("pay", 1).wait(5))
            client.Client(room.stores).shut()
            out, fault, status = service.end()
            told = "lynx: copy 1: other-set\n" * 2 + "lynx: copy 1: behind\n"
            tally.is_same("its end", (out[:7], fault, status), ("closed\n", told, 4))
        with WatchedService(program, room) as plain:
            answer = Followed.command(plain, "/copy/pause")
            tally.is_same("where no folder follows", answer, (404, "not found\n"))
            metrics = Followed.command(plain, "/metrics", "GET")[1]
            tally.is_same("its figures", ("lynx_connections" in metrics, "lynx_copy" in metrics), (True, False))
            shut(tally, room, plain)


def test_moments(tally, program):
    """Files that are taken at random moments of a service under load, by pauses of it."""
    chance, lost = random.Random(3), 0
    with CopyRoom() as room:
        with Followed(program, room) as service:
            seed(room)
            payers = [Payer(room, number, 0.01) for number in (1, 2, 3, 4)]
            for moment in range(MOMENTS):
                time.sleep(chance.random() * 0.3)
                service.command("/copy/pause")
                shutil.copytree(room.copy, f"{room.taken}-{moment}")
                service.command("/copy/resume")
            for payer in payers:
                tally.is_same("a client", payer.end().failed, None)
            shut(tally, room, service)
        did = [entries(listed(program, room.store(server))) for server in SERVERS]
        for moment in range(MOMENTS):
            taken = f"{room.taken}-{moment}"
            kept = [entries(listed(program, os.path.join(taken, f"server-{server}.lynx"))) for server in SERVERS]
            for server in SERVERS:
                tally.is_same(f"moment {moment}: a front of {server}", kept[server], did[server][:len(kept[server])])
            lost += restored(tally, program, room, f"moment {moment}", taken)[1] < len(kept[1])
    print(f"something was cut off in {lost} of {MOMENTS} moments")


def test_killed(tally, program):
    """Kills at random moments: each time the folder has a front, and the next service goes on with it."""
    chance, short = random.Random(9), 0
    with CopyRoom() as room:
        service = Followed(program, room)
        seed(room)
        payers = [Payer(room, number, 0.005) for number in (1, 2)]
        for kill in range(KILLS):
            time.sleep(0.02 + chance.random() * 0.3)
            service.kill()
            for server in SERVERS:
                kept, did = (entries(listed(program, path)) for path in (room.copied(server), room.store(server)))
                tally.is_same(f"kill {kill}: a front of {server}", kept, did[:len(kept)])
                short += len(kept) < len(did)
            if kill % 10 == 0:
                restored(tally, program, room, f"kill {kill}", room.copy)
            service = Followed(program, room)
        time.sleep(0.5)
        for payer in payers:
            tally.is_same("a client", payer.end().failed, None)
        shut(tally, room, service)
        for server in SERVERS:
            tally.is_same(f"the store of {server}", listed(program, room.copied(server)), listed(program, room.store(server)))
    print(f"({KILLS} kills, the folder lacked something at {short} of {2 * KILLS} stores)")


def test_caught(tally, program):
    """Kills at random moments while a folder that was empty comes up, a thousand entries at a time: each time it has a front, and
    the next service goes on with it."""
    chance, short = random.Random(5), 0
    with CopyRoom() as room:
        fill(tally, program, room, 9_600)
        did = [entries(listed(program, room.store(server))) for server in SERVERS]
        for kill in range(KILLS):
            with Followed(program, room):
                time.sleep(chance.random() * 0.4)
            kept = [entries(listed(program, room.copied(server))) for server in SERVERS]
            for server in SERVERS:
                tally.is_same(f"kill {kill}: a front of {server}", kept[server], did[server][:len(kept[server])])
            if kill % 25 == 0:
                restored(tally, program, room, f"kill {kill}", room.copy)
            short += kept != did
            if kept == did:
                shutil.rmtree(room.copy)
                os.mkdir(room.copy)
        with Followed(program, room) as service:
            tally.holds("soon nothing lacks", wait_until(service.is_whole, 20))
            shut(tally, room, service)
        tally.is_same("all of it", [entries(listed(program, room.copied(server))) for server in SERVERS], did)
    print(f"({KILLS} kills, the folder lacked something after {short})")


def test_resumed(tally, program):
    """A copy that is resumed just before the end has all in the end; one that is paused stays as it is."""
    for turn in range(7):
        with CopyRoom() as room, Followed(program, room) as service:
            seed(room)
            tally.is_same("paused", service.command("/copy/pause"), (200, "paused\n"))
            before = [entries(listed(program, room.copied(server))) for server in SERVERS]
            with client.Client(room.stores, client=5, first=1) as bank:
                bank.begin("pay", 1).wait(5)
            if turn:
                service.command("/copy/resume")
            shut(tally, room, service)
            for server in SERVERS:
                kept, did = (entries(listed(program, path)) for path in (room.copied(server), room.store(server)))
                tally.is_same(f"server {server} after {turn}", kept, did if turn else before[server])


def test_full(tally, program):
    """A folder on a disk of a megabyte: where it is full the service goes on, and says so."""
    with CopyRoom() as room:
        mounted = subprocess.run(["mount", "-t", "tmpfs", "-o", "size=1m", "lynx", room.copy], capture_output=True, text=True)
        if mounted.returncode:
            tally.is_same("a disk of a megabyte is mounted", mounted.stderr, "")
            return
        try:
            with Followed(program, room, "--log") as service:
                seed(room)
                payers = [Payer(room, number) for number in (1, 2, 3, 4)]
                tally.holds("it fills", wait_until(lambda: 0 in [value for name, value in service.figures().items() if "follows" in name], 60))
                paid = sum(payer.paid for payer in payers)
                time.sleep(0.5)
                for payer in payers:
                    tally.is_same("a client", payer.end().failed, None)
                tally.holds("the service goes on", sum(payer.paid for payer in payers) > paid)
                client.Client(room.stores).shut()
                out, log, status = service.end()
                tally.is_same("its end", (out[:13], status), ("closed\norder ", 4))
                tally.holds("the log says so", "event=copy-failed server=" in log and "fault=store" in log)
                tally.holds("the last line says so", re.fullmatch(r"lynx: copy [01]: behind", log.splitlines()[-1]))
            for server in SERVERS:
                kept, did = (entries(listed(program, path)) for path in (room.copied(server), room.store(server)))
                tally.is_same(f"a front of {server}", kept, did[:len(kept)])
            restored(tally, program, room, "what it has", room.copy)
        finally:
            subprocess.run(["umount", room.copy], check=True)


def test_hanging(tally, program, turn):
    """A folder on a disk each of whose syncs takes two seconds: no begin waits for it."""
    with CopyRoom() as room:
        strain = Strain(room)
        with Followed(program, room, env=strain.env) as service:
            seed(room)
            strain.set(millis=2000, slow="/copy/")
            with turn.alone():
                payers = [Payer(room, number, 0.01) for number in (1, 2)]
                time.sleep(6)
                lacks = service.figures()
                for payer in payers:
                    payer.end()
            tally.is_same("clients", [payer.failed for payer in payers], [None, None])
            tally.holds(f"no begin waits ({max(payer.worst for payer in payers):.3f} s at most)", max(payer.worst for payer in payers) < 1.5)
            tally.holds("the folder is behind", sum(value for name, value in lacks.items() if "behind" in name) > 0)
            tally.holds("and comes up", wait_until(service.is_whole, 60))
            shut(tally, room, service)


def told(server, word):
    """The line of a store that can't follow."""
    return f"lynx: copy {server}: {word}\n"


def parting(some, others):
    """The place at which lines part from others, and what stands there of each; None where they are the same."""
    pairs = enumerate(itertools.zip_longest(some, others))
    return next(((place, *pair) for place, pair in pairs if pair[0] != pair[1]), None)


def put_in(room, folder):
    """Other stores in place of those of the folder that follows."""
    shutil.rmtree(room.copy)
    shutil.copytree(folder, room.copy)


def test_other_history(tally, program):
    """Another history that is put into the folder in a pause is told once it is resumed, and once only; what it has stays. One that
    has a front of what the servers did goes on."""
    with CopyRoom() as room:
        stored(program, room, "".join(f"begin 0 1 {number} seed 1\n" for number in range(1, 1_051)))
        front, longer, parted = (os.path.join(room.path, name) for name in ("front", "longer", "parted"))
        for folder in (front, longer, parted):
            shutil.copytree(room.stores, folder)
        stored(program, room, "begin 0 1 1051 seed 1\nbegin 0 1 1052 seed 1\n")
        stored(program, room, "begin 0 1 1051 seed 1\nbegin 0 1 1052 seed 1\nbegin 0 1 1053 seed 1\n", longer)
        stored(program, room, "begin 0 1 1051 seed 2\n", parted)
        with Followed(program, room) as service:
            tally.holds("soon nothing lacks", wait_until(service.is_whole, 20))
            for name, folder in (("longer", longer), ("parted at the 1,051st entry", parted)):
                tally.is_same(f"{name}: paused", service.command("/copy/pause"), (200, "paused\n"))
                put_in(room, folder)
                before = listed(program, room.copied(0))
                tally.is_same(f"{name}: resumed", service.command("/copy/resume"), (200, "resumed\n"))
                tally.holds(f"{name}: that of server 1 follows", wait_until(lambda: service.follows()[1], 20))
                time.sleep(1)
                tally.is_same(f"{name}: that of server 0 doesn't", service.follows(), [0, 1])
                tally.is_same(f"{name}: what it has", parting(listed(program, room.copied(0)), before), None)
            service.command("/copy/pause")
            put_in(room, front)
            service.command("/copy/resume")
            tally.holds("a front goes on", wait_until(service.is_whole, 20))
            client.Client(room.stores).shut()
            out, fault, status = service.end()
            tally.is_same("what is told", (out[:13], fault, status), ("closed\norder ", told(0, "other-history") * 2, 0))
        for server in SERVERS:
            tally.is_same(f"that of {server}", parting(listed(program, room.copied(server)), listed(program, room.store(server))), None)


def test_tried_again(tally, program):
    """A store that fails is opened again after 60 seconds by the clock, not before, and what it lacks is appended then."""
    with CopyRoom() as room:
        strain = Strain(room)
        with Followed(program, room, env=strain.env) as service:
            seed(room)
            tally.holds("soon nothing lacks", wait_until(service.is_whole, 20))
            strain.set(fail="/copy/server-0.lynx")
            with client.Client(room.stores, client=5, first=1) as bank:
                bank.begin("pay", 1).wait(5)
            tally.holds("a store fails", wait_until(lambda: service.follows() == [0, 1], 20))
            os.rename(room.copied(0), room.copied(0) + ".away")
            strain.clear("fail")
            for seconds in (0, 50):
                strain.set(ahead=seconds)
                time.sleep(1)
                tally.is_same(f"{seconds} seconds later", (service.follows(), os.path.exists(room.copied(0))), ([0, 1], False))
            os.rename(room.copied(0) + ".away", room.copied(0))
            strain.set(ahead=61)
            tally.holds("a minute later it follows", wait_until(service.is_whole, 20))
            client.Client(room.stores).shut()
            out, fault, status = service.end()
            tally.is_same("what is told", (out[:13], fault, status), ("closed\norder ", told(0, "store"), 0))
        for server in SERVERS:
            tally.is_same(f"that of {server}", parting(listed(program, room.copied(server)), listed(program, room.store(server))), None)


@pytest.mark.parametrize("server", SERVERS)
def test_unclosed(tally, program, server):
    """A store that can't be closed in a pause is told. It follows again once the pause is over, and has all in the end."""
    with CopyRoom() as room:
        strain = Strain(room)
        with Followed(program, room, env=strain.env) as service:
            seed(room)
            with client.Client(room.stores, client=5, first=1) as bank:
                bank.begin("pay", 1).wait(5)
            tally.holds("soon nothing lacks", wait_until(service.is_whole, 20))
            strain.set(fail=f"/copy/server-{server}.lynx")
            service.command("/copy/pause")
            tally.is_same("nothing is open", service.has_open(room.copy), [])
            strain.clear("fail")
            service.command("/copy/resume")
            tally.holds("it follows", wait_until(service.is_whole, 20))
            client.Client(room.stores).shut()
            out, fault, status = service.end()
            tally.is_same("what is told", (out[:13], fault, status), ("closed\norder ", told(server, "store"), 0))
        for each in SERVERS:
            tally.is_same(f"the store of {each}", parting(listed(program, room.copied(each)), listed(program, room.store(each))), None)


def test_pauses(tally, program):
    """No file of the folder is open behind a pause, however soon it comes behind a resume, and beside another one."""
    chance = random.Random(7)
    with CopyRoom() as room:
        strain = Strain(room)
        with Followed(program, room, env=strain.env) as service:
            seed(room)
            tally.holds("its files are open", wait_until(lambda: service.has_open(room.copy), 20))
            for turn in range(12):
                for again in range(2):
                    found = service.command("/copy/pause"), service.has_open(room.copy)
                    tally.is_same(f"pause {turn}, {again} again", found, ((200, "paused\n"), []))
                service.command("/copy/resume")
                time.sleep(chance.random() * 0.15)
            with client.Client(room.stores, client=5, first=1) as bank:
                bank.begin("pay", 1).wait(5)
            tally.holds("soon nothing lacks", wait_until(service.is_whole, 20))
            strain.set(hold="/copy/")
            with concurrent.futures.ThreadPoolExecutor(2) as pool:
                asked = [pool.submit(lambda: (service.command("/copy/pause"), service.has_open(room.copy))) for _ in range(2)]
                time.sleep(1)
                tally.is_same("pauses beside a disk that hangs", [(each.done(), bool(service.has_open(room.copy))) for each in asked],
                              [(False, True)] * 2)
                strain.clear("hold")
                tally.is_same("what they are answered", [each.result() for each in asked], [((200, "paused\n"), [])] * 2)
            service.command("/copy/resume")
            shut(tally, room, service)


def test_last_hops(tally, program):
    """Hops that are done once the last client has gone are in the folder too."""
    late = 0
    for turn in range(3):
        with CopyRoom() as room:
            strain = Strain(room)
            with Followed(program, room, "--log", env=strain.env) as service:
                seed(room)
                strain.set(millis=200, slow="/stores/server-1.lynx")
                with service.connect() as line:
                    line.send(pays(5, PAYMENTS) + SHUT)
                    tally.is_same("bytes of answers", len(line.rest()), PAYMENTS * ANSWER + BYE)
                out, log, status = service.end()
                tally.is_same("its end", (out[:13], status), ("closed\norder ", 0))
                left = int(re.search(r"event=closing owed=(\d+)", log)[1])
            for server in SERVERS:
                kept, did = listed(program, room.copied(server)), listed(program, room.store(server))
                tally.is_same(f"the store of {server} in turn {turn}", parting(kept, did), None)
            late += len(entries(did)) - (PAYMENTS - left)
    print(f"{late} hops were done behind the last client")
    tally.holds("hops were done behind the last client", late > 0)
