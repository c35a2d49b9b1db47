"""How a `lynx serve` begins and how it ends: over one world of stores, at once when it is asked, whatever its clients do, and with
its stores let go of before the last line."""
import os
import re
import resource
import shutil
import socket
import subprocess
import time
import urllib.request

import pytest
from serving import PAYMENT, Line, Room, Service, Strain, WatchedService, end_of, files, free_port, stored, wait_until
import lynx

SHUT, BYE = bytes.fromhex("0400000000"), bytes.fromhex("1300000000")
LOOK = bytes.fromhex("020000000a0000000000000000000000")[:15]
ABSENT = bytes.fromhex("120000000100")


def request(number, program_number, amount):
    """The bytes of a request of client 1, with one argument."""
    body = (1).to_bytes(8, "big") + number.to_bytes(8, "big") + bytes([program_number, 1]) + amount.to_bytes(8, "big")
    return b"\x01" + len(body).to_bytes(4, "big") + body


def pay(service, first, count):
    """Begins a seed and so many payments, and waits for their answers."""
    with service.connect() as line:
        line.send(request(first, 0, count))
        line.item()
        for number in range(first + 1, first + 1 + count):
            line.send(request(number, 1, 1))
            line.item()


def shut(service):
    """Asks for the end, and reads what is answered."""
    with service.connect() as line:
        line.send(SHUT)
        return line.rest()


def what_comes(line):
    """What comes of a connection to its end, nothing where it is reset."""
    try:
        return line.rest()
    except OSError:
        return b""


def test_at_once(tally, program):
    """A shut is seen before its stream is closed: who comes after it isn't served."""
    with Room(PAYMENT) as room, Service(program, room) as service, service.connect() as shutter:
        shutter.send(SHUT)
        tally.is_same("bye", shutter.item(), BYE)
        served = 0
        for _ in range(20):
            try:
                with service.connect(5.0) as line:
                    line.send(request(1, 0, 100))
                    served += line.item() != b""
            except OSError:
                pass
        tally.is_same("requests that were served after a shut", served, 0)
        shutter.socket.close()
        tally.is_same("end at once", service.end(10), ("closed\norder -\n", "", 0))


def test_no_handles(tally, program):
    """A shut ends a service that has no file handle left."""
    def few():
        resource.setrlimit(resource.RLIMIT_NOFILE, (20, 20))

    with Room(PAYMENT) as room:
        port = free_port()
        with subprocess.Popen([program, "serve", room.set, room.stores, str(port)], stdout=subprocess.PIPE,
                              stderr=subprocess.PIPE, text=True, preexec_fn=few) as ran:
            ran.stdout.readline()
            lines = []
            for _ in range(30):
                lines.append(Line(port, 5.0))
            lines[0].send(SHUT)
            tally.is_same("bye without handles", lines[0].item(), BYE)
            try:
                out, err = ran.communicate(timeout=20)
                tally.is_same("end without handles", (out, err, ran.returncode), ("closed\norder -\n", "", 0))
            except subprocess.TimeoutExpired:
                ran.kill()
                ran.communicate()
                tally.is_same("a service without handles", "goes on", "ends")
            for line in lines:
                line.socket.close()


def test_held_off(tally, program):
    """A client that goes on asking doesn't hold the end off for longer than ten seconds, and gets whole answers."""
    with Room(PAYMENT) as room, Service(program, room) as service, service.connect() as line:
        line.send(LOOK)
        tally.is_same("before the shut", line.item(), ABSENT)
        began = time.monotonic()
        tally.is_same("bye to one of two", shut(service), BYE)
        answers = []
        try:
            while time.monotonic() - began < 40:
                line.send(LOOK)
                answers.append(line.item())
                if answers[-1] != ABSENT:
                    break
                time.sleep(0.5)
        except OSError:
            pass
        took = time.monotonic() - began
        tally.is_same("answers while it ends", [it for it in answers if it not in (ABSENT, b"")], [])
        tally.holds(f"the end is held off for ten seconds at most: {took:.1f}", 8 < took < 20)
        tally.is_same("end that was held off", service.end(10), ("closed\norder -\n", "", 0))


def test_never_reads(tally, program):
    """A client that takes no answers is hung up on ten seconds after the first byte that doesn't go."""
    with Room(PAYMENT) as room, Service(program, room) as service:
        with socket.socket() as greedy:
            greedy.setsockopt(socket.SOL_SOCKET, socket.SO_RCVBUF, 4096)
            greedy.connect(("127.0.0.1", service.port))
            greedy.settimeout(0.5)
            stuck = None
            began = time.monotonic()
            while time.monotonic() - began < 150:
                try:
                    greedy.send(LOOK * 1000)
                    stuck = None
                except TimeoutError:
                    stuck = stuck or time.monotonic()
                except OSError:
                    break
            gone = time.monotonic()
        took = gone - (stuck or began)
        tally.holds(f"who reads nothing is hung up on after ten seconds: {took:.1f}", took < 18)
        shut(service)
        tally.is_same("end after who reads nothing", service.end(20), ("closed\norder -\n", "", 0))


def kilobytes(ran):
    """The memory of a process that is its own."""
    with open(f"/proc/{ran.pid}/smaps_rollup", encoding="utf-8") as file:
        return sum(int(line.split()[1]) for line in file if line.startswith("Private_"))


def test_many_connections(tally, program):
    """Connections that come and go leave nothing behind."""
    with Room(PAYMENT) as room, Service(program, room) as service:
        def come_and_go(count):
            for _ in range(count):
                with service.connect() as line:
                    line.send(LOOK)
                    line.item()

        # Beside other work many threads may end late, and the allocator keeps what they had for the next ones. A leak grows each time.
        come_and_go(500)
        grown = []
        while len(grown) < 5 and (not grown or grown[-1] >= 1000):
            before = kilobytes(service.ran)
            come_and_go(5000)
            grown.append(kilobytes(service.ran) - before)
        tally.holds(f"5000 connections leave less than 1000 kB: {grown}", grown[-1] < 1000)
        shut(service)
        tally.is_same("end of connections", service.end(), ("closed\norder -\n", "", 0))


def test_unread_end(tally, program):
    """The stores are let go of before the last lines, which nobody may read."""
    with Room(PAYMENT) as room, Service(program, room) as service:
        pay(service, 0, 12_000)
        shut(service)

        def is_free():
            return end_of([program, "show", room.store(0)])[2] == 0

        tally.holds("a store is free while the last line isn't read", wait_until(is_free, 60))
        tally.is_same("the service waits", service.ran.poll(), None)
        out, err, status = service.end()
        tally.is_same("its last lines", (out[:13], out.count(" "), err, status), ("closed\norder ", 12_001, "", 0))


def copied(room, name):
    """A copy of the folder of stores, beside it."""
    path = os.path.join(room.path, name)
    shutil.copytree(room.stores, path)
    return path


def ended_at_once(program, room, folder, *more):
    """How a service ends that doesn't begin."""
    return end_of([program, "serve", *more, room.set, folder, str(free_port())])


def test_worlds(tally, program):
    """Stores that no one run left together aren't served."""
    with Room(PAYMENT) as room:
        with Service(program, room) as service:
            pay(service, 0, 3)
            shut(service)
            service.end()
        older = copied(room, "older")
        with Service(program, room) as service:
            pay(service, 100, 3)
            shut(service)
            service.end()
        mixed = copied(room, "mixed")
        for name in os.listdir(older):
            if name.startswith("server-0"):
                shutil.copy(os.path.join(older, name), os.path.join(mixed, name))
        for name in os.listdir(mixed):
            if name.startswith("server-0") and name not in os.listdir(older):
                os.remove(os.path.join(mixed, name))
        tally.is_same("an older copy", ended_at_once(program, room, mixed), ("", "lynx: close: mismatch\n", 4))
        tally.is_same("an older copy, with hints", ended_at_once(program, room, mixed, "--hints"),
                      ("", "lynx: close: mismatch\n"
                       "  entry 3 of server 1, counted from 0, ran on a message that no store has sent: a store is older "
                       "than others, or of another run\n", 4))
        lost = copied(room, "lost")
        for name in os.listdir(lost):
            if name.startswith("server-1"):
                os.remove(os.path.join(lost, name))
        before = sorted(os.listdir(lost))
        tally.is_same("a store that is lost", ended_at_once(program, room, lost), ("", "lynx: store 1: damaged\n", 4))
        tally.is_same("a store that is lost, with hints", ended_at_once(program, room, lost, "--hints"),
                      ("", "lynx: store 1: damaged\n"
                       "  there is no such store, and other servers of the folder have entries: put it back, or begin "
                       "with an empty folder; the stores of servers that a set adds are made by lynx extend\n", 4))
        tally.is_same("nothing is made", sorted(os.listdir(lost)), before)
        with Room(PAYMENT) as other:
            shutil.rmtree(other.stores)
            shutil.copytree(older, other.stores)
            with Service(program, other) as service:
                tally.is_same("the older folder as a whole", service.first, f"listening 127.0.0.1:{service.port}\n")
                shut(service)
                tally.is_same("its end", service.end(), ("closed\norder 0:0 0:1 0:2 0:3\n", "", 0))


THREE = """lynx 1
servers 3
table t
shard 0 9 0
shard 10 19 1
shard 20 18446744073709551615 2
program go
hop 0
add t 0 1
hop 1
add t 10 1
hop 2
add t 20 1
end
"""


@pytest.mark.parametrize("servers", ((0, 1), (0, 2), (1, 2)))
def test_two_lost(tally, program, servers):
    """Of two stores that are lost the first is told, and nothing is made in their place."""
    with Room(THREE) as room:
        stored(program, room, "begin 0 1 1 go\ndeliver 0:0 1\ndeliver 0:0 2\n")
        for name in os.listdir(room.stores):
            if name.startswith(tuple(f"server-{server}.lynx" for server in servers)):
                os.remove(os.path.join(room.stores, name))
        left = sorted(os.listdir(room.stores))
        refused = ("", f"lynx: store {servers[0]}: damaged\n", 4)
        tally.is_same("serve", ended_at_once(program, room, room.stores), refused)
        tally.is_same("extend", end_of([program, "extend", room.stores, room.set]), refused)
        for verb in ("audit", "owed"):
            tally.is_same(verb, end_of([program, verb, room.stores]), refused if servers[0] else ("", "lynx: store 0: store\n", 4))
        tally.is_same("nothing is made", sorted(os.listdir(room.stores)), left)


@pytest.mark.parametrize("server", (0, 1))
def test_unclosed(tally, program, room, server):
    """A store that can't be closed in the end is told behind the last lines. It keeps all, and the others are closed."""
    strain = Strain(room)
    with Service(program, room, env=strain.env) as service:
        with lynx.Client(room.stores, client=1, first=1) as bank:
            bank.begin("seed", 100)
            bank.begin("pay", 30).wait(10)
        strain.set(fail=f"/stores/server-{server}.lynx")
        lynx.Client(room.stores).shut()
        tally.is_same("its end", service.end(), ("closed\norder 0:0 0:1\n", f"lynx: store {server}: store\n", 4))
    tally.holds("the other is closed", os.path.getsize(room.store(1 - server) + "-wal") <= 41)
    tally.is_same("what they keep", end_of([program, "audit", room.stores]),
                  ("closed\norder 0:0 0:1\nentries 0 2\nentries 1 1\ncells acct 2\n", "", 0))


def test_no_port(tally, program):
    """No store is made where the port can't be had; stores without entries are gone on with where one is missing."""
    with Room(PAYMENT) as room, socket.socket() as taken:
        taken.bind(("127.0.0.1", 0))
        taken.listen()
        ended = end_of([program, "serve", room.set, room.stores, str(taken.getsockname()[1])])
        tally.is_same("a port that is taken", ended, ("", "lynx: cannot listen\n", 4))
        tally.is_same("no store is made", os.listdir(room.stores), [])
        absent = os.path.join(room.stores, "absent")
        ended = end_of([program, "serve", room.set, absent, str(taken.getsockname()[1])])
        tally.is_same("a folder that isn't there, and a port that is taken", ended, ("", "lynx: store 0: store\n", 4))
        with Service(program, room) as service:
            shut(service)
            tally.is_same("a new folder", service.end(), ("closed\norder -\n", "", 0))
        for name in os.listdir(room.stores):
            if name.startswith("server-1"):
                os.remove(os.path.join(room.stores, name))
        with Service(program, room) as service:
            shut(service)
            tally.is_same("a folder without entries", service.end(), ("closed\norder -\n", "", 0))


def text_in(path):
    with open(path, encoding="ascii") as file:
        return file.read()


def test_log_file(tally, program, room):
    """The file of a log: lines are added to what it has; once its folder is gone they are counted, and once it is back they go on."""
    logs = os.path.join(room.path, "logs")
    log = os.path.join(logs, "bank.log")
    os.mkdir(logs)
    with open(log, "w", encoding="ascii") as file:
        file.write("what was there\n")
    with WatchedService(program, room, "--log", "--log-file", log) as service:
        with lynx.Client(room.stores) as bank:
            bank.begin("seed", 1)
        lines = text_in(log).splitlines()
        tally.is_same("it is added to", (lines[0], lines[1].split()[1]), ("what was there", "event=opened"))
        os.rename(logs, logs + ".old")
        with lynx.Client(room.stores) as bank:
            bank.begin("seed", 1)
        with urllib.request.urlopen(f"http://127.0.0.1:{service.status}/metrics", timeout=20) as page:
            dropped = re.search(r"(?m)^lynx_log_dropped_total (\d+)$", page.read().decode())
        tally.holds("lines are counted", dropped and int(dropped[1]) > 0)
        os.rename(logs + ".old", logs)
        with lynx.Client(room.stores) as bank:
            bank.shut()
        tally.is_same("the end", service.end(), ("closed\norder 0:0 0:1\n", "", 0))
    tally.holds("they go on", text_in(log).splitlines()[-1].split()[1:3] == ["event=audited", "well=true"])


def test_order_file(tally, program, room):
    """The order in a file of its own: all that the file has then, and what an audit prints."""
    order = room.file("order", "something longer than the order of a few chains\n")
    with Service(program, room, words=("--order", order)) as service:
        tally.is_same("until then it keeps what it has", text_in(order)[:9], "something")
        with lynx.Client(room.stores) as bank:
            bank.begin("seed", 100)
            bank.begin("pay", 30).wait(20)
            bank.shut()
        tally.is_same("the end", service.end(), ("closed\n", "", 0))
    tally.is_same("the order", text_in(order), "order 0:0 0:1\n")
    tally.is_same("an audit", end_of([program, "audit", room.stores])[0].splitlines()[1] + "\n", text_in(order))
    with Service(program, room, words=("--order", order)) as service:
        with lynx.Client(room.stores) as bank:
            bank.shut()
        tally.is_same("once more", (service.end()[0], text_in(order)), ("closed\n", "order 0:0 0:1\n"))


@pytest.mark.parametrize("word", ("--log-file", "--order"))
def test_no_such_file(tally, program, room, word):
    """A file that can't be written, or is a pipe or a folder: it is named, with the cause behind --hints, and nothing is opened."""
    pipe, nowhere = os.path.join(room.path, "pipe"), os.path.join(room.path, "none", "file")
    os.mkfifo(pipe)
    missing, folder = "  No such file or directory (os error 2)\n", "  Is a directory (os error 21)\n"
    for name, cause in ((pipe, ""), (room.path, folder), (nowhere, missing)):
        words = [program, "serve", word, name, room.set, room.stores, str(free_port())]
        tally.is_same(name, end_of(words), ("", f"lynx: cannot write {name}\n", 4))
        told = end_of([*words[:2], "--hints", *words[2:]])
        tally.is_same("its cause", told, ("", f"lynx: cannot write {name}\n{cause}", 4))
    tally.is_same("nothing is made", os.listdir(room.stores), [])
    with Service(program, room) as service, lynx.Client(room.stores) as bank:
        bank.begin("seed", 100)
        bank.shut()
        service.end()
    before = files(room.stores)
    for name in (room.set, os.path.join(room.stores, "server-0.lynx")):
        tally.is_same(name, end_of([*words[:2], word, name, room.set, room.stores, words[-1]]), ("", f"lynx: cannot write {name}\n", 4))
    tally.is_same("a set and a store stay", (files(room.stores), text_in(room.set)), (before, PAYMENT))
