"""Clients at a running `lynx serve`: by single bytes, by `lynx ask`, by clients/python over connections that are lost on
purpose, and the example of a service, in a browser too. The bytes and lines that are wanted are spelled here from
docs/FORMATS.md, apart from the program."""
import http.server
import json
import os
import pty
import random
import select
import signal
import socket
import stat
import struct
import subprocess
import sys
import threading
import time
import urllib.request

import pytest
from serving import PAYMENT, TOP, Room, Service, WatchedService, bound_by_modes, end_of, free_port, wait_until
import lynx

# A set that offends: each of two payments can come before the other.
OFFENDING = PAYMENT + """program back n
hop 1
get y acct 1000
need y >= n
sub acct 1000 n
hop 0
add acct 0 n
end
"""

OFFENDING_LINES = "offending\nconflict pay 0 back 1\nconflict back 0 pay 1\n"

# Two accounts at each of four servers, and payments from each server to the next: they only add, and never refuse.
RING = "lynx 1\nservers 4\ntable acct\n" + "".join(
    f"shard {low} {high} {server}\n"
    for server, (low, high) in enumerate([(0, 9), (10, 19), (20, 29), (30, 2 ** 64 - 1)])) + "".join(
    f"program give{server} from to n\nhop {server}\nsub acct from n\nhop {(server + 1) % 4}\nadd acct to n\nend\n"
    for server in range(4))


def frame(text):
    """Bytes in hexadecimal, blanks between them."""
    return bytes.fromhex(text.replace(" ", ""))


SEED = frame("01 0000001a 0000000000000001 0000000000000001 00 01 0000000000000064")
OTHER_SEED = SEED[:-1] + b"\x63"
SEEDED = frame("11 00000014 00 00 0000000000000000 0000000000000001 00 00")
SEEDED_AGAIN = frame("11 00000014 00 00 0000000000000000 0000000000000001 01 00")
CLASH = frame("11 00000001 01")
LOOK_DONE = frame("02 0000000a 00 0000000000000000 00")
LOOKED_DONE = frame("12 0000000a 01 0000000000000001 00")
LOOK_ABSENT = frame("02 0000000a 00 0000000000000001 00")
LOOKED_ABSENT = frame("12 00000001 00")
QUIT, SHUT, BYE = frame("03 00000000"), frame("04 00000000"), frame("13 00000000")

WORKED = [(SEED, SEEDED), (SEED, SEEDED_AGAIN), (OTHER_SEED, CLASH), (LOOK_DONE, LOOKED_DONE), (LOOK_ABSENT, LOOKED_ABSENT)]

# Bytes that are no frame of a client: no tag, one that no client sends, too long, a body cut short, and an argument too many.
NO_FRAMES = [frame(it) for it in ("20", "ff", "13 00000000", "11 00000001 01", "01 00000801", "01 ffffffff", "01 00000000",
                                  "03 00000001 00", "02 0000000b 00 0000000000000000 00 00",
                                  "02 0000000a 10 0000000000000000 00",
                                  "01 0000001a 0000000000000001 0000000000000001 40 01 0000000000000064",
                                  "01 00000012 0000000000000001 0000000000000001 00 09")]


def shut(service):
    """Asks for the end."""
    with service.connect() as line:
        line.send(SHUT)
        return line.rest()


def test_worked(tally, program):
    """The worked connection, whole, byte by byte and cut in two connections; then the service ends and goes on."""
    with Room(PAYMENT) as room:
        with Service(program, room) as service:
            tally.is_same("listening", service.first, f"listening 127.0.0.1:{service.port}\n")
            with service.connect() as line:
                for asked, answer in WORKED:
                    line.send(asked)
                    tally.is_same(f"answer to {asked.hex()}", line.item(), answer)
                line.send(QUIT)
                tally.is_same("bye", line.rest(), BYE)
            again = [SEEDED_AGAIN] + [answer for _, answer in WORKED[1:]]
            with service.connect() as line:
                for byte in b"".join(asked for asked, _ in WORKED) + QUIT:
                    line.send(bytes([byte]))
                tally.is_same("byte by byte", line.rest(), b"".join(again) + BYE)
            with service.connect() as line:
                line.send(b"".join(asked for asked, _ in WORKED) + QUIT + SEED)
                tally.is_same("all at once", line.rest(), b"".join(again) + BYE)
            tally.is_same("shut", shut(service), BYE)
            tally.is_same("end", service.end(), ("closed\norder 0:0\n", "", 0))
        with Service(program, room) as service:
            with service.connect() as line:
                line.send(SEED + QUIT)
                tally.is_same("a second service", line.rest(), SEEDED_AGAIN + BYE)
            shut(service)
            tally.is_same("its end", service.end(), ("closed\norder 0:0\n", "", 0))


def test_cut(tally, program):
    """A connection that is cut after each byte of a request: the request was done once, or not yet."""
    with Room(PAYMENT) as room, Service(program, room) as service:
        for length in range(len(SEED) + 1):
            with service.connect() as line:
                line.send(SEED[:length])
                if length == len(SEED):
                    line.item()
        with service.connect() as line:
            line.send(SEED + QUIT)
            tally.is_same("after the cuts", line.rest(), SEEDED_AGAIN + BYE)
        shut(service)
        tally.is_same("end of cuts", service.end(), ("closed\norder 0:0\n", "", 0))


def test_no_frames(tally, program):
    """What is no frame ends its connection without an answer, and no other one; frames before it are answered."""
    with Room(PAYMENT) as room, Service(program, room) as service, service.connect() as other:
        other.send(SEED)
        tally.is_same("first", other.item(), SEEDED)
        for bytes_sent in NO_FRAMES:
            with service.connect() as line:
                line.send(SEED + bytes_sent)
                tally.is_same(f"no frame {bytes_sent.hex()}", line.rest(), SEEDED_AGAIN)
        chance = random.Random(7)
        for _ in range(10):
            with service.connect() as line:
                try:
                    line.send(chance.randbytes(100_000))
                except ConnectionError:
                    pass
                line.rest()
        other.send(LOOK_DONE)
        tally.is_same("last", other.item(), LOOKED_DONE)
        other.send(QUIT)
        tally.is_same("other leaves", other.rest(), BYE)
        shut(service)
        tally.is_same("end of no frames", service.end(), ("closed\norder 0:0\n", "", 0))


def test_many(tally, program):
    """Sixty-four clients at a time; a further one is hung up on at once, until one leaves."""
    with Room(PAYMENT) as room, Service(program, room) as service:
        lines = [service.connect() for _ in range(64)]
        for line in lines:
            line.send(LOOK_ABSENT)
        tally.is_same("sixty-four", [line.item() for line in lines], [LOOKED_ABSENT] * 64)
        with service.connect() as line:
            try:
                line.send(LOOK_ABSENT)
            except ConnectionError:
                pass
            tally.is_same("one more", line.rest(), b"")
        lines[0].send(QUIT)
        tally.is_same("one leaves", lines[0].rest(), BYE)
        lines[0].socket.close()

        def is_served():
            with service.connect() as line:
                try:
                    line.send(SEED)
                except ConnectionError:
                    return False
                return line.item() in (SEEDED, SEEDED_AGAIN)

        tally.holds("another comes", wait_until(is_served))
        lines[1].send(SHUT)
        tally.is_same("shut among many", lines[1].rest(), BYE)
        tally.is_same("end of many", service.end(30), ("closed\norder 0:0\n", "", 0))
        for line in lines[1:]:
            line.socket.close()


def test_silent(tally, program):
    """Neither a silent client, nor one in the middle of a frame, nor one that reads nothing holds the end up."""
    with Room(PAYMENT) as room, Service(program, room) as service:
        idle, half, deaf = service.connect(), service.connect(), service.connect()
        half.send(SEED[:10])
        deaf.socket.setsockopt(socket.SOL_SOCKET, socket.SO_RCVBUF, 4096)
        deaf.socket.settimeout(0.5)
        sent = 0
        try:
            while sent < 200_000:
                deaf.send(LOOK_DONE * 100)
                sent += 100
        except OSError:
            pass
        tally.is_same("shut beside the silent", shut(service), BYE)
        began = time.monotonic()
        tally.is_same("end beside the silent", service.end(60), ("closed\norder -\n", "", 0))
        tally.holds("end beside the silent in time", time.monotonic() - began < 40)
        for line in (idle, half, deaf):
            line.socket.close()


def test_faults(tally, program):
    """What is told where a service can't begin, with nothing half made."""
    with Room(PAYMENT) as room:
        words = [program, "serve", room.set, room.stores]
        for port in ("0", "65536", "http", "-1", ""):
            out, err, status = end_of(words + [port])
            tally.is_same(f"port {port!r}", (out, status, "error" in err), ("", 2, True))
        port = str(free_port())
        absent = os.path.join(room.path, "absent")
        tally.is_same("no folder", end_of([program, "serve", room.set, absent, port]), ("", "lynx: store 0: store\n", 4))
        tally.is_same("no folder made", os.path.exists(absent), False)
        tally.is_same("a file for a folder", end_of([program, "serve", room.set, room.set, port]),
                      ("", "lynx: store 0: store\n", 4))
        tally.is_same("no set", end_of([program, "serve", absent, room.stores, port]),
                      ("", f"lynx: cannot read {absent}\n", 4))
        faulty = room.file("faulty", PAYMENT[:-1])
        tally.is_same("a faulty set", end_of([program, "serve", faulty, room.stores, port]),
                      ("", "lynx: set line 17: bad-line\n", 2))
        offending = room.file("offending", OFFENDING)
        tally.is_same("an offending set", end_of([program, "serve", offending, room.stores, port]), (OFFENDING_LINES, "", 1))
        tally.is_same("nothing opened", os.listdir(room.stores), [])
        os.chmod(room.stores, stat.S_IRUSR | stat.S_IXUSR)
        unwritable = end_of([*bound_by_modes(), *words, port])
        tally.is_same("a folder that can't be written", unwritable, ("", "lynx: store 0: store\n", 4))
        os.chmod(room.stores, stat.S_IRWXU)
        with socket.socket() as taken:
            taken.bind(("127.0.0.1", 0))
            taken.listen()
            tally.is_same("a port in use", end_of(words + [str(taken.getsockname()[1])]), ("", "lynx: cannot listen\n", 4))
        tally.is_same("nothing made without a port", os.listdir(room.stores), [])
        with Service(program, room) as service:
            shut(service)
            service.end()
        other = room.file("other", PAYMENT.replace("acct", "cash"))
        tally.is_same("another set", end_of([program, "serve", other, room.stores, port]), ("", "lynx: store 0: other-set\n", 4))
        with open(room.store(1), "r+b") as file:
            file.write(b"no database here")
        out, err, status = end_of(words + [port])
        tally.is_same("a broken store", (out, err[:14], status), ("", "lynx: store 1:", 4))


def test_locked(tally, program):
    """A second service over the same stores is refused."""
    with Room(PAYMENT) as room, Service(program, room) as service:
        tally.is_same("a second service at the stores", end_of([program, "serve", room.set, room.stores, str(free_port())]),
                      ("", "lynx: store 0: store\n", 4))
        tally.is_same("the first shuts", shut(service), BYE)
        tally.is_same("the first ends", service.end(), ("closed\norder -\n", "", 0))


def test_causes(tally, program):
    """Why a store or a port can't be had, where hints are asked for: the fault stays, and nothing is made."""
    with Room(PAYMENT) as room:
        port = free_port()

        def told(folder, port=port):
            return end_of([*bound_by_modes(), program, "serve", "--hints", room.set, folder, str(port)])

        absent = os.path.join(room.path, "absent")
        tally.is_same("cause: no folder", told(absent),
                      ("", f"lynx: store 0: store\n  {absent}: No such file or directory (os error 2)\n", 4))
        tally.is_same("cause: no folder is made", os.path.exists(absent), False)
        tally.is_same("cause: a file", told(room.set), ("", f"lynx: store 0: store\n  {room.set} is no folder\n", 4))
        script = room.file("script", "begin 0 1 1 seed 100\n")
        tally.is_same("cause: no folder of a run", end_of([program, "run", "--stores", absent, "--hints", room.set, script]),
                      ("", f"lynx: store 0: store\n  {absent}: No such file or directory (os error 2)\n", 4))
        os.mkdir(room.store(1))
        tally.is_same("cause: a folder for a store", told(room.stores),
                      ("", f"lynx: store 1: store\n  {room.store(1)} is a folder\n", 4))
        os.rmdir(room.store(1))
        with open(room.store(0), "w", encoding="ascii") as file:
            file.write("kept")
        os.chmod(room.store(0), 0)
        tally.is_same("cause: no right to a store", told(room.stores),
                      ("", f"lynx: store 0: store\n  {room.store(0)}: Permission denied (os error 13)\n", 4))
        os.chmod(room.store(0), stat.S_IRUSR | stat.S_IWUSR)
        os.remove(room.store(0))
        os.chmod(room.stores, stat.S_IRUSR | stat.S_IXUSR)
        made = "isn't there, and can't be made: may this user write in the folder?"
        tally.is_same("cause: no right to a folder", told(room.stores),
                      ("", f"lynx: store 0: store\n  {room.store(0)} {made}\n", 4))
        os.chmod(room.stores, stat.S_IRWXU)
        with socket.socket() as taken:
            taken.bind(("127.0.0.1", 0))
            taken.listen()
            other = taken.getsockname()[1]
            tally.is_same("cause: a port in use", told(room.stores, other),
                          ("", f"lynx: cannot listen\n  127.0.0.1:{other}: Address already in use (os error 98)\n", 4))
        with Service(program, room) as service:
            kept = [open(room.store(server), "rb").read() for server in (0, 1)]
            tally.is_same("cause: another process", told(room.stores),
                          ("", f"lynx: store 0: store\n  {room.store(0)}: another process has it open\n", 4))
            tally.is_same("cause: the stores stay", [open(room.store(server), "rb").read() for server in (0, 1)], kept)
            shut(service)
            service.end()
        os.rename(room.store(0) + "-wal", room.store(0) + "-kept")
        os.mkdir(room.store(0) + "-wal")
        tally.is_same("cause: a folder for a log", told(room.stores),
                      ("", f"lynx: store 0: store\n  {room.store(0)}-wal: Is a directory (os error 21)\n", 4))
        os.rmdir(room.store(0) + "-wal")
        os.rename(room.store(0) + "-kept", room.store(0) + "-wal")
        for server, text in ((1, b"no database here"), (0, b"short")):
            with open(room.store(server), "wb") as file:
                file.write(text)
            tally.is_same(f"cause: no database {text!r}", told(room.stores),
                          ("", f"lynx: store {server}: damaged\n  {room.store(server)} is no SQLite database\n", 4))


ASKED = """begin 1 1 seed 100
begin 1 2 pay 101
begin 1 3 pay 30
begin 1 3 pay 31
begin 1 1 seed 100
look 0:0 0
look 0:9 0
quit
"""

ASKED_LINES = """begun 0:0 stamp 1 results -
refused 0 stamp 2
begun 0:1 stamp 3 results 100
clash
begun 0:0 stamp 1 results - again
found stamp 1 results -
absent
bye
"""

# Lines that ask for nothing that there is, and the word of the fault.
FAULTY = [("begin 1 4 gift 1", "unknown"), ("begin 1 x seed 1", "bad-number"), ("look 0:0", "bad-line"), ("look 00 0", "bad-line"),
          ("", "bad-line"), ("pay", "bad-line"), ("begin 1 4 seed 1 2 3 4 5 6 7 8 9", "limit-passed"), ("look 7:0 0", "unknown"),
          ("begin 1 4 Seed 1", "bad-name"), ("look 0:0 0 waits", "bad-line"), ("look 0:0 0  wait", "bad-line"), ("look wait", "bad-line"),
          ("wait", "bad-line"), ("quit now", "bad-line"), ("begin", "bad-line"), ("look 0:0 256", "bad-number"),
          ("look 0:0 0\r", "bad-line"), ("begin 1 4 seed\xff 1", "bad-line"), ("begin 1 4 seed " + "1" * 65536, "too-long")]

# The lines behind that of a fault, where they are asked for.
ASKED_HINTS = [
    ("begin 1 4 gift 1", """  standard input:2: begin 1 4 gift 1
                              ^^^^
  no program is named gift; programs: seed, pay
"""),
    ("begin 1 x seed 1", """  standard input:2: begin 1 x seed 1
                            ^
  x is a name, and a number has to stand here
  a number is decimal digits, from 0 to 18446744073709551615
"""),
    ("begin 1 pay 30", """  standard input:2: begin 1 pay 30
                            ^^^
  pay is a program, and NUMBER has to stand here: was it left out?
  the line is: begin CLIENT NUMBER PROGRAM ARG..
"""),
    ("look 0:0", """  standard input:2: look 0:0
  look takes 2 words, and has 1 word here
  the line is: look ORIGIN:INDEX HOP, with wait behind it or without
"""),
    ("look 2:0 1 wait", """  standard input:2: look 2:0 1 wait
                         ^
  there is no server 2: the set has 2 servers, which are 0 to 1
"""),
    ("lok 0:0 1", """  standard input:2: lok 0:0 1
                    ^^^
  no line of what is asked begins with lok; did you mean look?
  what can stand here: begin, look, read, find, quit, shut
"""),
    ("deliver 0:0 1", """  standard input:2: deliver 0:0 1
                    ^^^^^^^
  no line of what is asked begins with deliver; one of scripts does
  what can stand here: begin, look, read, find, quit, shut
"""),
    ("pay 30", """  standard input:2: pay 30
                    ^^^
  no line of what is asked begins with pay
  pay is a program: a begin asks for a chain of it
  the line is: begin CLIENT NUMBER PROGRAM ARG..
  what can stand here: begin, look, read, find, quit, shut
"""),
]

ARG_COUNT_HINT = """  standard input:1: begin 1 4 pay 1 2
                                  ^^^
  pay takes 1 argument: n, and is given 2 arguments
  standard input:2: begin 1 4 pay
                              ^^^
  pay takes 1 argument: n, and is given no argument
"""


def test_asked(tally, program):
    """Lines of a shell: a faulty one is told, and the next one is asked."""
    with Room(PAYMENT) as room, Service(program, room) as service:
        words = [program, "ask", room.set, str(service.port)]
        hinted = [program, "ask", "--hints", room.set, str(service.port)]
        tally.is_same("lines", end_of(words, ASKED), (ASKED_LINES, "", 0))
        tally.is_same("no lines", end_of(words, ""), ("", "", 0))
        tally.is_same("an end without LF", end_of(words, "look 0:1 0"), ("found stamp 3 results 100\n", "", 0))
        for line, word in FAULTY:
            given = f"look 0:9 0\n{line}\nlook 0:9 0\n".encode("latin-1")
            ran = subprocess.run(words, input=given, capture_output=True, timeout=120)
            tally.is_same(f"line {line[:40]!r}", (ran.stdout, ran.stderr, ran.returncode),
                          (b"absent\nabsent\n", f"lynx: line 2: {word}\n".encode(), 2))
        tally.is_same("faulty lines alone", end_of(words, "\n".join(["pay"] * 3)),
                      ("", "".join(f"lynx: line {line}: bad-line\n" for line in (1, 2, 3)), 2))
        tally.is_same("a faulty line, and leave", end_of(words, "pay\nquit\npay\n"), ("bye\n", "lynx: line 1: bad-line\n", 2))
        for line, hint in ASKED_HINTS:
            out, err, status = end_of(hinted, f"look 0:9 0\n{line}\nlook 0:9 0\n")
            tally.is_same(f"hints of {line!r}", (out, err.split("\n", 1)[1], status), ("absent\nabsent\n", hint, 2))
        tally.is_same("wrong count", end_of(words, "begin 1 4 seed\n"), ("arg-count\n", "", 0))
        tally.is_same("hints of wrong counts", end_of(hinted, "begin 1 4 pay 1 2\nbegin 1 4 pay\nbegin 1 3 pay 30\n"),
                      ("arg-count\narg-count\nbegun 0:1 stamp 3 results 100 again\n", ARG_COUNT_HINT, 0))
        tally.is_same("shut by a line", end_of(words, "shut\n"), ("bye\n", "", 0))
        tally.is_same("end after lines", service.end()[:2], ("closed\norder 0:0 0:1\n", ""))
        tally.is_same("nobody there", end_of(words, "look 0:0 0\n"), ("", "lynx: cannot connect\n", 4))
        tally.is_same("nobody there, with hints", end_of(hinted, "look 0:0 0\n"),
                      ("", f"lynx: cannot connect\n  127.0.0.1:{service.port}: Connection refused (os error 111)\n", 4))


def test_waited(tally, program):
    """A look that waits is answered once the hop is done, and after ten seconds where it isn't."""
    with Room(PAYMENT) as room, Service(program, room) as service:
        words = [program, "ask", room.set, str(service.port)]
        for number in range(1, 41):
            given = f"begin 1 {2 * number} seed 1\nbegin 1 {2 * number + 1} pay 1\nlook 0:{2 * number - 1} 1 wait\n"
            out, err, status = end_of(words, given)
            tally.is_same(f"look {number} that waits", (out.split("\n")[2][:12], err, status), ("found stamp ", "", 0))
        began = time.monotonic()
        tally.is_same("a look that waits in vain", end_of(words, "look 0:99 1 wait\n"), ("absent\n", "", 0))
        tally.holds("it waits for ten seconds", 9 < time.monotonic() - began < 20)
        asking = subprocess.Popen(words, stdin=subprocess.PIPE, stdout=subprocess.PIPE, stderr=subprocess.PIPE, text=True)
        asking.stdin.write("look 0:81 0 wait\n")
        asking.stdin.flush()
        time.sleep(0.5)
        tally.is_same("nothing is written before", select.select([asking.stdout], [], [], 0)[0], [])
        with service.connect() as line:
            line.send(frame("01 0000001a 0000000000000009 0000000000000001 00 01 0000000000000064"))
            line.item()
            line.send(frame("01 0000001a 0000000000000009 0000000000000002 00 01 0000000000000064"))
            line.item()
        tally.is_same("found while it waits", asking.communicate("quit\n", timeout=30)[0].split("\n")[0][:12], "found stamp ")
        shut(service)
        service.end()


def test_at_a_terminal(tally, program):
    """At a terminal a faulty line is told with its hints, and the next one is asked."""
    with Room(PAYMENT) as room, Service(program, room) as service:
        near, far = pty.openpty()
        asking = subprocess.Popen([program, "ask", room.set, str(service.port)], stdin=far, stdout=far, stderr=far)
        os.close(far)
        os.write(near, b"lok 0:0 0\nlook 0:0 0\nquit\n")
        tally.is_same("status at a terminal", asking.wait(30), 2)
        shown = b""
        try:
            while piece := os.read(near, 4096):
                shown += piece
        except OSError:
            pass
        os.close(near)
        shown = shown.decode().replace("\r\n", "\n")
        for text in ("lynx: line 1: bad-line\n", "; did you mean look?\n", "absent\n", "bye\n"):
            tally.holds(f"shown at a terminal: {text!r}", text in shown)
        shut(service)
        service.end()


class Cutter:
    """A way to a service on which each connection is cut after some bytes, to and fro."""

    def __init__(self, port, seed):
        self.target, self.chance = port, random.Random(seed)
        self.listener = socket.create_server(("127.0.0.1", 0))
        self.port = self.listener.getsockname()[1]
        self.cuts = 0
        threading.Thread(target=self.accept, daemon=True).start()

    def accept(self):
        while True:
            try:
                near, _ = self.listener.accept()
            except OSError:
                return
            try:
                far = socket.create_connection(("127.0.0.1", self.target))
            except OSError:
                near.close()
                continue
            budget = [self.chance.randrange(5, 400)]
            for source, sink in ((near, far), (far, near)):
                threading.Thread(target=self.copy, args=(source, sink, budget), daemon=True).start()

    def copy(self, source, sink, budget):
        try:
            while piece := source.recv(4096):
                part = piece[:max(0, budget[0])]
                budget[0] -= len(part)
                sink.sendall(part)
                if len(part) < len(piece):
                    self.cuts += 1
                    break
        except OSError:
            pass
        for it in (source, sink):
            try:
                it.shutdown(socket.SHUT_RDWR)
            except OSError:
                pass
            it.close()


def test_lost(tally, program):
    """Payments of four clients at once round a ring, over connections that are cut: each is done once, and the sum stands."""
    with Room(RING) as room, Service(program, room) as service:
        cutter = Cutter(service.port, 11)
        moved = [0] * 4
        begun = [[] for _ in range(4)]
        failed = []

        def pay(client):
            chance = random.Random(client)
            try:
                with lynx.Client(cutter.port, room.set, client=client, first=1, tries=60, timeout=10) as bank:
                    for _ in range(60):
                        amount = chance.randrange(1, 100)
                        answer = bank.begin(f"give{client}", client * 10 + chance.randrange(2), (client + 1) % 4 * 10, amount)
                        begun[client].append((answer.chain, answer.stamp, answer.number))
                        moved[client] += amount
            except Exception as fault:  # noqa: BLE001
                failed.append(repr(fault))

        threads = [threading.Thread(target=pay, args=(client,)) for client in range(4)]
        for thread in threads:
            thread.start()
        for thread in threads:
            thread.join()
        tally.is_same("no client gave up", failed, [])
        tally.holds("connections were cut", cutter.cuts >= 20)
        with lynx.Client(service.port, room.set) as bank:
            last = {chains[-1][0] for chains in begun if chains}
            tally.holds("the last payments arrive", all(bank.look(chain, 1, wait=20) for chain in last))
            for client, chains in enumerate(begun):
                tally.is_same(f"chains of client {client}", [chain.index for chain, _, _ in chains], list(range(60)))
                tally.is_same(f"stamps of client {client}", sorted({stamp for _, stamp, _ in chains}), [stamp for _, stamp, _ in chains])
            bank.shut()
        cutter.listener.close()
        out, err, status = service.end()
        tally.is_same("end of the ring", (out[:13], err, status), ("closed\norder ", "", 0))
        tally.is_same("chains of the order", len(out.split("\n")[1].split(" ")) - 1, 240)
        for server in range(4):
            cells = [line.split(" ") for line in end_of([program, "show", room.store(server)])[0].split("\n") if line.startswith("cell ")]
            total = sum(int(value) for _, _, _, value in cells) % 2 ** 64
            tally.is_same(f"sum at server {server}", total, (moved[server - 1] - moved[server]) % 2 ** 64)


def raised(call):
    """The kind of the fault that a call raises, and what it says."""
    try:
        return call()
    except (lynx.LynxError, TypeError) as fault:
        return type(fault), str(fault)


def test_uncounted(tally, program):
    """A client with an id of its own and no first number: a begin wants a number, since each process would count from 1 again."""
    with Room(PAYMENT) as room, Service(program, room) as service:
        for number in (1, 2):
            bank = lynx.Client(room.stores, client=5)
            kind, text = raised(lambda: bank.begin("seed", 100))
            tally.is_same(f"process {number}", (kind, "number=" in text, "first=" in text), (TypeError, True, True))
            tally.is_same(f"with a number {number}", bank.begin("seed", 100, number=number).chain, lynx.Chain(0, number - 1))
            bank.close()
        counted = lynx.Client(room.stores, client=5, first=3)
        tally.is_same("from a first number", [counted.begin("seed", 1).number for _ in range(2)], [3, 4])
        tally.is_same("an id that is drawn", [lynx.Client(room.stores).begin("seed", 1).again for _ in range(2)], [False, False])
        counted.shut()
        tally.is_same("the end", service.end(), ("closed\norder 0:0 0:1 0:2 0:3 0:4 0:5\n", "", 0))


def test_strange_notices(tally):
    """Notices that no service wrote: a pipe, a folder, and texts that aren't ASCII or tell no port. None is waited for."""
    def text(data):
        def write(path):
            with open(path, "wb") as file:
                file.write(data)
        return write

    strange = {"a pipe": os.mkfifo, "a folder": os.mkdir, "no ASCII": text(b"listening 127.0.0.1:7000\n--\nlynx 1\n\xc3\xa9\n"),
               "no port": text(b"listening 127.0.0.1:x\n--\n"), "a port of no digits": text(b"listening 127.0.0.1:\n--\n"),
               "another machine": text(b"listening 127.0.0.2:7000\n--\n"), "nothing": text(b"")}
    for name, make in strange.items():
        with Room(PAYMENT) as room:
            make(os.path.join(room.stores, "service"))
            tally.is_same(name, raised(lambda: lynx.Client(room.stores)), (lynx.NoService, f"no service: {room.stores}"))
    with Room(PAYMENT) as room:
        tally.is_same("a file as a folder", raised(lambda: lynx.Client(room.set)), (lynx.NoService, f"no service: {room.set}"))


def test_typed(tally, program):
    """What the Python client gives and raises."""
    text = "program sum a\nhop 0\nget x t a\nlet s x + a\nget y t s\nend\n"
    tally.is_same("names of results", lynx.programs_of(text)["sum"].names, ("x", "s", "y"))
    with Room(PAYMENT) as room, Service(program, room) as service:
        bank = lynx.Client(service.port, room.set, client=1, first=1)
        tally.is_same("seed", bank.begin("seed", 100), lynx.Begun(lynx.Chain(0, 0), 1, [], False, 1))
        tally.is_same("refused", bank.begin("pay", 101), lynx.Refused(0, 2, False, 2))
        paid = bank.begin("pay", 30)
        tally.is_same("paid", paid, lynx.Begun(lynx.Chain(0, 1), 3, [100], False, 3))
        tally.is_same("paid again", bank.begin("pay", 30, number=3), lynx.Begun(lynx.Chain(0, 1), 3, [100], True, 3))
        tally.is_same("by number", bank.begin(1, 30, number=3), lynx.Begun(lynx.Chain(0, 1), 3, [100], True, 3))
        tally.is_same("done", bank.look(paid.chain, 1, wait=20), lynx.Found(4, []))
        tally.is_same("done by text", bank.look("0:1", 0), lynx.Found(3, [100]))
        tally.is_same("absent", bank.look("0:7", 0), None)
        tally.is_same("all hops", bank.wait_for(paid, "pay"), [[100], []])
        tally.is_same("all hops of it", paid.wait(20), [[100], []])
        tally.is_same("results by name", paid.named, {"x": 100})
        tally.is_same("need that refused", bank.begin("pay", 101, number=2).text, "need x >= n")
        tally.is_same("settled", (bank.settle(20), bank.owed), (True, {}))
        for name, call, kind, reason in (
                ("clash", lambda: bank.begin("pay", 31, number=3), lynx.Clash, "clash"),
                ("no program", lambda: bank.begin("gift", 1), lynx.Wrong, "unknown-program"),
                ("no program by number", lambda: bank.begin(9, 1), lynx.Wrong, "unknown-program"),
                ("arguments", lambda: bank.begin("pay"), lynx.Wrong, "arg-count"),
                ("arguments by number", lambda: bank.begin(1, 1, 2), lynx.Wrong, "arg-count")):
            try:
                got = call()
            except lynx.LynxError as fault:
                got = (type(fault), fault.reason)
            tally.is_same(f"raised: {name}", got, (kind, reason))
        try:
            got = bank.begin("pay", 31, number=3)
        except lynx.Clash as fault:
            got = fault.number
        tally.is_same("number of a clash", got, 3)
        for wrong in (-1, 2 ** 64, 1.5, True, "7"):
            try:
                got = bank.begin("pay", wrong)
            except ValueError:
                got = "ValueError"
            tally.is_same(f"argument {wrong!r}", got, "ValueError")
        tally.is_same("a second client", lynx.Client(service.port, room.set, client=2).begin("pay", 70, number=3).results, [70])
        bank.close()
        bank.shut()
        tally.is_same("end of typed", service.end(), ("closed\norder 0:0 0:1 0:2\n", "", 0))
        bank.tries = 2
        try:
            got = bank.begin("pay", 1, number=40)
        except lynx.Lost as fault:
            got = fault.number
        tally.is_same("lost", got, 40)


def test_read(tally, program):
    """What the Python client reads, by its types: cells, pairs of a range as they are taken, and records."""
    with Room(PAYMENT) as room, WatchedService(program, room) as service:
        bank = lynx.Client(room.stores, client=1, first=1)
        bank.begin("seed", 100)
        paid = bank.begin("pay", 30)
        tally.holds("paid", paid.wait(20))
        bank.begin("pay", 101)
        owed = dict(bank.owed)
        tally.is_same("cells", [bank.read("acct", key) for key in (0, 1000, 1, 2 ** 64 - 1)], [70, 30, 0, 0])
        kept = bank.reader
        tally.is_same("all cells", list(bank.read_range("acct")), [(0, 70), (1000, 30)])
        tally.is_same("from a key on", list(bank.read_range("acct", 1)), [(1000, 30)])
        tally.is_same("up to a key", list(bank.read_range("acct", 0, 999, limit=1)), [(0, 70)])
        begun = bank.find(1, paid.number)
        tally.is_same("a request that began", begun, [lynx.Recorded(0, 2, "pay", [30], paid.chain, [100])])
        tally.is_same("its need", begun[0].need, None)
        tally.is_same("one that was refused", bank.find(1, 3), [lynx.Recorded(0, 4, "pay", [101], need=0)])
        tally.is_same("its chain and results", [(it.chain, it.results) for it in bank.find(1, 3)], [(None, [])])
        tally.is_same("none", bank.find(7, 1), [])
        tally.is_same("records of a set", len({*begun, *bank.find(1, paid.number)}), 1)
        tally.is_same("one connection", bank.reader is kept, True)
        tally.is_same("reads owe nothing", bank.owed, owed)
        for wrong in (-1, 2 ** 64, 1.5, True, "7"):
            for name, call in (("key", lambda it: bank.read("acct", it)), ("first key", lambda it: next(bank.read_range("acct", it))),
                               ("limit", lambda it: next(bank.read_range("acct", limit=it))), ("client", lambda it: bank.find(it, 1)),
                               ("number", lambda it: bank.find(1, it))):
                try:
                    got = call(wrong)
                except ValueError:
                    got = "ValueError"
                tally.is_same(f"{name} {wrong!r}", got, "ValueError")
        tally.is_same("an unknown table", raised(lambda: bank.read("cash", 1)), (lynx.Wrong, "no such table"))
        tally.is_same("nothing is asked before it is taken", raised(lambda: bank.read_range("cash") is None), False)
        tally.is_same("no range", raised(lambda: list(bank.read_range("acct", 2, 1))), (lynx.Wrong, "bad query"))
        alone = lynx.Client(service.port, room.set)
        without = lynx.NoStatus, "the service tells no status: serve with --status"
        tally.is_same("no status", raised(lambda: alone.read("acct", 0)), without)
        tally.is_same("by its port alone", lynx.Client(service.port, status=service.status).read("acct", 0), 70)
        taken = bank.read_range("acct", limit=1)
        tally.is_same("the first page", next(taken), (0, 70))
        tally.holds("meanwhile", bank.begin("pay", 70).wait(20))
        tally.is_same("the next one, of a later moment", list(taken), [(1000, 100)])
        bank.close()
        tally.is_same("it leaves", bank.reader, None)
        tally.is_same("and reads", bank.read("acct", 0), 0)
        bank.shut()
        tally.is_same("end of reads", service.end(), ("closed\norder 0:0 0:1 0:2\n", "", 0))


def answered_by(data, ask):
    """What `ask` raises, by a client of a service that answers each item with these bytes, and goes where there are none."""
    with socket.create_server(("127.0.0.1", 0)) as listener:
        def serve():
            with listener.accept()[0] as stream:
                stream.recv(4096)
                stream.sendall(data)
        thread = threading.Thread(target=serve, daemon=True)
        thread.start()
        bank = lynx.Client(listener.getsockname()[1], set_text=PAYMENT, tries=1, timeout=5)
        try:
            got = ask(bank)
        except lynx.LynxError as fault:
            got = (type(fault), fault.number)
        thread.join()
        return got


def test_strange_services(tally):
    """What the Python client makes of answers that no service gives, and of byes that don't come."""
    begun = bytes.fromhex("00" "00" "0000000000000000" "0000000000000001" "00" "00")
    whole = b"\x11" + len(begun).to_bytes(4, "big") + begun
    longer = b"\x11" + (len(begun) + 1).to_bytes(4, "big") + begun + b"\0"
    tally.is_same("whole answer", answered_by(whole, lambda bank: bank.begin("seed", 1)), lynx.Begun(lynx.Chain(0, 0), 1, [], False, 1))
    tally.is_same("byte behind an answer", answered_by(longer, lambda bank: bank.begin("seed", 1)), (lynx.Lost, 1))
    tally.is_same("byte behind a look", answered_by(b"\x12\0\0\0\x02\0\0", lambda bank: bank.look("0:0", 0)), (lynx.Lost, None))
    tally.is_same("busy", answered_by(b"\x11\0\0\0\x01\x07", lambda bank: bank.begin("seed", 1, number=9)), (lynx.Busy, 9))
    tally.is_same("bye", answered_by(BYE, lambda bank: bank.shut()), None)
    tally.is_same("bye lost", answered_by(b"", lambda bank: bank.shut()), (lynx.ByeLost, None))


def test_second_version(tally, program):
    """A service of a set of version 2: an argument outside its range is told, and what was begun is there when it goes on."""
    ranged = PAYMENT.replace("lynx 1", "lynx 2").replace("program seed n\n", "program seed n\nrange n 0..999\n")
    with Room(ranged) as room:
        with Service(program, room) as service:
            bank = lynx.Client(service.port, room.set, client=1, first=1)
            try:
                got = bank.begin("seed", 1000)
            except lynx.Outside as fault:
                got = fault.reason
            tally.is_same("outside the range", got, "outside-range")
            tally.is_same("within the range", bank.begin("seed", 999, number=2), lynx.Begun(lynx.Chain(0, 0), 1, [], False, 2))
            bank.shut()
            tally.is_same("end of version 2", service.end(), ("closed\norder 0:0\n", "", 0))
        tally.is_same("a store of version 2", end_of([program, "show", room.store(0)]),
                      ("server 0\nentries 1\nbegun 0:0 stamp 1 results -\ncell acct 0 999\n", "", 0))
        with Service(program, room) as service:
            bank = lynx.Client(service.port, room.set, client=1, first=1)
            tally.is_same("again at version 2", bank.begin("seed", 999, number=2), lynx.Begun(lynx.Chain(0, 0), 1, [], True, 2))
            bank.shut()
            tally.is_same("second end of version 2", service.end(), ("closed\norder 0:0\n", "", 0))


def test_upgraded(tally, program):
    """A service goes on over upgraded stores: stop, upgrade, serve the set of version 2."""
    with Room(PAYMENT) as room:
        with Service(program, room) as service:
            bank = lynx.Client(service.port, room.set, client=1, first=1)
            bank.begin("seed", 100, number=1)
            bank.shut()
            tally.is_same("end before an upgrade", service.end(), ("closed\norder 0:0\n", "", 0))
        tally.is_same("upgrade of store 0", end_of([program, "upgrade", room.store(0)]), ("upgraded 1\n", "", 0))
        tally.is_same("upgrade of store 1", end_of([program, "upgrade", room.store(1)]), ("upgraded 0\n", "", 0))
        room.file("set", PAYMENT.replace("lynx 1", "lynx 2"))
        with Service(program, room) as service:
            bank = lynx.Client(service.port, room.set, client=1, first=1)
            tally.is_same("again after an upgrade", bank.begin("seed", 100, number=1), lynx.Begun(lynx.Chain(0, 0), 1, [], True, 1))
            paid = bank.begin("pay", 30, number=2)
            tally.is_same("a payment after an upgrade", bank.look(paid.chain, 1, wait=10).results, [])
            bank.shut()
            tally.is_same("end after an upgrade", service.end(), ("closed\norder 0:0 0:1\n", "", 0))
        tally.is_same("what the upgraded store holds", end_of([program, "show", room.store(0)])[0].split("\n")[-2], "cell acct 0 70")


def page(port, path, data=None, key=None):
    """What the example's HTTP service answers."""
    headers = {"Content-Type": "application/json"}
    if key:
        headers["Idempotency-Key"] = key
    body = json.dumps(data).encode() if data is not None else None
    request = urllib.request.Request(f"http://127.0.0.1:{port}{path}", data=body, headers=headers)
    try:
        with urllib.request.urlopen(request, timeout=30) as answer:
            return answer.status, answer.read().decode()
    except urllib.error.HTTPError as fault:
        return fault.code, fault.read().decode()


def test_documented(tally, program):
    """The dozen lines of docs/CLIENTS.md."""
    with open(os.path.join(TOP, "docs", "CLIENTS.md")) as page:
        code = page.read().partition("```python\n")[2].partition("```")[0]
    with Room(PAYMENT) as room, Service(program, room) as service:
        names = {"port": service.port}
        exec(code, names)
        names["stream"].close()
        tally.is_same("the begin of docs/CLIENTS.md", struct.unpack(">BBQQBB", names["begun"]), (0, 0, 0, 1, 0, 0))
        tally.is_same("its payment", struct.unpack(">BBQQBB", names["paid"][:20]), (0, 0, 1, 2, 0, 1))
        tally.is_same("what the payment gives", names["paid"][20:], (100).to_bytes(8, "big"))


def clicked(tally, port, room):
    """The page of the example in a headless Chromium, by clicks."""
    from selenium import webdriver
    chromium, driver = tally.finds("chromium"), tally.finds("chromedriver")
    if not chromium or not driver:
        return
    options = webdriver.ChromeOptions()
    options.binary_location = chromium
    for word in ("--headless", "--no-sandbox", "--disable-gpu", f"--user-data-dir={room.path}/browser"):
        options.add_argument(word)
    with webdriver.Chrome(service=webdriver.chrome.service.Service(driver), options=options) as browser:
        browser.implicitly_wait(10)
        browser.get(f"http://127.0.0.1:{port}/")

        def text(name):
            return browser.execute_script(f"return (document.getElementById('{name}') || {{}}).textContent || ''")

        def click(css):
            browser.find_element("css selector", css).click()

        tally.holds("accounts are shown", wait_until(lambda: (text("balance-ada"), text("balance-bob")) == ("1380", "1120")))
        amount = browser.find_element("css selector", "input[name=amount]")
        for given, button, said in (("30", "pay", "begun as 0:"), ("40", "lose", "it ran once"), ("9999", "pay", "need free >= n")):
            amount.clear()
            amount.send_keys(given)
            click(f"button[value={button}]")
            tally.holds(f"a click on {button} for {given}", wait_until(lambda said=said: said in text("said")))
        tally.holds("both payments are shown", wait_until(lambda: (text("balance-ada"), text("balance-bob")) == ("1310", "1190")))
        click("#kill")
        tally.holds("a store that was killed is begun again", wait_until(lambda: "begun 2 times" in text("sum")))
        click("#audit")
        tally.holds("an audit tells the order", wait_until(lambda: text("said").startswith("closed order 0:0 ")))
        click("#slow")
        amount.clear()
        amount.send_keys("5")
        click("button[value=pay]")
        tally.holds("a hop is seen owed", wait_until(lambda: "owed" in text("chains")))
        tally.holds("and then done", wait_until(lambda: "owed" not in text("chains")))
        tally.holds("the sum is right", wait_until(lambda: "All accounts have 6500 together" in text("sum")))
        click("#slow")


def test_deaf(tally, program):
    """A client of the example that hangs up once it has asked: its request ran, and was answered to nobody."""
    sys.path.insert(0, os.path.join(TOP, "examples", "service"))
    from bank import Deaf
    with Room(PAYMENT) as room, Service(program, room):
        with lynx.Client(room.stores, client=1) as bank:
            with pytest.raises(lynx.Lost) as lost:
                Deaf(room.stores, client=1, tries=1).begin("seed", 100, number=7)
            tally.is_same("its number", lost.value.number, 7)
            tally.holds("its begin", wait_until(lambda: bank.begin("seed", 100, number=7).again))


def test_interrupted(tally, program):
    """An answer that comes behind an interrupt is not taken for that of the next request."""
    with Room(PAYMENT) as room, Service(program, room) as service, lynx.Client(room.stores) as bank:
        bank.begin("seed", 100)
        service.ran.send_signal(signal.SIGSTOP)
        answer, bank._answer = bank._answer, interrupted
        with pytest.raises(KeyboardInterrupt):
            bank.begin("pay", 30)
        bank._answer = answer
        threading.Timer(0.5, service.ran.send_signal, [signal.SIGCONT]).start()
        tally.holds("another payment is refused", isinstance(bank.begin("pay", 1000), lynx.Refused))
        tally.holds("under its number the first one is told", bank.begin("pay", 30, number=2).again)


def interrupted(_):
    """In the place of an answer: Ctrl-C."""
    raise KeyboardInterrupt


def test_taken_port(tally, program):
    """What answers at the port where a killed service told its set is another program: that is another set."""
    with Room(PAYMENT) as room, WatchedService(program, room) as service, lynx.Client(room.stores) as bank:
        bank.begin("seed", 100)
        service.kill()
        with http.server.HTTPServer(("127.0.0.1", bank.status), Stranger) as stranger:
            thread = threading.Thread(target=stranger.serve_forever)
            thread.start()
            for ask in (lambda: bank.begin("seed", 1), lambda: bank.read("acct", 0)):
                with pytest.raises(lynx.OtherSet):
                    ask()
            stranger.shutdown()
            thread.join()
        tally.holds("neither was asked", True)


class Stranger(http.server.BaseHTTPRequestHandler):
    """Answers whatever it is asked with a page."""

    def do_GET(self):
        self.send_response(200)
        self.end_headers()
        self.wfile.write(b"<html>another program</html>\n")

    def log_message(self, *_):
        pass


def test_example(tally, program):
    """The example of a payment service, by HTTP and in a browser."""
    with Room(PAYMENT) as room:
        port = free_port()
        words = [sys.executable, os.path.join(TOP, "examples", "service", "serve.py"), "--lynx", program, "--port", str(port),
                 "--folder", os.path.join(room.path, "bank")]
        ran = subprocess.Popen(words, stdin=subprocess.DEVNULL, stdout=subprocess.PIPE, stderr=subprocess.STDOUT, text=True)
        try:
            tally.is_same("example is up", ran.stdout.readline(), f"http://127.0.0.1:{port}\n")
            deposit = {"to": "ada", "amount": 500}
            status, first = page(port, "/deposits", deposit, "k1")
            tally.is_same("deposit", status, 201)
            status, again = page(port, "/deposits", deposit, "k1")
            tally.is_same("deposit again", (status, json.loads(again)["chain"]), (200, json.loads(first)["chain"]))
            tally.is_same("key for another", page(port, "/deposits", {"to": "ada", "amount": 1}, "k1")[0], 422)
            tally.is_same("no key", page(port, "/deposits", deposit)[0], 400)
            payment = {"from": "ada", "to": "bob", "amount": 120}
            # The first request may come behind the second, where the system is slow to serve its connection.
            tally.holds("payment whose answer is lost", page(port, "/payments", {**payment, "lose": True}, "k2")[0] in (200, 201))
            tally.is_same("payment again", page(port, "/payments", payment, "k2")[0], 200)
            refused = page(port, "/payments", {"from": "ada", "to": "eve", "amount": 9999}, "k3")
            tally.is_same("too much", (refused[0], json.loads(refused[1])["error"]), (402, "not enough: need free >= n"))
            tally.is_same("no such account", page(port, "/payments", {"from": "zoe", "to": "bob", "amount": 1}, "k4")[0], 404)
            tally.is_same("no account at all", page(port, "/payments", {"from": [], "to": "bob", "amount": 1}, "k4")[0], 404)
            tally.is_same("no amount", page(port, "/payments", {"from": "ada", "to": "bob", "amount": -1}, "k5")[0], 400)

            def state():
                return json.loads(page(port, "/state")[1])

            def balances():
                return [it["has"] for it in state()["accounts"].values()]

            tally.holds("balances", wait_until(lambda: balances() == [1380, 1000, 1120, 1000, 1000, 1000]))
            tally.holds("the sum", wait_until(lambda: state()["sum"] == 6500))
            tally.is_same("the page", page(port, "/")[0], 200)
            clicked(tally, port, room)
            tally.is_same("a store that is killed", page(port, "/kill", {})[0], 200)
            tally.holds("is begun again", wait_until(lambda: page(port, "/payments", payment, "k2")[0] == 200))
            tally.holds("an audit", page(port, "/audit", {})[1].startswith('{"order": "closed order 0:0 '))
            tally.is_same("a payment behind it", page(port, "/payments", {"from": "bob", "to": "fay", "amount": 7}, "k6")[0], 201)
            tally.is_same("the end", page(port, "/shut", {})[0], 200)
            tally.is_same("example has ended", ran.wait(60), 0)
            tally.holds("what it says in the end", "closed\norder " in ran.stdout.read())
        finally:
            if ran.poll() is None:
                ran.kill()
            ran.communicate()
