"""The clients in JavaScript and in Go, by the bytes of connections that are played to them, and over a `lynx serve` that runs, is
killed, or serves another set; and of these and the one in Python what they read at the port of a status. Each client is asked
by a small program of its language in tests/languages.d, which takes lines and answers each with one. The bytes that are wanted
are those of docs/CLIENTS.md, which are asked of the service too."""
import functools
import os
import random
import re
import shutil
import socket
import struct
import subprocess
import sys
import textwrap
import threading
import time

import pytest
from serving import PAYMENT, TOP, Room, Service, WatchedService, end_of, free_port
import lynx as python_client

LOOKING = "program look\nhop 0\nget x acct 0\nend\n"

# A program more, whose results are of two kinds of lines.
NAMED = PAYMENT + """program round n
hop 0
get x acct 0
let y x + n
get z acct 1
need y >= n
add acct 0 n
hop 1
add acct 1000 n
end
"""

# Programs more, which begin at either server and put something into any cell there.
SPREAD = PAYMENT + "".join(f"program {name} key n\nhop {server}\nadd acct key n\nend\n" for server, name in enumerate(("near", "far")))

TURNED = PAYMENT[:PAYMENT.index("program seed")] + PAYMENT[PAYMENT.index("program pay"):] + PAYMENT[
    PAYMENT.index("program seed"):PAYMENT.index("program pay")]


def worked_bytes():
    """The worked connection of docs/CLIENTS.md: what the client sends, and what it is sent."""
    with open(os.path.join(TOP, "docs", "CLIENTS.md"), encoding="utf-8") as page:
        lines = re.findall(r"^    ([<>]) ([0-9a-f ]+?)(?:  .*)?$", page.read(), re.MULTILINE)
    return ([bytes.fromhex(data) for way, data in lines if way == ">"], [bytes.fromhex(data) for way, data in lines if way == "<"])


def answer(body):
    """An answer of these bytes, in hexadecimal."""
    data = bytes.fromhex(body)
    return struct.pack(">BI", 0x11, len(data)) + data


BYE = bytes.fromhex("1300000000")
WHOLE = answer("00 00 0000000000000000 0000000000000001 00 00")


class Played:
    """A listener that takes an item at a time and answers it with the next of these bytes, in one connection for each list
    of them; then it ends the connection. `sent` are the items."""

    def __init__(self, *connections):
        self.connections, self.sent = connections, []
        self.listener = socket.create_server(("127.0.0.1", 0))
        self.port = self.listener.getsockname()[1]
        self.thread = threading.Thread(target=self.run, daemon=True)

    def __enter__(self):
        self.thread.start()
        return self

    def __exit__(self, *_):
        self.thread.join(20)
        self.listener.close()

    def run(self):
        for answers in self.connections:
            with self.listener.accept()[0] as stream:
                for data in answers:
                    head = stream.recv(5, socket.MSG_WAITALL)
                    self.sent.append(head + stream.recv(struct.unpack(">I", head[1:])[0], socket.MSG_WAITALL))
                    stream.sendall(data)


def path_asked(stream):
    """The path of a request of HTTP, None where the connection ends before it."""
    head = b""
    while not head.endswith(b"\r\n\r\n"):
        piece = stream.recv(4096)
        if not piece:
            return None
        head += piece
    return head.split(b" ")[1].decode()


class PlayedStatus(Played):
    """The same at the port of a status: it takes a request of HTTP at a time, and `sent` are the paths of each connection."""

    def run(self):
        for answers in self.connections:
            self.sent.append([])
            with self.listener.accept()[0] as stream:
                for data in answers:
                    path = path_asked(stream)
                    if path is None:
                        break
                    self.sent[-1].append(path)
                    stream.sendall(data)


def page(text, status=200):
    """The bytes of an answer of HTTP."""
    return f"HTTP/1.1 {status} -\r\ncontent-length: {len(text)}\r\n\r\n{text}".encode()


class Cut:
    """A way to a service on which each connection is cut after some bytes, to and fro. It takes it that a request comes
    whole, and the next one once its answer is there."""

    def __init__(self, port):
        self.target, self.chance, self.cuts = port, random.Random(11), 0
        self.listener = socket.create_server(("127.0.0.1", 0))
        self.port = self.listener.getsockname()[1]
        threading.Thread(target=self.run, daemon=True).start()

    def run(self):
        while True:
            try:
                with self.listener.accept()[0] as near, socket.create_connection(("127.0.0.1", self.target), 5) as far:
                    near.settimeout(20)
                    self.relay(near, far, self.chance.randrange(5, 200))
            except OSError:
                if self.listener.fileno() < 0:
                    return

    def relay(self, near, far, budget):
        while True:
            for source, sink in ((near, far), (far, near)):
                data = source.recv(4096)
                sink.sendall(data[:budget])
                budget -= len(data)
                if not data:
                    return
                if budget < 0:
                    self.cuts += 1
                    return


class Driver:
    """A client in another language, as a process."""

    def __init__(self, language, *where):
        self.ran = subprocess.Popen([*language.words, *map(str, where)], stdin=subprocess.PIPE, stdout=subprocess.PIPE, text=True)
        self.first = self.told()

    def __enter__(self):
        return self

    def __exit__(self, *_):
        self.ran.stdin.close()
        try:
            self.ran.wait(20)
        finally:
            self.ran.kill()
            self.ran.stdout.close()

    def ask(self, *lines):
        """What it answers to the lines, one after the other."""
        return [(self.tell(line), self.told())[1] for line in lines]

    def tell(self, line):
        self.ran.stdin.write(line + "\n")
        self.ran.stdin.flush()

    def told(self):
        return self.ran.stdout.readline().rstrip("\n")


def played(language, connections, *lines, client=1, tries=1):
    """What a client makes of a service that plays these bytes, and what it sends."""
    with Room(NAMED) as room, Played(*connections) as service:
        with Driver(language, "port", service.port, room.set, client, tries, 10) as bank:
            told = bank.ask(*lines)
    return told, service.sent


def read_of(reader, connections, *lines, tries=1, timeout=10, set_text=PAYMENT):
    """What a client makes of such a port of a status, and which paths it asks for over each connection."""
    with Room(set_text) as room, PlayedStatus(*connections) as service:
        with Driver(reader, "status", free_port(), service.port, room.set, 1, tries, timeout) as bank:
            told = bank.ask(*lines)
    return told, service.sent


def begun(chain, stamp, results, number, named="-", again="false"):
    return f"begun {chain} stamp {stamp} results {results} again {again} number {number} named {named}"


def recorded(server, stamp, program, args, chain="-", results="-", need="-"):
    return f"server {server} stamp {stamp} program {program} args {args} chain {chain} results {results} need {need}"


class Python:
    """The client that the others are like: of it only what it reads, and the lines of docs/CLIENTS.md, are tried here."""
    tool, name, prints = "python3", "Python", "100\n[[100], []]\n"

    def __init__(self, _folder):
        self.words = [sys.executable, "-B", os.path.join(TOP, "tests", "languages.d", "driver.py")]

    def shown(self, lines, _folder):
        return ["env", "PYTHONPATH=" + os.path.join(TOP, "clients", "python"), "python3", "-c", lines]


class JavaScript:
    tool, name, prints = "node", "JavaScript", "100n\n[ [ 100n ], [] ]\n"

    def __init__(self, _folder):
        self.words = ["node", os.path.join(TOP, "tests", "languages.d", "driver.mjs")]

    def shown(self, lines, folder):
        shutil.copy(os.path.join(TOP, "clients", "javascript", "lynx.mjs"), folder)
        with open(os.path.join(folder, "five.mjs"), "w", encoding="utf-8") as file:
            file.write(lines)
        return ["node", "five.mjs"]


class Go:
    tool, name, prints = "go", "Go", "100\n[[100] []]\n"
    source = os.path.join(TOP, "clients", "go", "lynx")

    def __init__(self, folder):
        self.folder, self.words = folder, [os.path.join(folder, "driver")]
        self.env = {**os.environ, "GOPROXY": "off", "GOFLAGS": "", "GO111MODULE": "on"}
        if "HOME" not in os.environ:
            self.env["GOCACHE"] = os.path.join(folder, "cache")
        shutil.copy(os.path.join(TOP, "tests", "languages.d", "driver.go"), folder)
        self.file("go.mod", "module driver\n\ngo 1.19\n")
        self.go("work", "init", ".", self.source)
        self.built = self.go("build", "-o", "driver", ".")

    def go(self, *words):
        return end_of(["go", *words], cwd=self.folder, env=self.env)

    def file(self, name, text):
        with open(os.path.join(self.folder, name), "w", encoding="utf-8") as file:
            file.write(text)

    def shown(self, lines, _folder):
        os.makedirs(os.path.join(self.folder, "five"), exist_ok=True)
        imports = 'import (\n"fmt"\n"lynx.internal/lynx"\n"time"\n)\n'
        self.file(os.path.join("five", "main.go"), f"package main\n{imports}func main() {{\n{lines}if err != nil {{\npanic(err)\n}}\n}}\n")
        self.go("build", "-o", "five/five", "./five")
        return [os.path.join(self.folder, "five", "five")]


@pytest.fixture(scope="session")
def made(tmp_path_factory):
    """Makes the client of a language, with its driver built, once each."""

    def make(kind):
        if not shutil.which(kind.tool):
            pytest.fail(f"{kind.tool} isn't installed: tests/setup installs it", pytrace=False)
        return kind(str(tmp_path_factory.mktemp(kind.name)))

    return functools.cache(make)


@pytest.fixture(params=[JavaScript, Go], ids=lambda it: it.name)
def language(request, made):
    """A client's language."""
    return made(request.param)


@pytest.fixture(params=[Python, JavaScript, Go], ids=lambda it: it.name)
def reader(request, made):
    """A client's language, of all three."""
    return made(request.param)


def test_go_tools(tally, made):
    """The client in Go and its driver are built without a word, and are as its tools want them."""
    go = made(Go)
    tally.is_same("go build", go.built, ("", "", 0))
    tally.is_same("go vet", go.go("vet", ".", "lynx.internal/lynx"), ("", "", 0))
    if tally.finds("gofmt"):
        tally.is_same("gofmt", end_of(["gofmt", "-l", go.source, os.path.join(go.folder, "driver.go")]), ("", "", 0))


def test_worked(tally, language, program):
    """The worked connection to the byte, to a listener that plays it and to the service."""
    asked, answers = worked_bytes()
    lines = ("begin 1 seed 100", "begin 1 seed 100", "begin 1 seed 99", "begin 2 pay 101", "look 0:0 0 0", "look 0:1 0 0", "close")
    wanted = [begun("0:0", 1, "-", 1), begun("0:0", 1, "-", 1, again="true"), "fault Clash clash 1",
              "refused 0 stamp 2 again false number 2: need x >= n", "found stamp 1 results -", "absent", "closed"]
    told, sent = played(language, [answers], *lines)
    tally.is_same("what it is told", told, wanted)
    tally.is_same("what it sends", [it.hex() for it in sent], [it.hex() for it in asked])
    with Room(PAYMENT) as room, Service(program, room) as service, service.connect() as line:
        line.send(b"".join(asked))
        tally.is_same("what the service sends", line.rest().hex(), b"".join(answers).hex())


def test_answers_of_each_kind(tally, language):
    """Each kind of answer, the greatest numbers, and names of results."""
    kinds = {1: "Clash clash", 2: "Wrong unknown-program", 3: "Wrong wrong-origin", 4: "Wrong arg-count", 5: "Wrong wrong-shard",
             6: "Full full", 7: "Busy busy", 9: "Stopped stopped", 10: "Wanting memory", 11: "Outside outside-range",
             12: "LynxError error"}
    told, sent = played(language, [[answer(f"{kind:02x}") for kind in kinds]], *[f"begin - seed {kind}" for kind in kinds])
    tally.is_same("kinds of answers", told, [f"fault {text} {number}" for number, text in enumerate(kinds.values(), 1)])
    tally.is_same("numbers that it draws", [int.from_bytes(it[13:21], "big") for it in sent], list(range(1, len(kinds) + 1)))
    most, ones = 2 ** 64 - 1, "ff" * 8
    told, sent = played(language, [[answer(f"00 0f {ones} 3fffffffffffffff 01 03 {ones} 0000000000000000 {ones}")]],
                        f"begin {most} round {most}", client=most)
    tally.is_same("greatest numbers", told, [begun(f"15:{most}", 2 ** 62 - 1, f"{most} 0 {most}", most,
                                                   f"x={most} y=0 z={most}", "true")])
    tally.is_same("greatest numbers sent", [it.hex() for it in sent], [f"010000001a{ones}{ones}0201{ones}"])


def test_lost(tally, language):
    """Connections that are cut, and answers that no service gives."""
    lines = "begin - seed 1", "begin - seed 1"
    told, sent = played(language, [[b""], [WHOLE[:7]], [WHOLE, b""], [WHOLE]], *lines, tries=3)
    tally.is_same("asked again", told, [begun("0:0", 1, "-", 1), begun("0:0", 1, "-", 2)])
    tally.is_same("the same bytes", (sent[0] == sent[1] == sent[2], sent[3] == sent[4], len(sent)), (True, True, 5))
    strange = [WHOLE[:4] + b"\x15" + WHOLE[5:] + b"\0", WHOLE[:4] + b"\x13" + WHOLE[5:-1], b"\x12" + WHOLE[1:],
               b"\x11\xff\xff\xff\xff"]
    told, _ = played(language, [[it] for it in strange], *["begin 9 seed 1"] * len(strange))
    tally.is_same("what no service gives", told, ["fault Lost lost 9"] * len(strange))
    told, _ = played(language, [[b"\x12\0\0\0\2\0\0"], [b""], [BYE], [b""]], "look 0:0 0 0", "look 0:0 0 0", "shut", "shut")
    tally.is_same("looks and byes", told, ["fault Lost lost -", "fault Lost lost -", "shut", "fault ByeLost bye lost -"])
    with Room(PAYMENT) as room, Driver(language, "port", free_port(), room.set, 1, 2, 10) as bank:
        tally.is_same("nobody there", bank.ask("begin 3 seed 1", "look 0:0 0 0", "shut", "close"),
                      ["fault Lost lost 3", "fault Lost lost -", "fault Lost lost -", "closed"])
    with Room(PAYMENT) as room, Played() as service, Driver(language, "port", service.port, room.set, 1, 2, 1) as bank:
        began = time.monotonic()
        tally.is_same("nobody answers", bank.ask("begin 3 seed 1"), ["fault Lost lost 3"])
        tally.holds("two tries of a second", 2 <= time.monotonic() - began < 6)


def test_cut(tally, language, program):
    """Forty payments over connections that are cut again and again: each is made once."""
    with Room(PAYMENT + LOOKING) as room, Service(program, room) as service:
        way = Cut(service.port)
        with python_client.Client(room.stores) as bank:
            bank.begin("seed", 1000)
            with Driver(language, "port", way.port, room.set, 1, 60, 10) as payer:
                tally.is_same("each began once", payer.ask("many 40 pay 1"), [" ".join(f"0:{it}/{it}" for it in range(1, 41))])
                tally.is_same("all are done", payer.ask("settle 20"), ["settled"])
            tally.is_same("the balance", bank.begin("look").results, [960])
            tally.holds(f"connections were cut: {way.cuts}", way.cuts >= 20)
            way.listener.close()
            bank.shut()
        tally.is_same("the end", service.end()[1:], ("", 0))


def test_running(tally, language, program):
    """A service that runs: seeds, payments, names, waits, a refusal, and old numbers."""
    with Room(NAMED) as room, Service(program, room) as service:
        with Driver(language, "folder", room.stores, 1, 5, 10) as bank:
            tally.is_same("opened", bank.first, "opened")
            tally.is_same("paid", bank.ask("begin - seed 100", "begin - pay 30", "wait 20", "settle 20", "look 0:1 0 0", "look 0:9 0 0"),
                          [begun("0:0", 1, "-", 1), begun("0:1", 2, "100", 2, "x=100"), "all 100 | -", "settled",
                           "found stamp 2 results 100", "absent"])
            tally.is_same("refused", bank.ask("begin - pay 101", "begin 3 pay 101"),
                          [f"refused 0 stamp {stamp} again {again} number 3: need x >= n" for stamp, again in ((4, "false"), (4, "true"))])
            tally.is_same("again, and clash", bank.ask("begin 2 pay 30", "begin 2 pay 31", "begin - gift 1", "begin - pay"),
                          [begun("0:1", 2, "100", 2, "x=100", "true"), "fault Clash clash 2", "fault Wrong unknown-program 4",
                           "fault Wrong arg-count 5"])
            tally.is_same("names", bank.ask("begin - round 5"), [begun("0:2", 5, "70 75 0", 6, "x=70 y=75 z=0")])
            tally.is_same("many", bank.ask("many 5 pay 1", "settle 20"), [" ".join(f"0:{it}/{it + 4}" for it in range(3, 8)), "settled"])
            # A new connection may get another session, which has seen no stamp before it looks.
            tally.is_same("leaves, and comes", bank.ask("close", "look 0:7 1 0", "begin - pay 1"),
                          ["closed", "found stamp 11 results -", begun("0:8", 12, "70", 12, "x=70")])
        with Driver(language, "port", service.port, room.set, 2, 5, 10) as bank:
            tally.is_same("a second client", bank.ask("begin - pay 9", "wait 20"), [begun("0:9", 13, "69", 1, "x=69"), "all 69 | -"])
            tally.is_same("the end", bank.ask("shut"), ["shut"])
        tally.is_same("end of it", service.end(), ("closed\norder " + " ".join(f"0:{it}" for it in range(10)) + "\n", "", 0))


def test_killed(tally, language, program):
    """A service that is killed, given a set that extends its own, and begun again at another port: its client goes on."""
    with Room(PAYMENT) as room:
        grown = room.file("grown", PAYMENT + LOOKING)
        with Service(program, room) as service:
            with Driver(language, "folder", room.stores, 1, 60, 10) as bank:
                tally.is_same("before", bank.ask("begin - seed 100", "begin - pay 30"),
                              [begun("0:0", 1, "-", 1), begun("0:1", 2, "100", 2, "x=100")])
                service.kill()
                tally.is_same("extended", end_of([program, "extend", room.stores, grown])[2], 0)
                room.set = grown
                bank.tell("begin - pay 20")
                with Service(program, room) as other:
                    tally.holds("another port", other.port != service.port)
                    tally.is_same("it goes on", bank.told(), begun("0:2", 3, "70", 3, "x=70"))
                    tally.is_same("nothing runs twice", bank.ask("begin 2 pay 30", "begin 3 pay 20", "settle 20"),
                                  [begun("0:1", 2, "100", 2, "x=100", "true"), begun("0:2", 3, "70", 3, "x=70", "true"), "settled"])
                    with Driver(language, "folder", room.stores, 2, 5, 10) as later:
                        tally.is_same("the balance", later.ask("begin - look"), [begun("0:3", 4, "50", 1, "x=50")])
                    tally.is_same("shut", bank.ask("shut"), ["shut"])
                    tally.is_same("end of the other", other.end()[2], 0)
        tally.is_same("the audit", end_of([program, "audit", room.stores]),
                      ("closed\norder 0:0 0:1 0:2 0:3\nentries 0 4\nentries 1 2\ncells acct 2\n", "", 0))


def test_unanswered(tally, language, program):
    """A service that is killed before its answer comes to the client: the next one gives it from its record."""
    with Room(PAYMENT) as room, socket.create_server(("127.0.0.1", 0)) as way:
        with Service(program, room) as service:
            python_client.Client(room.stores).begin("seed", 100)
            with open(os.path.join(room.stores, "service"), "w", encoding="ascii") as file:
                file.write(f"listening 127.0.0.1:{way.getsockname()[1]}\n--\n{PAYMENT}")
            bank = Driver(language, "folder", room.stores, 1, 60, 60)
            bank.tell("begin - pay 30")
            with way.accept()[0] as near, service.connect() as line:
                line.send(near.recv(4096))
                tally.is_same("an answer that gets lost", line.item(), answer("00 00 0000000000000001 0000000000000002 00 01 0000000000000064"))
                service.kill()
        way.close()
        with bank, Service(program, room) as service:
            tally.is_same("from the record", bank.told(), begun("0:1", 2, "100", 1, "x=100", "true"))
            tally.is_same("once more", bank.ask("wait 20", "begin - pay 1", "shut"), ["all 100 | -", begun("0:2", 4, "70", 2, "x=70"), "shut"])
            tally.is_same("the end", service.end(), ("closed\norder 0:0 0:1 0:2\n", "", 0))


def test_no_service(tally, reader, program):
    """Folders without a service, and a service of another set."""
    with Room(PAYMENT) as room:
        with Driver(reader, "folder", room.stores, 1, 2, 10) as bank:
            tally.is_same("no service", bank.first, "fault NoService no-service -")
        with open(os.path.join(room.stores, "service"), "w", encoding="ascii") as file:
            file.write("listening\n")
        with Driver(reader, "folder", room.stores, 1, 2, 10) as bank:
            tally.is_same("a file that tells nothing", bank.first, "fault NoService no-service -")
        with Service(program, room) as service, Driver(reader, "folder", room.stores, 1, 2, 10) as bank:
            tally.is_same("before", bank.ask("begin - seed 100"), [begun("0:0", 1, "-", 1)])
            with Driver(reader, "folder", room.stores, 2, 2, 10) as other:
                tally.is_same("the end", other.ask("shut"), ["shut"])
            service.end()
            tally.is_same("gone", bank.ask("begin - seed 1", "look 0:0 0 0", "shut"),
                          ["fault NoService no-service 2", "fault NoService no-service -", "fault NoService no-service -"])
            shutil.rmtree(room.stores)
            os.mkdir(room.stores)
            room.file("set", TURNED)
            with Service(program, room) as turned:
                tally.is_same("another set", bank.ask("begin - pay 30", "look 0:0 0 0"),
                              ["fault OtherSet other-set 3", "fault OtherSet other-set -"])
                with Driver(reader, "folder", room.stores, 2, 2, 10) as other:
                    tally.is_same("the end of another", other.ask("shut"), ["shut"])
                tally.is_same("nothing ran", turned.end(), ("closed\norder -\n", "", 0))


def test_uncounted(tally, language, program):
    """A client with an id of its own and no first number: a begin wants a number, since each process would count from 1 again."""
    with Room(PAYMENT) as room, Service(program, room) as service:
        for number in (1, 2):
            with Driver(language, "uncounted", room.stores, 7, 2, 10) as bank:
                tally.is_same(f"process {number}", bank.ask("begin - seed 1", f"begin {number} seed 100", "settle 20"),
                              ["fault NoNumber no-number -", begun(f"0:{number - 1}", number, "-", number), "settled"])
        with Driver(language, "folder", room.stores, 7, 2, 10) as bank:
            tally.is_same("from 1, where it says so", bank.ask("begin - seed 100", "begin - seed 7", "shut"),
                          [begun("0:0", 1, "-", 1, again="true"), "fault Clash clash 2", "shut"])
        tally.is_same("nothing else was begun", service.end(), ("closed\norder 0:0 0:1\n", "", 0))


def test_strange_notices(tally, language):
    """Notices that no service wrote: a pipe, a folder, and a text that isn't ASCII."""
    def pipe(path):
        os.mkfifo(path)

    def text(path):
        with open(path, "wb") as file:
            file.write(b"listening 127.0.0.1:7000\n--\nlynx 1\nservers 1\n\xc3\xa9\n")

    for make in (pipe, os.mkdir, text):
        with Room(PAYMENT) as room:
            make(os.path.join(room.stores, "service"))
            with Driver(language, "folder", room.stores, 1, 2, 10) as bank:
                tally.is_same(f"a notice by {make.__name__}", bank.first, "fault NoService no-service -")


def test_left_over(tally, language, program):
    """What a killed service left in its folder, while a service of another set has its ports."""
    with Room(PAYMENT) as room, Room(TURNED) as other:
        with WatchedService(program, room) as service:
            with Driver(language, "folder", room.stores, 1, 2, 10) as bank:
                tally.is_same("its own", bank.ask("begin - seed 100", "shut"), [begun("0:0", 1, "-", 1), "shut"])
            service.end()
        with WatchedService(program, other) as service:
            with open(os.path.join(room.stores, "service"), "w", encoding="ascii") as file:
                file.write(f"listening 127.0.0.1:{service.port}\nstatus 127.0.0.1:{service.status}\n--\n{PAYMENT}")
            with Driver(language, "folder", room.stores, 1, 2, 10) as bank:
                tally.is_same("another's", bank.ask("begin - seed 100"), ["fault OtherSet other-set 1"])
            with Driver(language, "folder", other.stores, 2, 2, 10) as bank:
                tally.is_same("the end", bank.ask("shut"), ["shut"])
            tally.is_same("nothing ran", service.end(), ("closed\norder -\n", "", 0))


NO_TABLE, BAD_QUERY, NO_STATUS = "fault Wrong no such table -", "fault Wrong bad query -", "fault NoStatus no-status -"
LAST = 2 ** 64 - 1


def test_read(tally, reader, program):
    """The worked payments, read: cells, ranges over both servers, and what became of requests. Nothing is recorded of it."""
    with Room(PAYMENT) as room, WatchedService(program, room) as service:
        with Driver(reader, "folder", room.stores, 1, 5, 10) as bank:
            tally.is_same("before", bank.ask("read acct 0", f"range acct 0 {LAST} 1000", "find 1 1"), ["0", "-", "-"])
            bank.ask("begin - seed 100", "begin - pay 30", "wait 20", "begin - pay 101")
            tally.is_same("cells", bank.ask("read acct 0", "read acct 1000", "read acct 999", f"read acct {LAST}"), ["70", "30", "0", "0"])
            tally.is_same("ranges", bank.ask(f"range acct 0 {LAST} 1000", f"range acct 0 {LAST} 1", "range acct 0 999 10000",
                                             "range acct 1 999 1000", "range acct 1 1000 1000", f"range acct {LAST} {LAST} 1"),
                          ["0=70 1000=30", "0=70 1000=30", "0=70", "-", "1000=30", "-"])
            tally.is_same("requests that began", bank.ask("find 1 1", "find 1 2"),
                          [recorded(0, 1, "seed", 100, "0:0"), recorded(0, 2, "pay", 30, "0:1", 100)])
            tally.is_same("one that was refused", bank.ask("find 1 3"), [recorded(0, 4, "pay", 101, need=0)])
            tally.is_same("none", bank.ask("find 1 4", "find 2 1", f"find {LAST} {LAST}"), ["-"] * 3)
            tally.is_same("unknown tables", bank.ask("read cash 0", f"range cash 0 {LAST} 1000", "read acct/0?x 0", "read Acct 0"),
                          [NO_TABLE, NO_TABLE, "fault Wrong not found -", "fault Wrong not found -"])
            tally.holds("the service's sentence", bank.ask("read cash 0", "why")[1].endswith("no such table"))
            tally.is_same("no ranges", bank.ask("range acct 5 4 1000", "range acct 0 9 10001"), [BAD_QUERY] * 2)
            tally.is_same("leaves, and comes", bank.ask("close", "read acct 0", "begin - pay 70", "wait 20", "read acct 0"),
                          ["closed", "70", begun("0:2", 5, "70", 4, "x=70"), "all 70 | -", "0"])
            tally.is_same("a cell of 0 is in no range", bank.ask(f"range acct 0 {LAST} 1000"), ["1000=100"])
            leaves = time.monotonic()
        tally.holds("a connection that is kept keeps no process", time.monotonic() - leaves < 10)
        with Driver(reader, "status", service.port, service.status, room.set, 2, 5, 10) as bank:
            tally.is_same("at a port", bank.ask("read acct 1000", "find 1 4", "shut"), ["100", recorded(0, 5, "pay", 70, "0:2", 70), "shut"])
            tally.is_same("nothing is recorded of it", service.end(), ("closed\norder 0:0 0:1 0:2\n", "", 0))


def test_read_pages(tally, reader, program):
    """Ranges in pages, over cells of both servers, and a number that was used at both."""
    cells = {3: 1, 5: 2, 8: 3, 999: 4, 1000: 5, 1001: 6, LAST: LAST}
    with Room(SPREAD) as room, WatchedService(program, room) as service, Driver(reader, "folder", room.stores, 1, 5, 10) as bank:
        for key, value in cells.items():
            bank.ask(f"begin - {'near' if key < 1000 else 'far'} {key} {value}")
        for low, high in ((0, LAST), (5, 1000), (8, 999), (1001, LAST)):
            wanted = " ".join(f"{key}={value}" for key, value in cells.items() if low <= key <= high)
            tally.is_same(f"from {low} to {high}", bank.ask(*[f"range acct {low} {high} {limit}" for limit in (1, 2, 3, 1000)]), [wanted] * 4)
        tally.is_same("the greatest numbers", bank.ask(f"read acct {LAST}"), [str(LAST)])
        number = len(cells) + 1
        stamps = [re.search(r"stamp (\d+)", it)[1] for it in bank.ask(f"begin {number} near 7 1", f"begin {number} far 2000 9")]
        tally.is_same("a number at both servers", bank.ask(f"find 1 {number}"),
                      [f"{recorded(0, stamps[0], 'near', '7 1', '0:4')} | {recorded(1, stamps[1], 'far', '2000 9', '1:3')}"])
        bank.ask("shut")
        tally.is_same("the end", service.end()[1:], ("", 0))


def test_read_no_status(tally, reader, program):
    """Services that tell no status, clients that weren't given where it is told, and no service. Other requests are asked."""
    with Room(PAYMENT) as room:
        with Service(program, room) as service, Driver(reader, "folder", room.stores, 1, 2, 10) as bank:
            tally.is_same("no status", bank.ask("read acct 0", f"range acct 0 {LAST} 1000", "find 1 1"), [NO_STATUS] * 3)
            tally.holds("why", bank.ask("why")[0].endswith("the service tells no status: serve with --status"))
            tally.is_same("it begins", bank.ask("begin - seed 100", "shut"), [begun("0:0", 1, "-", 1), "shut"])
            service.end()
            tally.is_same("no service", bank.ask("read acct 0", "find 1 1"), ["fault NoService no-service -"] * 2)
        with WatchedService(program, room) as service:
            with Driver(reader, "port", service.port, room.set, 1, 2, 10) as bank:
                tally.is_same("at a port alone", bank.ask("read acct 0"), [NO_STATUS])
            with Driver(reader, "folder", room.stores, 2, 2, 10) as bank, Driver(reader, "folder", room.stores, 3, 60, 10) as patient:
                tally.is_same("with a status", bank.ask("read acct 0") + patient.ask("read acct 0"), ["100", "100"])
                service.kill()
                tally.is_same("a service that was killed", bank.ask("read acct 0", "find 1 1"), ["fault Lost lost -"] * 2)
                patient.tell("read acct 0")
                with WatchedService(program, room) as other:
                    tally.is_same("the next one, elsewhere", patient.told(), "100")
                    tally.is_same("what it finds", bank.ask("find 1 1", "shut"), [recorded(0, 1, "seed", 100, "0:0"), "shut"])
                    tally.is_same("the end", other.end()[1:], ("", 0))


def test_read_hung_up(tally, reader):
    """A service that hangs up: the client reads on over a new connection, and compares the sets over each."""
    served, lines = page(PAYMENT), ("read acct 0", "read acct 0", "find 1 2")
    asked = ["/set", "/cells/acct/0"]
    value, none = page('{"value":"70"}'), page("no such request\n", 404)
    told, sent = read_of(reader, [[served, value, value, none]], *lines)
    tally.is_same("a connection that is kept", (told, sent), (["70", "70", "-"], [[*asked, "/cells/acct/0", "/requests/1/2"]]))
    told, sent = read_of(reader, [[served, value], [served, value], [page(PAYMENT + LOOKING), none]], *lines)
    tally.is_same("one that is hung up on", (told, sent), (["70", "70", "-"], [asked, asked, ["/set", "/requests/1/2"]]))
    told, sent = read_of(reader, [[served, value], [page(TURNED)]], *lines[:2])
    tally.is_same("another set", (told, sent), (["70", "fault OtherSet other-set -"], [asked, ["/set"]]))
    told, sent = read_of(reader, [[b""], [served, b""], [served, value]], "read acct 0", tries=3)
    tally.is_same("tries", (told, sent), (["70"], [["/set"], asked, asked]))
    told, sent = read_of(reader, [[served, value], [b""]], *lines[:2])
    tally.is_same("nobody behind it", (told, sent), (["70", "fault Lost lost -"], [asked, ["/set"]]))
    told, sent = read_of(reader, [[page("lynx 2\n"), value]], "read acct 0", set_text="")
    tally.is_same("a client without a set", (told, sent), (["70"], [asked]))


def test_read_strange(tally, reader):
    """Answers that can't be told, those that no service gives, and silence."""
    served, value = page(PAYMENT), page('{"value":"70"}')
    for data, wanted in ((page("server stopped\n", 503), "fault Stopped stopped -"), (page("out of memory\n", 503), "fault Wanting memory -"),
                         (page("", 503), "fault Wanting memory -"), (page("not found\n", 404), "fault Wrong not found -"),
                         (page("70"), "fault Lost lost -"), (page("{}"), "fault Lost lost -"), (page('{"value":"x"}'), "fault Lost lost -"),
                         (page("other host\n", 403), "fault Lost lost -"), (value[:-1], "fault Lost lost -"), (b"\x11\0\0\0\1", "fault Lost lost -")):
        tally.is_same(f"a read is told {data!r}", read_of(reader, [[served, data]], "read acct 0")[0], [wanted])
    for low, after in ((0, 0), (5, 5), (5, 4), (5, 10)):
        told, _ = read_of(reader, [[served, page(f'{{"cells":[],"next":"{after}"}}')]], f"range acct {low} 9 1000")
        tally.is_same(f"from {low} on at {after}", told, ["fault Lost lost -"])
    told, sent = read_of(reader, [[served, page('{"cells":[{"key":"5","value":"1"}],"next":"9"}'), page('{"cells":[]}')]], "range acct 5 9 7")
    tally.is_same("pages", (told, sent), (["5=1"], [["/set", "/cells/acct?from=5&to=9&limit=7", "/cells/acct?from=9&to=9&limit=7"]]))
    told, _ = read_of(reader, [[served, page('{"records":[{}]}')]], "find 1 1")
    tally.is_same("a record of nothing", told, ["fault Lost lost -"])
    tally.is_same("no set", read_of(reader, [[page("not found\n", 404)]], "read acct 0")[0], ["fault Lost lost -"])
    for name, connections in (("silence", []), ("silence in an answer", [[served, value[:-1], b""]])):
        began = time.monotonic()
        tally.is_same(name, read_of(reader, connections, "read acct 0", timeout=1)[0], ["fault Lost lost -"])
        tally.holds(f"a second of {name}", 1 <= time.monotonic() - began < 6)


@pytest.mark.parametrize("kind", [Python, JavaScript, Go], ids=lambda it: it.name)
def test_documented(tally, program, kind, made):
    """The five lines of docs/CLIENTS.md, as they stand there; of the client in Python these alone are tried here."""
    language = made(kind)
    with open(os.path.join(TOP, "docs", "CLIENTS.md"), encoding="utf-8") as page:
        lines = textwrap.dedent(re.search(rf"In {language.name}[^\n]*:\n\n((?:    .*\n)+)", page.read())[1])
    with Room(PAYMENT) as room, Service(program, room) as service:
        python_client.Client(room.stores).begin("seed", 100)
        tally.is_same("the lines of docs/CLIENTS.md", end_of(language.shown(lines, room.path), cwd=room.path), (language.prints, "", 0))
        python_client.Client(room.stores).shut()
        service.end()
