"""The program where the system refuses it something: memory, stack, streams, files, words, signals. Whatever is refused, it ends
with a status of its own and one line, never with half a line, a trace or a signal that nobody sent."""
import collections
import os
import re
import resource
import signal
import socket
import struct
import subprocess
import time

import pytest
from serving import PAYMENT, TOP, Room, Service, bound_by_modes, free_port
import lynx

# The part of a program's start that is the system's: less address space than this, and the loader says so in words of its own.
LEAST_SPACE = 6 << 20

# The loader's own status where it can't begin a program: a library or the first thread's data that has no room.
LOADER_STATUS = 127

FAULT_LINES = {2: ("lynx: ", "error: "), 3: ("lynx: out of memory\n",), 4: ("lynx: ",)}


def text(path):
    with open(os.path.join(TOP, path), encoding="ascii") as file:
        return file.read()


SCRIPT = text("examples/payment.script")
LINES = "begun 0:0 stamp 1 results -\nbegun 0:1 stamp 2 results 100\ndone 0:1 1 stamp 3 results - end\ncell acct 0 70\ncell acct 1000 30\norder 0:0 0:1\n"


def ended(words, given=b"", limits=(), **how):
    """What a program prints, and its status, under these limits."""

    def limit():
        for kind, most in limits:
            resource.setrlimit(kind, (most, most))

    how.setdefault("stdout", subprocess.PIPE)
    how.setdefault("stderr", subprocess.PIPE)
    ran = subprocess.run(words, input=given, timeout=120, preexec_fn=limit, **how)
    return (ran.stdout or b"").decode(), (ran.stderr or b"").decode(errors="replace"), ran.returncode


def is_proper(out, err, status, wanted, done=(0,)):
    """Whether it did all that is wanted, or told in one line why not, with a beginning of it written."""
    if status in done:
        return out == wanted and err == ""
    return (status in FAULT_LINES and err.startswith(FAULT_LINES[status]) and err.endswith("\n")
            and (err.count("\n") == 1 or err.startswith("error: ")) and wanted.startswith(out))


def jobs(room):
    """Jobs by name: their words, what they are given, what they print and their status."""
    script = room.file("script", SCRIPT)
    offends = os.path.join(TOP, "examples/bank/first.set")
    edges = "offending\nconflict send01 0 send10 1\nconflict send10 0 send01 1\n"
    return {"check": (["check", room.set], b"", "accepted\n", 0), "offending": (["check", offends], b"", edges, 1),
            "run": (["run", room.set, script], b"", LINES, 0),
            "run -": (["run", "-"], (PAYMENT + "--\n" + SCRIPT).encode(), LINES, 0)}


def least_space(program):
    """The address space from which on the system's loader runs: that of the program's own segments (ELF of 64 bits), if it is more."""
    with open(program, "rb") as file:
        head = file.read(64)
        place, size, count = struct.unpack_from("<Q", head, 32)[0], *struct.unpack_from("<HH", head, 54)
        file.seek(place)
        segments = [struct.unpack_from("<I12xQ16xQ", file.read(size)) for _ in range(count)]
    return max(LEAST_SPACE, max(at + long for kind, at, long in segments if kind == 1) + (1 << 20) & -(64 << 10))


def test_memory(tally, program):
    """Address space from the least that the system's loader needs, in small steps, to what is ample."""
    with Room(PAYMENT) as room:
        for name, (words, given, wanted, done) in jobs(room).items():
            refused = whole = 0
            least = least_space(program)
            for space in list(range(least, least + (3 << 20), 64 << 10)) + [64 << 20, 256 << 20]:
                out, err, status = ended([program] + words, given, [(resource.RLIMIT_AS, space)])
                if status == LOADER_STATUS and not err.startswith("lynx: "):
                    continue
                if not is_proper(out, err, status, wanted, (done,)):
                    tally.is_same(f"{name} in {space} bytes", (out, err, status), wanted)
                    return
                refused, whole = refused + (status == 3), whole + (status == done)
            tally.holds(f"{name} is done where memory is ample ({refused} refused, {whole} done)", whole >= 2)


def is_shut(port, room):
    """Whether a service answers a client that asks for its end."""
    try:
        lynx.Client(port, room.set, tries=1, timeout=10).shut()
        return True
    except lynx.LynxError:
        time.sleep(0.05)
        return False


def begins_lost(port, room):
    """How many of three clients are not answered."""
    lost = 0
    for client in range(1, 4):
        with lynx.Client(port, room.set, client=client, first=1, tries=1, timeout=10) as bank:
            try:
                bank.begin("seed", 5)
            except lynx.LynxError:
                lost += 1
    return lost


@pytest.mark.parametrize("space", [8 << 20, 12 << 20, 24 << 20, 48 << 20, 96 << 20, 1 << 30])
def test_memory_of_service(tally, program, room, space):
    """A service in little memory: it doesn't begin, with a line that says why, or it serves."""
    port, space = free_port(), max(space, least_space(program))
    ran = subprocess.Popen([program, "serve", room.set, room.stores, str(port)], stdin=subprocess.DEVNULL, stdout=subprocess.PIPE,
                           stderr=subprocess.PIPE, text=True, preexec_fn=lambda: resource.setrlimit(resource.RLIMIT_AS, (space, space)))
    if ran.stdout.readline() != f"listening 127.0.0.1:{port}\n":
        err = ran.communicate(timeout=60)[1]
        tally.holds(f"a service in {space} bytes doesn't begin: {err!r}", space < (1 << 30) and (
            (ran.returncode in (3, 4) and err.startswith("lynx: ") and err.count("\n") == 1) or ran.returncode == LOADER_STATUS))
        return
    lost = begins_lost(port, room)
    is_heard = any(is_shut(port, room) for _ in range(50))
    try:
        err = ran.communicate(timeout=60 if is_heard else 15)[1]
        tally.holds(f"a service in {space} bytes ends ({lost} lost)", ran.returncode in (0, 3, 4) and
                    (err == "" or (err.startswith("lynx: ") and err.count("\n") == 1)))
    except subprocess.TimeoutExpired:
        # No thread could be made for the client that asks for the end.
        ran.kill()
        ran.communicate()
        tally.holds(f"a service in {space} bytes has room for a client", space < (96 << 20))


def test_stack(tally, program):
    """Small stacks: what fits in a quarter of a megabyte is done; a program that is proved may still run out of less."""
    with Room(PAYMENT) as room:
        for name, (words, given, wanted, done) in jobs(room).items():
            for kib in (256, 512, 1024, 8192):
                out, err, status = ended([program] + words, given, [(resource.RLIMIT_STACK, kib << 10)])
                tally.is_same(f"{name} in a stack of {kib} KiB", (out, err, status), (wanted, "", done))


def test_handles(tally, program):
    """Few file handles: what can't be opened is told."""
    with Room(PAYMENT) as room:
        for count in (3, 4, 5, 6, 8):
            for name, (words, given, wanted, done) in jobs(room).items():
                out, err, status = ended([program] + words, given, [(resource.RLIMIT_NOFILE, count)])
                tally.holds(f"{name} with {count} handles: {status} {err!r}", status == LOADER_STATUS or is_proper(out, err, status, wanted, (done,)))
            words = [program, "serve", room.set, room.stores, str(free_port())]
            if count < 8:
                out, err, status = ended(words, limits=[(resource.RLIMIT_NOFILE, count)])
                tally.holds(f"serve with {count} handles: {status} {err!r}", status == LOADER_STATUS or (out, status) == ("", 4) and err.count("\n") == 1)


def test_streams(tally, program):
    """Closed and full streams, and readers that go."""
    with Room(PAYMENT) as room:
        for name, (words, given, wanted, done) in jobs(room).items():
            with open("/dev/full", "wb") as full:
                out, err, status = ended([program] + words, given, stdout=full)
            tally.is_same(f"{name} to a full device", (err, status), ("lynx: cannot write\n", 4))
            closed = subprocess.run(["sh", "-c", '"$@" >&-', "sh", program] + words, input=given, stderr=subprocess.PIPE, timeout=60)
            tally.is_same(f"{name} to a closed stream", (closed.stderr, closed.returncode), (b"lynx: cannot write\n", 4))
            reader, writer = os.pipe()
            os.close(reader)
            out, err, status = ended([program] + words, given, stdout=writer)
            os.close(writer)
            tally.holds(f"{name} to a reader that is gone: {status} {err!r}", (err, status) in (("lynx: cannot write\n", 4), ("", -signal.SIGPIPE)))
        closed = subprocess.run(["sh", "-c", '"$@" <&-', "sh", program, "run", "-"], stdout=subprocess.PIPE, stderr=subprocess.PIPE, timeout=60)
        tally.is_same("no standard input", (closed.stdout, closed.stderr, closed.returncode), (b"", b"lynx: cannot read -\n", 4))
        with open("/dev/full", "wb") as full:
            words = [program, "serve", room.set, room.stores, str(free_port())]
            tally.is_same("serve to a full device", ended(words, stdout=full)[1:], ("lynx: cannot write\n", 4))
        tally.is_same("shown after it", ended([program, "show", room.store(0)]), ("server 0\nentries 0\n", "", 0))


def test_files(tally, program):
    """What is no plain file."""
    with Room(PAYMENT) as room:
        unread = lambda path: ("", f"lynx: cannot read {path}\n", 4)  # noqa: E731
        path = os.path.join(room.path, "socket")
        with socket.socket(socket.AF_UNIX) as bound:
            bound.bind(path)
            for word in ("check", "draw", "show"):
                tally.is_same(f"{word} of a socket", ended([program, word, path]), unread(path))
        for word in ("check", "draw", "show"):
            tally.is_same(f"{word} of a folder", ended([program, word, room.path]), unread(room.path))
            tally.is_same(f"{word} of nothing", ended([program, word, room.path + "/none"]), unread(room.path + "/none"))
            tally.is_same(f"{word} of a file as a folder", ended([program, word, room.set + "/none"]), unread(room.set + "/none"))
        tally.is_same("a device of no bytes", ended([program, "check", "/dev/null"]), ("", "lynx: set line 1: bad-version\n", 2))
        tally.is_same("a device without end", ended([program, "check", "/dev/zero"]), ("", "lynx: set line 0: too-long\n", 2))
        path = os.path.join(room.path, "pipe")
        os.mkfifo(path)
        tally.is_same("a pipe", ended([program, "check", path]), unread(path))
        piped = ended(["sh", "-c", f"cat '{room.set}' | '{program}' check /dev/stdin"])
        tally.is_same("a set behind a pipe", piped, ("accepted\n", "", 0))
        path = room.file("locked", PAYMENT)
        os.chmod(path, 0)
        tally.is_same("no rights", ended([*bound_by_modes(), program, "check", path]), unread(path))
        tally.is_same("a long name", ended([program, "check", "x" * 5000]), unread("x" * 5000))
        tally.is_same("no name", ended([program, "check", ""]), unread(""))
        path = room.file("short.lynx", "SQLite format 3\0")
        out, err, status = ended([program, "show", path])
        tally.holds(f"a cut database: {err!r}", (out, status) == ("", 4) and err in ("lynx: store: store\n", "lynx: store: damaged\n"))


def test_lengths(tally, program):
    """Texts of 65,536 and of 65,537 bytes."""
    with Room(PAYMENT) as room:
        names = []
        script, number = "", 0
        while len(script) + 40 < 65_536:
            number += 1
            script += f"begin 0 1 {number} seed 1\n"
        for wanted in (65_536, 65_537):
            rest = wanted - len(script)
            tail = f"begin 0 {'1' * (rest - len('begin 0  9 seed 1') - 1)} 9 seed 1\n"
            names.append(room.file(f"script{wanted}", script + tail))
            tally.is_same(f"length of a script {wanted}", os.path.getsize(names[-1]), wanted)
        out, err, status = ended([program, "run", room.set, names[0]])
        tally.is_same("the longest script", (len(out.split("\n")), err, status), (number + 4, "", 0))
        tally.is_same("a longer script", ended([program, "run", room.set, names[1]]), ("", "lynx: script line 0: too-long\n", 2))
        for wanted, line in ((65_536, "lynx: set line 1: bad-version\n"), (65_537, "lynx: set line 0: too-long\n")):
            tally.is_same(f"a set of {wanted} bytes", ended([program, "check", room.file(f"set{wanted}", "x" * wanted)]), ("", line, 2))


def test_words(tally, program):
    """Words that are no words."""
    for given in ([b"\xff"], [b"check", b"\xff"], [b"check", b"a\xc3"], [b"serve", b"set", b"\xfe", b"7"]):
        tally.is_same(f"words {given}", ended([program.encode()] + given), ("", "lynx: a word is not UTF-8\n", 2))
    for given in (["x"] * 10_000, ["check"] * 10_000, ["check", "a", "b"], ["--frob"], ["run", "--frob", "x"], ["serve", "x"], ["ask"], ["sho", "x"]):
        out, err, status = ended([program] + given)
        tally.holds(f"{len(given)} words {given[:3]}: {status}", (out, status) == ("", 2) and err.startswith("error: ") and err.endswith("\n"))
    for given in (["--help"], ["help"], ["--version"]):
        out, err, status = ended([program] + given)
        tally.holds(f"help {given}", out.endswith("\n") and (err, status) == ("", 0))
    for given in (["sample", "set", "--begins", "0"], ["sample", "set", "--begins", "101"], ["sample", "set", "--begins", "x"],
                  ["sample", "set", "--seed", str(2 ** 64)], ["sample", "set", "--effort", str(2 ** 64)], ["serve", "set", "dir", "0"],
                  ["serve", "set", "dir", "65536"], ["serve", "set", "dir", "7", "--status", "0"], ["serve", "set", "dir", "7", "--status", "65536"],
                  ["ask", "set", "0"], ["ask", "set", "65536"], ["ask", "set", "7", "--status", "65536"]):
        out, err, status = ended([program] + given)
        tally.holds(f"out of range {given}", (out, status) == ("", 2) and err.startswith("error: "))
    tell_words(tally, program)


def tell_words(tally, program):
    """The help of each command tells its words and options, and that of the program its commands, as docs/FORMATS.md has them."""
    with open(os.path.join(TOP, "docs", "FORMATS.md"), encoding="utf-8") as file:
        lines = re.findall(r"(?m)^    lynx ([a-z]+) (.*[A-Z].*)$", file.read())
    told = collections.defaultdict(set)
    for command, rest in lines:
        told[command] |= set(re.findall(r"--[a-z-]+|[A-Z]+2?", rest))
    commands = ended([program, "--help"])[0]
    tally.is_same("how many commands", len(told), 16)
    for command, wanted in told.items():
        out, err, status = ended([program, command, "--help"])
        missing = {word for word in wanted if not re.search(rf"(?<![\w-]){word}(?![\w-])", out)}
        tally.is_same(f"help of {command}", (missing, err, status), (set(), "", 0))
        tally.holds(f"help tells of {command}", re.search(rf"(?m)^  {command} +\w", commands))


def test_signals(tally, program):
    """A service that is told to end by a signal ends; what it answered is there when it is started again."""
    for sent in (signal.SIGINT, signal.SIGTERM, signal.SIGHUP, signal.SIGKILL):
        if sent != signal.SIGKILL:
            signal.signal(sent, signal.SIG_DFL)  # A script in the background hands on that it is ignored.
        with Room(PAYMENT) as room:
            with Service(program, room) as service, lynx.Client(service.port, room.set, client=1, first=1) as bank:
                told = bank.begin("seed", 7)
                service.ran.send_signal(sent)
                tally.is_same(f"ended by {sent.name}", service.ran.wait(30), -sent)
                tally.is_same(f"nothing said at {sent.name}", service.ran.stderr.read(), "")
            with Service(program, room) as service, lynx.Client(service.port, room.set, client=1, first=1) as bank:
                found = bank.begin("seed", 7, number=1)
                tally.is_same(f"what it told before {sent.name}", (found.chain, found.stamp, found.again), (told.chain, told.stamp, True))
                bank.shut()
                tally.is_same(f"end after {sent.name}", service.end(), ("closed\norder 0:0\n", "", 0))
    with Room(PAYMENT) as room, Service(program, room) as service:
        service.ran.send_signal(signal.SIGSTOP)
        time.sleep(0.2)
        service.ran.send_signal(signal.SIGCONT)
        with lynx.Client(service.port, room.set, client=1, first=1) as bank:
            tally.is_same("after a pause", bank.begin("seed", 7).stamp, 1)
            bank.shut()
        tally.is_same("end after a pause", service.end(), ("closed\norder 0:0\n", "", 0))


def test_full_disk(tally, program):
    """A store that can't grow: its server stops, says so, and after a restart what it answered is there."""
    with Room(PAYMENT) as room:
        def limit():
            resource.setrlimit(resource.RLIMIT_FSIZE, (600_000, 600_000))
            signal.signal(signal.SIGXFSZ, signal.SIG_IGN)

        port = free_port()
        ran = subprocess.Popen([program, "serve", room.set, room.stores, str(port), "--log"], stdin=subprocess.DEVNULL,
                               stdout=subprocess.PIPE, stderr=subprocess.PIPE, text=True, preexec_fn=limit)
        ran.stdout.readline()
        told, reason = [], None
        with lynx.Client(port, room.set, client=1, first=1) as bank:
            for number in range(1, 5000):
                try:
                    told.append(bank.begin("seed", 1, number=number))
                except lynx.LynxError as fault:
                    reason = fault.reason
                    break
            tally.is_same("a server whose store is full", reason, "stopped")
            bank.shut()
        out, err = ran.communicate(timeout=60)
        lines = err.splitlines()
        tally.is_same("its end", (out, lines[-1:], ran.returncode), ("", ["lynx: close: stopped"], 4))
        # a write that fails for another reason than want of room on the disk is a failure of the disk, as SQLite tells it
        tally.is_same("why it stopped, told once", [line.partition(" ")[2] for line in lines if "event=stopped" in line],
                      ['event=stopped server=0 file=server-0.lynx cause="disk I/O error"'])
        with Service(program, room) as service, lynx.Client(service.port, room.set, client=1, first=1) as bank:
            found = [bank.begin("seed", 1, number=answer.number) for answer in told]
            tally.is_same("answers after it", [(it.chain, it.stamp, it.again) for it in found], [(it.chain, it.stamp, True) for it in told])
            bank.shut()
            tally.is_same("end after a full store", service.end()[1:], ("", 0))
