"""Folders and streams that others changed: stores that lost their tables, what a restore left, streams that are closed, copies that
can't be closed, a notice in whose place something else stands, folders that are removed, moved or replaced, a log that nobody reads,
and limits of the system. Each time the fault is told, and nothing is made in the place of what is lost."""
import contextlib
import fcntl
import http.client
import os
import re
import resource
import shutil
import signal
import socket
import sqlite3
import subprocess
import time

import pytest
from serving import PAYMENT, TOP, Line, Room, Service, Strain, WatchedService, end_of, files, free_port, stored, wait_until
import lynx

BYE, QUIT, SHUT = bytes.fromhex("1300000000"), bytes.fromhex("0300000000"), bytes.fromhex("0400000000")

# Two payments, of which one is owed.
WORKED = "begin 0 1 1 seed 100\nbegin 0 1 2 pay 30\ndeliver 0:1 1\nbegin 0 1 3 pay 20\n"


def ended(words, within=8.0):
    """What a program prints, and its status, or that it goes on, which ends it."""
    try:
        ran = subprocess.run(words, stdin=subprocess.DEVNULL, capture_output=True, text=True, timeout=within)
    except subprocess.TimeoutExpired:
        return "it goes on"
    return ran.stdout, ran.stderr, ran.returncode


def killed(program, room, *words):
    """What a service leaves that is killed behind a payment."""
    with Service(program, room, words=words) as service, lynx.Client(room.stores, client=1, first=1) as bank:
        bank.begin("seed", 100)
        bank.begin("pay", 30).wait(10)
        time.sleep(0.3)  # a folder that follows has it too
        service.kill()


def emptied(store, part):
    """A store whose file or log is emptied."""
    with open(store + part, "wb"):
        pass


@pytest.mark.parametrize("server", (0, 1))
@pytest.mark.parametrize("part", ("", "-wal"))
def test_without_tables(tally, program, room, part, server):
    """A store whose file or log was emptied, so that it has no tables, is refused beside stores with entries as one that is missing.
    Nothing is made of it."""
    killed(program, room)
    emptied(room.store(server), part)
    script, refused = room.file("script", "wake 0\n"), ("", f"lynx: store {server}: damaged\n", 4)
    for name, words in (("serve", lambda it: ["serve", room.set, it, str(free_port())]), ("extend", lambda it: ["extend", it, room.set]),
                        ("run", lambda it: ["run", "--stores", it, room.set, script]), ("audit", lambda it: ["audit", it]),
                        ("owed", lambda it: ["owed", it])):
        copy = os.path.join(room.path, name)
        shutil.copytree(room.stores, copy)
        before = files(copy)[f"server-{server}.lynx"]
        tally.is_same(name, ended([program, *words(copy)]), refused)
        tally.is_same(f"the file behind {name}", files(copy)[f"server-{server}.lynx"], before)


def test_copy_without_tables(tally, program, room):
    """A store of a folder that follows whose log was emptied has lost all it kept: its server gives it all again."""
    copy = os.path.join(room.path, "copy")
    os.mkdir(copy)
    killed(program, room, "--copy", copy)
    emptied(os.path.join(copy, "server-1.lynx"), "-wal")
    with Service(program, room, words=("--copy", copy)) as service:
        lynx.Client(room.stores).shut()
        tally.is_same("its end", service.end()[1:], ("", 0))
    for server in (0, 1):
        tally.is_same(f"store {server}", end_of([program, "show", os.path.join(copy, f"server-{server}.lynx")]),
                      end_of([program, "show", room.store(server)]))


def is_one_line(found):
    """Whether nothing was printed but one line of a fault, with status 4."""
    return found[0] == "" and found[2] == 4 and found[1].startswith("lynx: ") and found[1].count("\n") == 1 and found[1].endswith("\n")


def test_half_restored(tally, program, room):
    """A folder in which a restore was killed is neither served nor given stores, until what it left is taken away."""
    copies = os.path.join(room.path, "copies")
    shutil.copytree(room.stores, copies)
    stored(program, room, WORKED, copies)
    left = os.path.join(room.stores, "restore.new")
    shutil.copytree(copies, left)
    script, before = room.file("script", "wake 0\n"), sorted(os.listdir(room.stores))
    for name, words in (("serve", ["serve", room.set, room.stores, str(free_port())]),
                        ("run", ["run", "--stores", room.stores, room.set, script]), ("extend", ["extend", room.stores, room.set]),
                        ("copy", ["serve", room.set, copies, str(free_port()), "--copy", room.stores])):
        found = ended([program, *words])
        tally.holds(f"{name} is refused: {found}", is_one_line(found))
        tally.is_same(f"what is there behind {name}", sorted(os.listdir(room.stores)), before)
    shutil.rmtree(left)
    with Service(program, room) as service:
        tally.is_same("without it", service.first, f"listening 127.0.0.1:{service.port}\n")


def closed(words, stream, given=""):
    """What a program prints, and its status, where a stream is closed, or that it hangs."""
    try:
        ran = subprocess.run(["sh", "-c", f'exec "$@" {stream}', "sh", *words], input=given, capture_output=True, text=True, timeout=8)
    except subprocess.TimeoutExpired:
        return "it hangs"
    return ran.stdout, ran.stderr, ran.returncode


ANSWERED = "begun 0:0 stamp 1 results -\nbye\n"


def behind(stream, printed):
    """What a program that prints this does where a stream is closed."""
    return {"<&-": (printed, "", 0), ">&-": ("", "lynx: cannot write\n", 4), "2>&-": (printed, "", 0)}[stream]


@pytest.mark.parametrize("stream", ("<&-", ">&-", "2>&-"))
def test_closed_streams(tally, program, room, stream):
    """A command of which a stream is closed takes no file and no connection for it: what it can't print is told by its status."""
    script = room.file("script", WORKED)
    out, _, _ = end_of([program, "run", room.set, script])
    tally.is_same("check", closed([program, "check", room.set], stream), behind(stream, "accepted\n"))
    tally.is_same("run", closed([program, "run", room.set, script], stream), behind(stream, out))
    tally.is_same("run over stores", closed([program, "run", "--stores", room.stores, room.set, script], stream), behind(stream, out))
    for server, count in ((0, 3), (1, 1)):
        shown = end_of([program, "show", room.store(server)])
        tally.is_same(f"store {server}", (shown[0].splitlines()[:2], shown[1:]), ([f"server {server}", f"entries {count}"], ("", 0)))
        tally.is_same(f"show {server}", closed([program, "show", room.store(server)], stream), behind(stream, shown[0]))
    tally.is_same("audit", closed([program, "audit", room.stores], stream), behind(stream, end_of([program, "audit", room.stores])[0]))
    faulty = room.file("faulty", "lynx 3\n")
    told = "" if stream == "2>&-" else "lynx: set line 1: bad-version\n"
    tally.is_same("a fault", closed([program, "check", faulty], stream), ("", told, 2))


@pytest.mark.parametrize("stream", ("<&-", ">&-", "2>&-"))
def test_asked_by_closed_streams(tally, program, room, stream):
    """The same of questions to a service, which stays well."""
    wanted = behind(stream, ANSWERED) if stream != "<&-" else ("", "lynx: cannot read -\n", 4)
    with Service(program, room) as service:
        asked = "begin 1 1 seed 5\nquit\n"
        tally.is_same("by the folder", closed([program, "ask", room.stores], stream, asked), wanted)
        if stream == "2>&-":
            again = ANSWERED.replace(" results -", " results - again")
            tally.is_same("a faulty line", closed([program, "ask", room.stores], stream, "faulty\n" + asked), (again, "", 2))
            asked = asked.replace("begin 1 1", "begin 1 2")
            wanted = ("begun 0:1 stamp 2 results -\nbye\n", "", 0)
        elif stream == ">&-":
            asked = asked.replace("begin 1 1", "begin 1 2")
        tally.is_same("at the port", closed([program, "ask", room.set, str(service.port)], stream, asked), wanted)
        lynx.Client(room.stores).shut()
        out, fault, status = service.end()
        tally.is_same("the end of the service", (out[:13], fault, status), ("closed\norder ", "", 0))


class Watched(WatchedService):
    """A service of which it is asked how it is."""

    def health(self, within=5.0):
        """The status that /healthz answers, None where nothing comes."""
        asked = http.client.HTTPConnection("127.0.0.1", self.status, timeout=within)
        try:
            asked.request("GET", "/healthz", headers={"Connection": "close"})
            return asked.getresponse().status
        except (OSError, http.client.HTTPException):
            return None
        finally:
            asked.close()

    def get(self, path, within=5.0):
        """What it answers there."""
        asked = http.client.HTTPConnection("127.0.0.1", self.status, timeout=within)
        try:
            asked.request("GET", path, headers={"Connection": "close"})
            return asked.getresponse().read().decode()
        finally:
            asked.close()

    def metric(self, name):
        """The numbers of a family."""
        return [int(count) for count in re.findall(rf"(?m)^{name}(?:{{[^}}]*}})? (\d+)$", self.get("/metrics"))]

    def ended(self, within=20.0):
        """What it told, and its status, once it was asked for its end, unless it had ended by itself."""
        with contextlib.suppress(lynx.LynxError, OSError):
            lynx.Client(self.port, set_text=PAYMENT, tries=2, timeout=5).shut()
        _, fault, status = self.end(within)
        return fault, status


def test_unclosed_pause(tally, program, room):
    """A pause says that it is paused only where each file has all that is kept, and no log is beside it."""
    copy, strain = os.path.join(room.path, "copy"), Strain(room)
    os.mkdir(copy)
    with Watched(program, room, "--copy", copy, env=strain.env) as service:
        with lynx.Client(room.stores, client=1, first=1) as bank:
            bank.begin("seed", 100)
            bank.begin("pay", 30).wait(10)
        time.sleep(0.5)
        strain.set(fail="/copy/server-1.lynx")
        asked = http.client.HTTPConnection("127.0.0.1", service.status, timeout=30)
        asked.request("POST", "/copy/pause", headers={"Connection": "close"})
        status = asked.getresponse().status
        sizes = {name: len(data) for name, data in files(copy).items() if name.endswith("-wal")}
        tally.holds(f"answered {status} beside logs of {sizes}", status != 200 or all(size <= 41 for size in sizes.values()))


def test_linked_notice(tally, program, room):
    """A link in the place of the notice that is being written leads nowhere: what it points to stays as it is."""
    target = room.file("target", "kept\n")
    os.symlink(target, os.path.join(room.stores, "service.new"))
    with Service(program, room) as service:
        with open(target, encoding="ascii") as file:
            tally.is_same("what the link points to", file.read(), "kept\n")
        if service.first:
            with open(os.path.join(room.stores, "service"), encoding="ascii") as file:
                tally.is_same("the notice", file.read(), f"listening 127.0.0.1:{service.port}\n--\n{PAYMENT}")
            tally.holds("it is a file of its own", not os.path.islink(os.path.join(room.stores, "service")))
        else:
            tally.is_same("a refusal", service.end(), ("", "lynx: cannot write the file service\n", 4))


def test_other_notice(tally, program, room):
    """A service that ends takes its own notice away, and not that of another one whose folder has come to the same path."""
    with Room(PAYMENT) as other, Watched(program, room) as first:
        os.rename(room.stores, room.stores + ".away")
        os.rename(other.stores, room.stores)
        with Service(program, room) as second:
            notice = os.path.join(room.stores, "service")
            with open(notice, encoding="ascii") as file:
                before = file.read()
            tally.is_same("the notice of the second", before, f"listening 127.0.0.1:{second.port}\n--\n{PAYMENT}")
            first.ended()
            tally.holds("it is there", os.path.exists(notice))
            with contextlib.suppress(OSError), open(notice, encoding="ascii") as file:
                tally.is_same("behind the end of the first", file.read(), before)
            tally.is_same("a client", lynx.Client(second.port, room.set, client=1, first=1).begin("seed", 5).stamp, 1)


def events(told, word):
    """The events of that word in a log."""
    return [line.partition(" ")[2] for line in told.splitlines() if line.partition(" ")[2].startswith(f"event={word} ")]


def remove(folder, _):
    shutil.rmtree(folder)


def move(folder, _):
    os.rename(folder, folder + ".away")


def empty(folder, _):
    move(folder, None)
    os.mkdir(folder)


def put_back(folder, older):
    """An older copy is put in the place of a folder."""
    move(folder, None)
    shutil.copytree(older, folder)


def rewrite(folder, _):
    """A copy of one store is put in its place, as editors and rsync do."""
    path = os.path.join(folder, "server-1.lynx")
    shutil.copy(path, path + ".new")
    os.rename(path + ".new", path)


CHANGES = {"removed": remove, "moved": move, "emptied": empty, "older": put_back, "rewritten": rewrite}


@pytest.mark.parametrize("change", CHANGES)
def test_folder_gone(tally, program, room, change):
    """A folder, or a store in it, that is removed, moved or replaced under a service: within a second or so no begin is answered any
    more, and the service isn't well. That stands in the log, and on standard error in the end, with status 4."""
    older, gone = os.path.join(room.path, "older"), int(change == "rewritten")
    stored(program, room, WORKED)
    shutil.copytree(room.stores, older)
    with Watched(program, room, "--log") as service:
        bank = lynx.Client(service.port, set_text=PAYMENT, client=1, first=1, tries=1, timeout=10)
        tally.is_same("a begin", bank.begin("seed", 5, number=9).again, False)
        tally.is_same("its health", service.health(), 200)
        CHANGES[change](room.stores, older)
        tally.holds("it isn't well soon", wait_until(lambda: service.health() == 503, 3.0))
        tally.is_same("its servers", service.metric("lynx_server_running"), [0, 0])
        before = files(room.stores) if os.path.isdir(room.stores) else None
        told = None
        with contextlib.suppress(lynx.LynxError):
            told = bank.begin("seed", 5, number=10)
        tally.is_same("a begin then", told, None)
        tally.is_same("what is there", files(room.stores) if os.path.isdir(room.stores) else None, before)
        bank.shut()
        out, fault, status = service.end()
        tally.is_same("its end", (out[:13], fault.splitlines()[-1:], status), ("closed\norder ", [f"lynx: store {gone}: gone"], 4))
        tally.is_same("its log", events(fault, "store-gone"), [f"event=store-gone server={gone} file=server-{gone}.lynx"])


def test_folder_gone_in_the_end(tally, program, room):
    """The same where it is seen in the end alone, and not before."""
    with Watched(program, room) as service:
        with lynx.Client(service.port, set_text=PAYMENT, client=1, first=1) as bank:
            bank.begin("seed", 5)
            move(room.stores, None)
            bank.shut()
        out, fault, status = service.end()
        tally.is_same("its end", (out[:13], fault, status), ("closed\norder ", "lynx: store 0: gone\n", 4))


def test_order_of_folder_gone(tally, program, room):
    """The order goes to its file all the same."""
    order = room.file("order", "order 7:7\n")
    with Watched(program, room, "--order", order) as service:
        with lynx.Client(service.port, set_text=PAYMENT, client=1, first=1) as bank:
            bank.begin("seed", 5)
            move(room.stores, None)
            bank.shut()
        tally.is_same("its end", service.end(), ("closed\n", "lynx: store 0: gone\n", 4))
    with open(order, encoding="ascii") as file:
        tally.is_same("the order", file.read(), "order 0:0\n")


def test_unentered(tally, program, room):
    """A folder that leads nowhere is not one whose books are closed."""
    loop = os.path.join(room.path, "loop")
    os.symlink(loop, loop)
    for words in (["run", "--stores", loop, room.set, "/dev/null"], ["serve", room.set, loop, str(free_port())], ["extend", loop, room.set]):
        tally.is_same(words[0], end_of([program, *words]), ("", "lynx: store 0: store\n", 4))


def test_no_second_folder(tally, program, room):
    """A variable that isn't set in the place of the second folder: no store is made in the root."""
    told = end_of([program, "serve", room.set, room.stores, str(free_port()), "--copy", ""])
    tally.is_same("refused", told, ("", "lynx: copy 0: store\n", 4))
    tally.is_same("stores in the root", [name for name in os.listdir("/") if "server-" in name], [])


def test_silent_service(tally, program, room):
    """A service that hangs: who asks it waits as long as a client does."""
    with socket.create_server(("127.0.0.1", 0)) as silent:
        since = time.monotonic()
        told = end_of([program, "ask", room.set, str(silent.getsockname()[1])], "begin 1 1 seed 5\n")
        tally.is_same("told", told, ("", "lynx: connection lost\n", 4))
        tally.holds("after half a minute", 25 < time.monotonic() - since < 60)


def test_reader_beside(tally, program, room):
    """A program that only reads a store keeps it from being opened, and that is what is told."""
    stored(program, room, WORKED)
    path = os.path.join(room.stores, "server-0.lynx")
    with contextlib.closing(sqlite3.connect(path)) as base:
        base.execute("BEGIN")
        base.execute("SELECT count(*) FROM entry").fetchall()
        told = end_of([program, "serve", "--hints", room.set, room.stores, str(free_port())])
        tally.is_same("told", told, ("", f"lynx: store 0: store\n  {path}: another process has it open\n", 4))


@pytest.mark.parametrize("change", ("removed", "moved", "emptied", "rewritten"))
def test_copy_gone(tally, program, room, change):
    """The same of a folder that follows: begins are answered, but the service isn't well, and in the end that is told."""
    copy, gone = os.path.join(room.path, "copy"), int(change == "rewritten")
    os.mkdir(copy)
    with Watched(program, room, "--log", "--copy", copy) as service:
        with lynx.Client(service.port, set_text=PAYMENT, client=1, first=1) as bank:
            bank.begin("seed", 100)
            tally.holds("it follows", wait_until(lambda: service.metric("lynx_copy_behind_entries") == [0, 0]))
            CHANGES[change](copy, None)
            tally.holds("it isn't well soon", wait_until(lambda: service.health() == 503, 3.0))
            told = "copy 1 gone\n" if gone else "copy 0 gone\ncopy 1 gone\n"
            tally.holds("its health", wait_until(lambda: service.get("/healthz") == told, 3.0))
            tally.is_same("what follows", service.metric("lynx_copy_follows"), [gone, 0])
            before = files(copy) if os.path.isdir(copy) else None
            tally.is_same("a begin then", bank.begin("pay", 30).wait(10), [[100], []])
            if not gone:
                tally.is_same("what is there", files(copy) if os.path.isdir(copy) else None, before)
            bank.shut()
        out, fault, status = service.end()
        tally.is_same("its end", (out[:13], fault.splitlines()[-1:], status), ("closed\norder ", [f"lynx: copy {gone}: gone"], 4))
    tally.is_same("the stores", end_of([program, "audit", room.stores])[2], 0)


def test_copy_gone_in_the_end(tally, program, room):
    """A folder that follows which is moved right before the end."""
    copy = os.path.join(room.path, "copy")
    os.mkdir(copy)
    with Service(program, room, words=("--copy", copy)) as service:
        with lynx.Client(room.stores, client=1, first=1) as bank:
            bank.begin("seed", 100)
            empty(copy, None)
            bank.shut()
        out, fault, status = service.end()
        told = ["lynx: copy 0: gone", "lynx: copy 1: gone", "lynx: copy 0: gone"]
        tally.is_same("its end", (out[:13], fault.splitlines(), status), ("closed\norder ", told, 4))
    tally.is_same("what was put there", os.listdir(copy), [])


def test_unread_log(tally, program, room):
    """A log that nobody reads holds up no client and no end: what can't go is counted."""
    with Watched(program, room, "--log") as service:
        fcntl.fcntl(service.ran.stderr, fcntl.F_SETPIPE_SZ, 4096)
        began = time.monotonic()
        for number in range(100):
            with lynx.Client(service.port, set_text=PAYMENT, client=1, first=1, tries=1, timeout=10) as bank:
                bank.begin("seed", 1, number=number + 1)
        tally.holds("a hundred sessions aren't held up", time.monotonic() - began < 20)
        tally.is_same("its health", service.health(), 200)
        dropped = service.metric("lynx_log_dropped_total")
        tally.holds(f"lines were dropped: {dropped}", dropped and dropped[0] > 50)
        lynx.Client(service.port, set_text=PAYMENT).shut()
        try:
            status = service.ran.wait(20)
        except subprocess.TimeoutExpired:
            status = "it goes on"
        tally.is_same("its end", status, 0)
        if status == 0:
            out, fault = service.ran.communicate()
            tally.is_same("what it printed", out[:13], "closed\norder ")
            told = [line for line in fault.splitlines() if not re.fullmatch(r"[0-9T:.-]+Z event=[a-z-]+( .*)?", line)]
            tally.is_same("lines that aren't whole", told, [])


def test_log_goes_on(tally, program, room):
    """A log that is read again has what comes from then on, and what is read in time is whole."""
    with Watched(program, room, "--log") as service:
        fcntl.fcntl(service.ran.stderr, fcntl.F_SETPIPE_SZ, 4096)
        for _ in range(100):
            with service.connect() as line:
                line.send(QUIT)
                line.item()
        dropped = service.metric("lynx_log_dropped_total")
        os.set_blocking(service.ran.stderr.fileno(), False)
        with contextlib.suppress(BlockingIOError, TypeError):
            service.ran.stderr.read()
        os.set_blocking(service.ran.stderr.fileno(), True)
        lynx.Client(service.port, set_text=PAYMENT).shut()
        _, fault, status = service.end()
        tally.is_same("its end", (len(events(fault, "audited")), status), (1, 0))
        tally.holds(f"lines were dropped: {dropped}", dropped and dropped[0] > 0)


def limited(program, room, limits, *words):
    """A service under limits of the system: a process, and what it prints first."""
    def limit():
        for kind, most in limits:
            resource.setrlimit(kind, (most, most))

    ran = subprocess.Popen([program, "serve", room.set, room.stores, *words], stdin=subprocess.DEVNULL, stdout=subprocess.PIPE,
                           stderr=subprocess.PIPE, text=True, preexec_fn=limit)
    return ran, ran.stdout.readline()


def end_within(ran, seconds):
    """What a process prints, and its status, or that it goes on, which ends it."""
    try:
        out, fault = ran.communicate(timeout=seconds)
        return out, fault, ran.returncode
    except subprocess.TimeoutExpired:
        ran.kill()
        _, fault = ran.communicate()
        return "it goes on", fault, None


@pytest.mark.parametrize("handles, has_copy", ((10, False), (14, True)))
def test_last_handle(tally, program, room, handles, has_copy):
    """A service whose one free handle a client needs serves it, and ends when it asks for that."""
    copy, port = os.path.join(room.path, "copy"), free_port()
    os.mkdir(copy)
    words = [str(port), "--status", str(free_port()), *(["--copy", copy] if has_copy else [])]
    ran, first = limited(program, room, [(resource.RLIMIT_NOFILE, handles)], *words)
    tally.is_same("it listens", first, f"listening 127.0.0.1:{port}\n")
    told = None
    with contextlib.suppress(OSError), Line(port, 8.0) as line:
        line.send(SHUT)
        told = line.item()
    tally.is_same("bye", told, BYE)
    out, fault, status = end_within(ran, 15)
    tally.is_same("its end", (out.splitlines()[-2:], fault, status), (["closed", "order -"], "", 0))


def test_turned_away(tally, program, room):
    """Clients for whom there is no handle: the first is told, and again once one was taken."""
    port = free_port()
    ran, _ = limited(program, room, [(resource.RLIMIT_NOFILE, 10)], str(port), "--log")
    with Line(port, 8.0) as first:
        first.send(QUIT)
        tally.is_same("one is served", first.item(), BYE)
    lines = [Line(port, 8.0) for _ in range(6)]
    time.sleep(0.5)
    for line in lines[1:]:
        line.socket.close()
    lines[0].send(SHUT)
    tally.is_same("bye", lines[0].item(), BYE)
    lines[0].socket.close()
    _, fault, status = end_within(ran, 15)
    told = events(fault, "turned-away")
    tally.holds(f"they are told: {fault}", told and set(told) == {'event=turned-away cause="Too many open files (os error 24)"'})
    tally.is_same("its end", status, 0)


def is_listening(program, room, kilobytes):
    """Whether a service comes so far that it listens, in so much memory."""
    ran, first = limited(program, room, [(resource.RLIMIT_AS, kilobytes << 10)], str(free_port()), "--log")
    ran.kill()
    end_within(ran, 15)
    return first.startswith("listening")


def test_no_memory_for_clients(tally, program, room):
    """A service that has memory for itself, and none for clients, says so. The least memory in which it listens is found by halves,
    to 64 kB, and from there on it gets 2 MB more at a time."""
    least, most = 1 << 14, 1 << 18
    while most - least > 64:
        middle = (least + most) // 2
        least, most = (least, middle) if is_listening(program, room, middle) else (middle, most)
    told = False
    for kilobytes in range(most, most + (1 << 16), 1 << 11):
        port = free_port()
        ran, first = limited(program, room, [(resource.RLIMIT_AS, kilobytes << 10)], str(port), "--log")
        if not first.startswith("listening"):
            end_within(ran, 15)
            continue
        try:
            with Line(port, 8.0) as line:
                line.send(SHUT)
                served = line.item() == BYE
        except OSError:
            served = False
        if not served:
            time.sleep(0.3)
            ran.kill()
        _, fault, status = end_within(ran, 15)
        tally.is_same(f"{kilobytes} kB: a client is served, or a line tells that it can't be: {fault}", bool(events(fault, "turned-away")),
                      not served)
        told |= not served
        if served:
            break
    tally.holds("one wasn't served", told)


@pytest.mark.parametrize("words", ((), ("--log",)))
def test_file_limit(tally, program, room, words):
    """A limit of files ends a service by a signal: before that a line tells of the limit, and what was answered is kept."""
    port, told = free_port(), 0
    ran, _ = limited(program, room, [(resource.RLIMIT_FSIZE, 600_000)], str(port), *words)
    with contextlib.suppress(lynx.LynxError), lynx.Client(port, set_text=PAYMENT, client=1, first=1, tries=1, timeout=20) as bank:
        for number in range(1, 5000):
            bank.begin("seed", 1, number=number)
            told = number
    _, fault, status = end_within(ran, 15)
    tally.is_same("its end", status, -signal.SIGXFSZ)
    if words:
        tally.is_same("the limit", events(fault, "file-limit"), ["event=file-limit bytes=600000"])
    else:
        tally.is_same("the limit", fault, "lynx: no file can grow beyond 600000 bytes\n")
    with Service(program, room) as service, lynx.Client(room.stores, client=1, first=1) as bank:
        tally.holds("something was answered", told > 10)
        tally.is_same("the last answer", bank.begin("seed", 1, number=told).again, True)
        bank.shut()
        tally.is_same("its end then", service.end()[1:], ("", 0))


@pytest.mark.parametrize("many", (8, 64))
def test_slow_watchers(tally, program, room, many):
    """Connections that watch and say nothing don't keep a service from telling its health within a second."""
    with Watched(program, room) as service:
        lines = [socket.create_connection(("127.0.0.1", service.status), 10) for _ in range(many)]
        for line in lines:
            with contextlib.suppress(OSError):
                line.sendall(b"GET /healthz HTTP/1.1\r\nhost: loc")
        time.sleep(0.7)
        for number in range(5):
            began = time.monotonic()
            tally.is_same(f"its health, {number}", service.health(1.0), 200)
            tally.holds(f"within a second, {number}", time.monotonic() - began < 1)
        for line in lines[:4]:
            line.sendall(b"alhost\r\nconnection: close\r\n\r\n")
            tally.is_same("a half-sent request goes on", line.recv(65536).split(b" ")[1:2], [b"200"])
        for line in lines:
            line.close()
        tally.is_same("its end", service.ended(), ("", 0))


def test_left_over_notice(tally, program, room):
    """A notice that a killed service left, while another one has its port: who goes by the folder asks it nothing."""
    turned = PAYMENT.replace("program seed", "program other").replace("program pay", "program seed").replace("program other", "program pay")
    stored(program, room, WORKED)
    with Room(turned) as other, Service(program, other) as service:
        with open(os.path.join(room.stores, "service"), "w", encoding="ascii") as file:
            file.write(f"listening 127.0.0.1:{service.port}\n--\n{PAYMENT}")
        asked = "begin 1 9 seed 5\nquit\n"
        tally.is_same("what a kill left", end_of([program, "ask", room.stores], asked), ("", "lynx: no service\n", 4))
        told = end_of([program, "ask", "--hints", room.stores], asked)
        tally.is_same("and a hint", (told[0], told[1].splitlines()[0], told[1].count("\n"), told[2]), ("", "lynx: no service", 2, 4))
        with open(os.path.join(room.stores, "service"), "w", encoding="ascii") as file:
            file.write(f"listening 127.0.0.1:{free_port()}\n--\n{PAYMENT}")
        tally.is_same("where nobody listens", end_of([program, "ask", room.stores], asked), ("", "lynx: cannot connect\n", 4))
        lynx.Client(other.stores).shut()
        tally.is_same("nothing ran there", service.end(), ("closed\norder -\n", "", 0))


# A service that is asked for its end in the moment that is given, answers nobody from then on, and ends with 4 three seconds later.
ENDING = """#!/bin/sh
[ "$1" = serve ] || { [ ! -e "$STUB" ] && echo > "$STUB"; exit; }
echo listening
until [ -e "$STUB" ]; do sleep 0.1; done
sleep 3
exit 4
"""


def test_second_signal(tally, room):
    """deploy/container/serve.sh: who sends a signal once more, while the service audits, neither ends it nor hides its status."""
    script, folder = os.path.join(TOP, "deploy", "container", "serve.sh"), os.path.join(room.path, "bin")
    os.mkdir(folder)
    with open(os.path.join(folder, "lynx"), "w", encoding="ascii") as file:
        file.write(ENDING)
    os.chmod(file.name, 0o755)
    env = dict(os.environ, PATH=f"{folder}:{os.environ['PATH']}", STUB=os.path.join(room.path, "asked"))
    with subprocess.Popen(["sh", script, room.set, room.stores, "1"], stdin=subprocess.DEVNULL, stdout=subprocess.PIPE, env=env, text=True) as ran:
        tally.is_same("it listens", ran.stdout.readline(), "listening\n")
        for _ in range(2):
            ran.send_signal(signal.SIGTERM)
            tally.holds("it is asked for its end", wait_until(lambda: os.path.exists(env["STUB"])))
            time.sleep(1)
        since = time.monotonic()
        tally.is_same("its status", ran.wait(20), 4)
        tally.holds("nobody waited for another answer", time.monotonic() - since < 5)


@pytest.mark.parametrize("sent, to_all", ((signal.SIGTERM, False), (signal.SIGINT, True), (signal.SIGHUP, True)))
def test_signals(tally, program, room, sent, to_all):
    """deploy/container/serve.sh: on a signal, which a terminal sends to all its processes, a service ends well."""
    script = os.path.join(TOP, "deploy", "container", "serve.sh")
    folder = os.path.join(room.path, "bin")
    os.mkdir(folder)
    os.symlink(program, os.path.join(folder, "lynx"))
    ran = subprocess.Popen(["sh", script, room.set, room.stores, str(free_port())], stdin=subprocess.DEVNULL, stdout=subprocess.PIPE,
                           stderr=subprocess.PIPE, text=True, start_new_session=True,
                           env=dict(os.environ, PATH=f"{folder}:{os.environ['PATH']}"))
    try:
        tally.holds("it listens", ran.stdout.readline().startswith("listening "))
        with lynx.Client(room.stores, client=1, first=1) as bank:
            bank.begin("seed", 100)
        if to_all:
            os.killpg(ran.pid, sent)
        else:
            ran.send_signal(sent)
        out, fault = ran.communicate(timeout=20)
        tally.is_same("its end", (out, fault, ran.returncode), ("closed\norder 0:0\n", "", 0))
        tally.holds("the notice is taken away", not os.path.exists(os.path.join(room.stores, "service")))
    finally:
        with contextlib.suppress(ProcessLookupError):
            os.killpg(ran.pid, signal.SIGKILL)
