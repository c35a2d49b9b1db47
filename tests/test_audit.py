"""`lynx audit` and `lynx owed` over stores that no service has open, and clients that go by the folder of a service. What
audits are to print was worked out by hand from docs/FORMATS.md."""
import os
import shutil

import pytest
from serving import PAYMENT, Room, Service, bound_by_modes, end_of, files, stored
import lynx as client

SEED, PAY = PAYMENT[PAYMENT.index("program seed"):PAYMENT.index("program pay")], PAYMENT[PAYMENT.index("program pay"):]
TURNED = PAYMENT[:PAYMENT.index("program seed")] + PAY + SEED

FIRST = """begin 0 1 1 seed 100
begin 0 1 2 pay 30
begin 0 1 3 pay 100
begin 0 1 4 pay 20
deliver 0:1 1
"""


AUDITED = "closed\norder 0:0 0:1 0:2\nentries 0 4\nentries 1 1\ncells acct 2\n"


def test_worked(tally, program, room):
    """What a run left is audited, and nothing is written to it."""
    tally.is_same("the run", stored(program, room, FIRST)[2], 0)
    before = files(room.stores)
    tally.is_same("the audit", end_of([program, "audit", room.stores]), (AUDITED, "", 0))
    tally.is_same("what is owed", end_of([program, "owed", room.stores]), ("owed 0:2 1 server 1 since 4\n", "", 0))
    tally.is_same("the files", files(room.stores), before)
    for name in os.listdir(room.stores):
        os.chmod(os.path.join(room.stores, name), 0o400)
    tally.is_same("only readable", end_of([*bound_by_modes(), program, "audit", room.stores]), (AUDITED, "", 0))
    for name in os.listdir(room.stores):
        os.chmod(os.path.join(room.stores, name), 0o600)
    tally.is_same("the rest is done", stored(program, room, "deliver 0:2 1\n")[2], 0)
    tally.is_same("nothing is owed", end_of([program, "owed", room.stores]), ("", "", 0))
    tally.is_same("the audit then", end_of([program, "audit", room.stores]),
                  ("closed\norder 0:0 0:1 0:2\nentries 0 4\nentries 1 2\ncells acct 2\n", "", 0))


CROSSED = """lynx 1
servers 2
table a
shard 0 18446744073709551615 0
table b
shard 0 18446744073709551615 1
program over
hop 0
get x a 0
set a 0 1
hop 1
set b 0 1
end
program back
hop 1
get x b 0
set b 0 2
hop 0
set a 0 2
end
"""

CROSSED_RUN = "begin 0 1 1 over\nbegin 1 1 2 back\ndeliver 0:0 1\ndeliver 1:0 1\n"


def test_cycle(tally, program):
    """A run over a set that offends may end with a cycle, and so does its audit."""
    with Room(CROSSED) as room:
        ran = stored(program, room, CROSSED_RUN)
        tally.is_same("the run", (ran[0].splitlines()[-1].split()[0], ran[2]), ("cycle", 1))
        line = ran[0].splitlines()[-1]
        tally.is_same("the audit", end_of([program, "audit", room.stores]),
                      (f"closed\n{line}\nentries 0 2\nentries 1 2\ncells a 1\ncells b 1\n", "", 1))


def test_refused(tally, program, room):
    """Stores that aren't there, aren't whole, aren't of one run, or that somebody has open."""
    absent = os.path.join(room.path, "absent")
    for verb in ("audit", "owed"):
        tally.is_same(f"{verb} of no folder", end_of([program, verb, absent]), ("", "lynx: store 0: store\n", 4))
        tally.is_same(f"{verb} of an empty one", end_of([program, verb, room.stores]), ("", "lynx: store 0: store\n", 4))
    stored(program, room, "begin 0 1 1 seed 100\n")
    older = os.path.join(room.path, "older")
    shutil.copytree(room.stores, older)
    stored(program, room, "begin 0 1 2 pay 30\ndeliver 0:1 1\n")
    shutil.copy(os.path.join(room.stores, "server-1.lynx"), older)
    for name in os.listdir(room.stores):
        if name.startswith("server-1"):
            shutil.copy(os.path.join(room.stores, name), older)
    tally.is_same("an older copy", end_of([program, "audit", older]), ("", "lynx: close: mismatch\n", 4))
    tally.is_same("an older copy, owed", end_of([program, "owed", older]), ("", "lynx: close: mismatch\n", 4))
    lost = os.path.join(room.path, "lost")
    shutil.copytree(room.stores, lost)
    for name in os.listdir(lost):
        if name.startswith("server-1"):
            os.remove(os.path.join(lost, name))
    tally.is_same("a store that is lost", end_of([program, "audit", lost]), ("", "lynx: store 1: damaged\n", 4))
    with open(os.path.join(lost, "server-1.lynx"), "w", encoding="ascii") as file:
        file.write("no database, and long enough for its head to be looked at\n" * 4)
    tally.is_same("no database", end_of([program, "audit", lost]), ("", "lynx: store 1: damaged\n", 4))
    for name in os.listdir(lost):
        if name.startswith("server-1"):
            os.remove(os.path.join(lost, name))
    for name in os.listdir(lost):
        shutil.copy(os.path.join(lost, name), os.path.join(lost, name.replace("server-0", "server-1")))
    tally.is_same("another server's store", end_of([program, "audit", lost]), ("", "lynx: store 1: other-set\n", 4))
    with Service(program, room):
        tally.is_same("stores that are served", end_of([program, "audit", room.stores]), ("", "lynx: store 0: store\n", 4))


# What makes an entry unlawful whose form stays: a payment that found 101 where 100 was, and a hop that ran at stamp 1 though its
# message was sent at stamp 2. Each is a server, a place, the entry's end before and behind it.
UNLAWFUL = [(0, 1, "01" + "0000000000000064", "01" + "0000000000000065"), (1, 0, "0000000000000003" + "00", "0000000000000001" + "00")]


@pytest.mark.parametrize("server, place, was, made", UNLAWFUL)
def test_unlawful(tally, program, room, server, place, was, made):
    """A store that has an unlawful entry is told, with the entry's place, and so is the first of two."""
    stored(program, room, FIRST)
    body = end_of(["sqlite3", room.store(server), f"SELECT hex(body) FROM entry WHERE place = {place}"])[0].strip()
    tally.is_same("how the entry ends", body[-len(was):], was)
    changed = f"UPDATE entry SET body = x'{body[:-len(was)]}{made}' WHERE place = {place}"
    tally.is_same("it is changed", end_of(["sqlite3", room.store(server), changed]), ("", "", 0))
    for verb in ("audit", "owed"):
        tally.is_same(verb, end_of([program, verb, room.stores]), ("", f"lynx: store {server}: damaged\n", 4))
        out, err, status = end_of([program, verb, "--hints", room.stores])
        tally.is_same(f"{verb} with hints", (out, err.splitlines()[0], status), ("", f"lynx: store {server}: damaged", 4))
        tally.holds(f"{verb}: the place", f"entry {place} of server {server}," in err)
    if server == 1:
        end_of(["sqlite3", room.store(0), "DELETE FROM cell"])
        tally.is_same("both", end_of([program, "audit", room.stores]), ("", "lynx: store 0: damaged\n", 4))


def test_by_folder(tally, program, room):
    """Clients find a service by its folder, as long as it serves."""
    notice = os.path.join(room.stores, "service")
    tally.is_same("before it", end_of([program, "ask", room.stores], "quit\n"), ("", "lynx: no service\n", 4))
    with Service(program, room) as service:
        with open(notice, encoding="ascii") as file:
            tally.is_same("the notice", file.read(), f"listening 127.0.0.1:{service.port}\n--\n{PAYMENT}")
        tally.is_same("no other file", [name for name in os.listdir(room.stores) if "new" in name], [])
        tally.is_same("ask", end_of([program, "ask", room.stores], "begin 1 1 seed 100\nbegin 1 2 pay 30\nquit\n"),
                      ("begun 0:0 stamp 1 results -\nbegun 0:1 stamp 2 results 100\nbye\n", "", 0))
        with client.Client(room.stores, client=2, first=1) as bank:
            paid = bank.begin("pay", 20)
            tally.is_same("a client", paid.named, {"x": 70})
            tally.is_same("its hops", paid.wait(5), [[70], []])
        client.Client(room.stores).shut()
        tally.is_same("its end", service.end(), ("closed\norder 0:0 0:1 0:2\n", "", 0))
    tally.holds("the notice is gone", not os.path.exists(notice))
    try:
        client.Client(room.stores)
        tally.holds("a client finds none", False)
    except client.NoService as fault:
        tally.is_same("a client finds none", fault.reason, "no-service")
    tally.is_same("ask finds none", end_of([program, "ask", "--hints", room.stores], "quit\n"),
                  ("", "lynx: no service\n  " + room.stores + "/service tells of none: lynx serve SET " + room.stores
                   + " PORT makes it, and takes it away when it ends\n", 4))
    tally.is_same("the audit", end_of([program, "audit", room.stores]),
                  ("closed\norder 0:0 0:1 0:2\nentries 0 3\nentries 1 2\ncells acct 2\n", "", 0))


def test_moved(tally, program, room):
    """A kill leaves the notice; a service that is begun anew, at another port and by a set that extends the one before,
    writes its own, and a client that goes by the folder goes on."""
    notice = os.path.join(room.stores, "service")
    with Service(program, room) as service:
        bank = client.Client(room.stores, client=1, first=1, tries=40)
        bank.begin("seed", 100)
        service.kill()
    tally.holds("a kill leaves the notice", os.path.exists(notice))
    grown = room.file("grown", PAYMENT + "program look\nhop 0\nget x acct 0\nend\n")
    tally.is_same("extended", end_of([program, "extend", room.stores, grown])[2], 0)
    room.set = grown
    with Service(program, room) as service:
        tally.is_same("it goes on", bank.begin("pay", 30).results, [100])
        tally.is_same("the new program", client.Client(room.stores, client=2, first=1).begin("look").results, [70])
        client.Client(room.stores).shut()
        tally.is_same("its end", service.end()[2], 0)


def test_other_order(tally, program, room):
    """By a set with its programs in another order a request begins another program: by the folder it can't."""
    turned = room.file("turned", TURNED)
    with Service(program, room) as service:
        tally.is_same("seed", client.Client(room.stores, client=1, first=1).begin("seed", 100).results, [])
        tally.is_same("by the folder", client.Client(room.stores, client=2, first=1).begin("pay", 30).named, {"x": 100})
        tally.is_same("at the port, another program", client.Client(service.port, turned, client=3, first=1).begin("seed", 5).results, [70])
        tally.holds("it is told apart", not client.extends(PAYMENT, TURNED) and not client.extends(TURNED, PAYMENT))
        client.Client(room.stores).shut()
        service.end()
    with open(os.path.join(room.stores, "service"), "w", encoding="ascii") as file:
        file.write("listening\n")
    tally.is_same("a file that tells nothing", end_of([program, "ask", room.stores], "quit\n"), ("", "lynx: no service\n", 4))


def test_replaced(tally, program):
    """A client that goes by the folder doesn't go on with a service of another set."""
    with Room(PAYMENT) as room, Room(TURNED) as other:
        with Service(program, room) as service:
            bank = client.Client(room.stores, client=1, first=1, tries=40)
            bank.begin("seed", 100)
            client.Client(room.stores).shut()
            service.end()
        shutil.rmtree(room.stores)
        os.mkdir(room.stores)
        room.set = other.set
        with Service(program, room) as service:
            try:
                bank.begin("pay", 30)
                tally.holds("another set", False)
            except client.OtherSet as fault:
                tally.is_same("another set", (fault.reason, fault.number), ("other-set", 2))
            client.Client(room.stores).shut()
            tally.is_same("nothing ran", service.end(), ("closed\norder -\n", "", 0))
