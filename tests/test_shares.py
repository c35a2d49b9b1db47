"""How those share a server who wait for it. Over two servers in a ring sixteen connections begin chains as fast as they are
answered, and the other server's hops keep pace: little is owed when the last is answered, and nothing soon after. One
connection floods a server, and fifteen others each get their share. And the worked payment is answered alike whether steps
share a transaction of their store or have one each (`--sync-each`)."""
import struct
import threading
import time

import pytest
from serving import PAYMENT, Line, Room, Service, WatchedService, owed, wait_until
import lynx

RING = """lynx 1
servers 2
table t
shard 0 9 0
shard 10 18446744073709551615 1
program pay0
hop 0
add t 0 1
hop 1
add t 10 1
end
program pay1
hop 1
add t 10 1
hop 0
add t 0 1
end
"""
FLOODS, BEGINS, FLOODED = 16, 1_000, 20_000
BEGUN = b"\x00"  # the kind of an answer
SECONDS = 2.0


def request(client, number, kind):
    """The frame of a begin without arguments."""
    return struct.pack(">BIQQBB", 1, 18, client, number, kind, 0)


class Flood(threading.Thread):
    """A connection that sends all its begins, and then takes the answers."""

    def __init__(self, port, client, kind, count):
        super().__init__()
        self.line, self.count, self.begun = Line(port), count, 0
        self.sent = b"".join(request(client, number, kind) for number in range(1, count + 1))

    def run(self):
        sender = threading.Thread(target=self.line.send, args=(self.sent,))
        sender.start()
        with self.line:
            for _ in range(self.count):
                self.begun += self.line.item()[5:6] == BEGUN
        sender.join()


class Caller(threading.Thread):
    """A client that begins one chain after the other for a while."""

    def __init__(self, port, room, client):
        super().__init__()
        self.bank, self.begun = lynx.Client(port, room.set, client=client, first=1), 0

    def run(self):
        end = time.monotonic() + SECONDS
        with self.bank as bank:
            while time.monotonic() < end:
                self.begun += isinstance(bank.begin("pay0"), lynx.Begun)


@pytest.mark.alone
def test_keep_pace(tally, program):
    """Chains of a ring settle as fast as they begin."""
    with Room(RING) as room, WatchedService(program, room) as service:
        floods = [Flood(service.port, client, client % 2, BEGINS) for client in range(1, FLOODS + 1)]
        for flood in floods:
            flood.start()
        for flood in floods:
            flood.join()
        left = owed(service)
        tally.is_same("all begin", sum(flood.begun for flood in floods), FLOODS * BEGINS)
        tally.is_same(f"{left} hops are owed of {FLOODS * BEGINS}", left <= FLOODS * BEGINS // 10, True)
        tally.holds("all settle", wait_until(lambda: owed(service) == 0, 10))
        lynx.Client(service.port, room.set).shut()
        out, err, status = service.end()
        tally.is_same("the order of all", (out[:13], out.count(":"), err, status), ("closed\norder ", FLOODS * BEGINS, "", 0))


@pytest.mark.alone
def test_share(tally, program):
    """Who floods a server takes no share of others."""
    with Room(RING) as room, Service(program, room) as service:
        flood = Flood(service.port, 99, 0, FLOODED)
        flood.start()
        callers = [Caller(service.port, room, client) for client in range(1, 16)]
        for caller in callers:
            caller.start()
        for caller in callers:
            caller.join()
        counts = sorted(caller.begun for caller in callers)
        tally.is_same(f"shares {counts}", counts[0] * 4 >= sum(counts) // len(counts) > 0, True)
        flood.join()
        tally.is_same("the flood", flood.begun, FLOODED)
        lynx.Client(service.port, room.set).shut()
        tally.is_same("closed", service.end()[1:], ("", 0))


def test_pay_alike(tally, program):
    """The worked payment, with and without a transaction for each step."""
    for words in ([], ["--sync-each"]):
        with Room(PAYMENT) as room, Service(program, room, words=words) as service:
            with lynx.Client(service.port, room.set, client=1, first=1) as bank:
                seeded, paid = bank.begin("seed", 100), bank.begin("pay", 30)
                refused, again = bank.begin("pay", 1000), bank.begin("pay", 30, number=paid.number)
                found = bank.look(paid.chain, 1, wait=30)
                bank.shut()
            out, err, status = service.end()
            told = [(answer.stamp, answer.results) for answer in (seeded, paid, again)]
            tally.is_same(f"answers {words}", told, [(1, []), (2, [100]), (2, [100])])
            tally.is_same(f"refusal {words}", (type(refused), again.again), (lynx.Refused, True))
            tally.holds(f"the payment arrives {words}", found)
            tally.is_same(f"end {words}", (out, err, status), ("closed\norder 0:0 0:1\n", "", 0))
