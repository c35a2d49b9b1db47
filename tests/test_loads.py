"""Loads that lynx_bench carries over clusters in memory, which audits each at its end: all payments begin, come to their ends, and
an order explains them, with what was paid in as the sum of all cells. And loads at a service over the set that it prints: the
service's order has as many chains as they say to have begun. And sixteen clients at a service of four servers, whose chains meet
by two ways: each is told Begun or Refused, and what was paid in is there. Words that ask for no load are refused."""
import random
import re
import threading

import pytest
from serving import Room, Service, end_of, free_port
import lynx

DONE = re.compile(r"begun (\d+) in \d+ ms, done \d+ ms, closed \d+ ms, explained \d+ ms, \d+ messages again: "
                  r"\d+ begins and \d+ chains a second\n")
BEGINS = 300
CALLED = re.compile(r"begins (\d+) in \d+ ms: \d+ a second, p50 (\d+) us, p99 (\d+) us, p99.9 (\d+) us\n")
UNCALLED = [["65536", "1", "1", "1"], ["1", "0", "1", "1"], ["1", "256", "1", "1"], ["1", "1", "0", "1"], ["1", "1", "65536", "1"],
            ["1", "1", "1", "x"], ["1", "1", "1", "1", "17"], ["1", "1", "1"]]
REFUSED = [["0", "1", "10"], ["17", "1", "10"], ["1", "0", "10"], ["1", "256", "10"], ["2", "2", "x"], ["2", "2", "10", "101"]]


PURSE = """program seed{0} n
hop {0}
add acct {0}000 n
end
program near{0} n
hop {0}
get x acct {0}000
need x >= n
sub acct {0}000 n
hop {2}
add acct {2}001 n
end
program far{0} n f
hop {0}
get x acct {0}000
let s n + f
need x >= s
sub acct {0}000 s
hop {1}
add acct {1}002 f
hop {2}
add acct {2}001 n
end
program tail{0}
hop {0}
get x acct {0}000
hop {2}
get y acct {2}001
end
"""


def purses():
    """Four servers, each with a purse that is filled there. From it is paid to two servers further, by a way of one hop and by one
    of two that leaves a fee between; a third program reads what came there. The last program reads at server 3, so that chains of
    two origins conflict."""
    text = "lynx 1\nservers 4\ntable acct\nshard 0 999 0\nshard 1000 1999 1\nshard 2000 2999 2\nshard 3000 18446744073709551615 3\n"
    text += "".join(PURSE.format(at, (at + 1) % 4, (at + 2) % 4) for at in range(4))
    return text.replace("acct 0000", "acct 0").replace("acct 0001", "acct 1").replace("acct 0002", "acct 2") \
        + "program peek\nhop 3\nget y acct 3001\nend\n"


class Payer(threading.Thread):
    """A client of the purses, which begins whatever comes, and waits for its chains in the end."""

    def __init__(self, port, room, client):
        super().__init__()
        self.bank = lynx.Client(port, room.set, client=client, first=1)
        self.begun = self.sure = self.paid = 0
        self.answers, self.settled = set(), False

    def run(self):
        chance = random.Random(self.bank.client)
        with self.bank as bank:
            for _ in range(BEGINS):
                amount, fee, at = chance.randrange(500), chance.randrange(10), chance.randrange(4)
                kind = chance.choice((f"seed{at}", f"near{at}", f"far{at}", f"tail{at}", "peek"))
                args = {"s": [amount], "n": [amount], "f": [amount, fee]}.get(kind[0], [])
                answer = bank.begin(kind, *args)
                self.answers.add(type(answer))
                self.sure += kind[0] in "stp"
                self.begun += isinstance(answer, lynx.Begun)
                self.paid += amount * (kind[0] == "s")
            self.settled = bank.settle(60)


def test_purses(tally, program):
    """Sixteen clients at once, whose chains meet by two ways."""
    with Room(purses()) as room, Service(program, room) as service:
        payers = [Payer(service.port, room, client) for client in range(1, 17)]
        for payer in payers:
            payer.start()
        for payer in payers:
            payer.join()
        lynx.Client(service.port, room.set).shut()
        out, err, status = service.end()
        cells = re.findall(r"(?m)^cell acct \d+ (\d+)$", "".join(end_of([program, "show", room.store(at)])[0] for at in range(4)))
    begun = sum(payer.begun for payer in payers)
    tally.is_same("answers", set.union(*(payer.answers for payer in payers)) <= {lynx.Begun, lynx.Refused}, True)
    tally.holds("who can't be refused begins", begun >= sum(payer.sure for payer in payers) > BEGINS)
    tally.holds("all chains end", all(payer.settled for payer in payers))
    tally.is_same("an order of them", (out[:13], out.count(":"), err, status), ("closed\norder ", begun, "", 0))
    tally.is_same("what was paid in", sum(map(int, cells)), sum(payer.paid for payer in payers))


def test_calls(tally, bench, program):
    """Loads at a service of two servers, one after another, and what it holds then; and at none."""
    begun = 0
    with Room(end_of([bench, "set", "2"])[0]) as room, Service(program, room) as service:
        for connections, in_flight in ((1, 1), (3, 1), (2, 40)):
            out, err, status = end_of([bench, "port", str(service.port), str(connections), str(in_flight), "1", "2"])
            found = CALLED.fullmatch(out)
            tally.is_same(f"port {connections} {in_flight}", (found is not None, err, status), (True, "", 0))
            begun += int(found[1]) if found else 0
            tally.holds("times rise", found and int(found[2]) <= int(found[3]) <= int(found[4]))
        lynx.Client(service.port, room.set).shut()
        out, _, status = service.end()
        tally.is_same("the chains of its order", (out[:13], out.count(":"), status), ("closed\norder ", begun, 0))
    out, err, status = end_of([bench, "port", str(free_port()), "1", "1", "1"])
    tally.is_same("no service", (out, err, status), ("", "lynx_bench: cannot connect\n", 4))


@pytest.mark.parametrize("across", [[], ["0"], ["10"], ["33"], ["100"]])
@pytest.mark.parametrize("servers, threads", [(1, 1), (1, 3), (2, 2), (4, 4), (5, 2), (16, 4)])
def test_clusters(bench, servers, threads, across):
    out, err, status = end_of([bench, "cluster", str(servers), str(threads), "1000", *across])
    found = DONE.fullmatch(out)
    assert (found and found[1], err, status) == ("1000", "", 0)


@pytest.mark.parametrize("work, words", [(work, words) for work, refused in (
    ("cluster", REFUSED), ("port", UNCALLED), ("set", [["0"], ["17"], ["x"]])) for words in refused])
def test_refused_words(bench, work, words):
    out, err, status = end_of([bench, work, *words])
    assert (out, err.startswith("error: "), status) == ("", True, 2)


def test_idle(bench):
    assert end_of([bench, "idle", "16", "1"]) == ("servers 16, idle for 1 s\n", "", 0)
