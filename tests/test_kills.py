"""A service that is killed again and again while sixteen clients pay, and one whose machine loses its power. After each end the
service is started over the same stores, each third time with a transaction for each step, the clients ask again for what they have
no answer to, and in the end every answer that was ever told stands, each payment was made once, and no money is lost. A loss of
power leaves what was synced, and some of the sectors that were written since (tests/lose.c). `--times 10` makes ten times as many
kills and losses."""
import os
import random
import subprocess
import threading
import time

import pytest
from serving import PAYMENT, TOP, Room, Service, end_of, free_port
import lynx

CLIENTS = 16
KILLS, LOSSES = 50, 30


class Payer:
    """A client that pays one after the other, and writes down what it is told."""

    def __init__(self, room, port, client):
        self.bank = lynx.Client(port, room.set, client=client, first=1, timeout=10, tries=400)
        self.told, self.failed, self.stop = {}, None, False
        self.thread = threading.Thread(target=self.run)

    def run(self):
        chance = random.Random(self.bank.client)
        try:
            for number in range(1, 100_000):
                if self.stop:
                    return
                amount = chance.randrange(1, 5)
                self.told[number] = (amount, self.bank.begin("pay", amount, number=number))
        except Exception as fault:  # noqa: BLE001
            self.failed = repr(fault)


def stands(room, port, payer, tally):
    """What was told is told again, but for `again`."""
    with lynx.Client(port, room.set, client=payer.bank.client, first=1) as bank:
        for number, (amount, answer) in payer.told.items():
            found = bank.begin("pay", amount, number=number)
            if (found.chain, found.stamp, found.results, found.again) != (answer.chain, answer.stamp, answer.results, True):
                tally.is_same(f"answer {number} of client {payer.bank.client}", found, answer)
                return
        tally.holds("answers stand", payer.told)


def kill(service, chance):
    """Lets clients pay for a while, and kills the service."""
    time.sleep(0.05 + chance.random() * 0.3)
    service.kill()
    return "killed"


def lose(service, _):
    """Waits until the service has lost its power."""
    try:
        service.ran.wait(30)
    except subprocess.TimeoutExpired:
        return "not lost"
    finally:
        service.kill()
    return "killed" if service.ran.returncode == -9 else f"status {service.ran.returncode}"


class Power:
    """What has a service lose its power at a sync by chance."""

    def __init__(self, room):
        self.library, self.stores = os.path.join(room.path, "lose.so"), room.stores
        source = os.path.join(TOP, "tests", "lose.c")
        subprocess.run(["gcc", "-O2", "-shared", "-fPIC", "-o", self.library, source, "-ldl", "-lpthread"], check=True)

    def env(self, chance):
        return dict(os.environ, LD_PRELOAD=self.library, LYNX_LOSES=self.stores, LYNX_LOSE_AT=str(chance.randrange(1, 400)),
                    LYNX_CHANCE=str(chance.randrange(1 << 30)))


def audit(tally, program, room, service, paid):
    """The service ends well, and the stores have what was paid."""
    with lynx.Client(service.port, room.set, client=98, first=1) as bank:
        last = max(paid, key=lambda chain: chain.index)
        tally.holds("the last payment arrives", bank.look(last, 1, wait=60))
        bank.shut()
    out, err, status = service.end()
    tally.is_same("the audit", (out[:13], err, status), ("closed\norder ", "", 0))
    moved = sum(paid.values())
    for server, cell in ((0, f"cell acct 0 {1_000_000_000 - moved}"), (1, f"cell acct 1000 {moved}")):
        listing = end_of([program, "show", room.store(server)])[0].split("\n")
        tally.is_same(f"cell at server {server}", [line for line in listing if line.startswith("cell ")], [cell])


def pay_through(tally, program, name, ends, end):
    """Sixteen clients pay while the service ends so many times."""
    chance = random.Random(5)
    with Room(PAYMENT) as room:
        port, power = free_port(), Power(room)

        def started(at):
            env = power.env(chance) if end is lose and 0 < at < ends else None
            return Service(program, room, port, env=env, words=["--sync-each"] if at % 3 == 2 else [])

        service = started(0)
        with lynx.Client(port, room.set, client=99, first=1) as bank:
            bank.begin("seed", 1_000_000_000)
        payers = [Payer(room, port, client) for client in range(1, CLIENTS + 1)]
        for payer in payers:
            payer.thread.start()
        for at in range(1, ends + 1):
            ended = end(service, chance) if at > 1 or end is kill else kill(service, chance)
            service = started(at)
            listening = f"listening 127.0.0.1:{port}\n"
            first = service.first or (listening if end is lose else "")  # it may be lost before it listens
            tally.is_same(f"listening again after {name} {at}", (ended, first), ("killed", listening))
        time.sleep(0.3)
        for payer in payers:
            payer.stop = True
        for payer in payers:
            payer.thread.join()
            tally.is_same(f"client {payer.bank.client} goes on", payer.failed, None)
            payer.bank.close()
            stands(room, port, payer, tally)
        paid = {answer.chain: amount for payer in payers for amount, answer in payer.told.values()}
        tally.is_same("each chain once", len(paid), sum(len(payer.told) for payer in payers))
        tally.holds("payments are made between them", len(paid) > ends)
        audit(tally, program, room, service, paid)
        print(f"({ends} {name}, {len(paid)} payments)")


@pytest.mark.alone
def test_kills(tally, program, pytestconfig):
    """What was told stands over kills at random moments."""
    pay_through(tally, program, "kills", KILLS * pytestconfig.getoption("--times"), kill)


@pytest.mark.alone
def test_losses(tally, program, pytestconfig):
    """What was told stands over losses of power."""
    pay_through(tally, program, "losses of power", LOSSES * pytestconfig.getoption("--times"), lose)
