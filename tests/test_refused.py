"""The program where one growth of its memory is refused, one after another, and calls of the crates, made by
crates/lynx_growths. Of check, draw and run each growth is refused, of show and upgrade each 7th, of a service each 131st (with
`--times 10` each 13th), and of a call each. A refused growth is told by `out of memory` and its status, or as a fault of the store,
and what was printed before is a front of what is printed else; or it made no difference. A service whose client is answered that
memory is wanting, or that loses its connection, does what it is asked again. A call that was refused a growth answers that memory is
wanting, leaves all as it was, and is done when it is made again. `-rP` tells how many growths each command and call met."""
import os
import shutil
import subprocess
import tempfile

import pytest
from serving import PAYMENT, TOP, Room, Service, end_of
import lynx

EXAMPLES = os.path.join(TOP, "examples")

# Of a service each growth is refused whose number is a multiple of this.
STEP = 131

# calls that may want memory, and take none on the values that they are made on
TAKE_NONE = {"footprint", "touches", "Server::deliver of a later one"}


class Refusals:
    """The library that refuses, and a folder for what it tells."""

    def __enter__(self):
        self.room = tempfile.mkdtemp(prefix="lynx-refused-")
        self.library = os.path.join(self.room, "refuse.so")
        source = os.path.join(TOP, "tests", "refuse.c")
        subprocess.run(["gcc", "-O2", "-shared", "-fPIC", "-o", self.library, source], check=True)
        self.told = os.path.join(self.room, "told")
        return self

    def __exit__(self, *_):
        shutil.rmtree(self.room, ignore_errors=True)

    def words(self, number):
        """What the environment of a program has in which that growth is refused."""
        if os.path.exists(self.told):
            os.remove(self.told)
        return dict(os.environ, LD_PRELOAD=self.library, LYNX_REFUSED=str(number), LYNX_TOLD=self.told)

    def has_come(self):
        return os.path.exists(self.told)


def is_front(got, whole):
    """Whether what a program printed is what it owes where a growth was refused."""
    out, err, status = got
    if got == whole:
        return True
    faults = {3: ("lynx: out of memory\n",), 4: ("lynx: store: store\n",)}
    return err in faults.get(status, ()) and whole[0].startswith(out)


def commands(room):
    """The commands that end by themselves: a name, words, each how-many-th growth is refused, and what makes anew what they
    change."""
    worked = os.path.join(room, "worked.lynx")
    store = os.path.join(room, "store.lynx")

    def fresh():
        for part in ("", "-wal"):
            if os.path.exists(store + part):
                os.remove(store + part)
            if os.path.exists(worked + part):
                shutil.copyfile(worked + part, store + part)

    bank = os.path.join(EXAMPLES, "bank")
    return [
        ("check", ["check", os.path.join(bank, "bank.set")], 1, None),
        ("check of one that offends", ["check", os.path.join(bank, "first.set")], 1, None),
        ("draw", ["draw", os.path.join(EXAMPLES, "payment.set")], 1, None),
        ("draw of a run", ["draw", os.path.join(bank, "bank.set"), os.path.join(bank, "day.script")], 1, None),
        ("run", ["run", os.path.join(bank, "bank.set"), os.path.join(bank, "day.script")], 1, None),
        ("run --checked --owed", ["run", "--checked", "--owed", os.path.join(EXAMPLES, "payment.set"),
                                  os.path.join(EXAMPLES, "payment.script")], 1, None),
        ("show", ["show", worked], 7, None),
        ("upgrade", ["upgrade", store], 7, fresh),
    ]


def make_store(program, to):
    """The store of server 0 after the worked payment, in that file."""
    with Room(PAYMENT) as room:
        with Service(program, room) as service:
            bank = lynx.Client(service.port, room.set, client=1, first=1)
            bank.begin("seed", 100, number=1)
            bank.begin("pay", 30, number=2)
            bank.shut()
            service.end()
        for part in ("", "-wal"):
            if os.path.exists(room.store(0) + part):
                shutil.copyfile(room.store(0) + part, to + part)


def refuse_all(tally, refusals, program, name, words, step, fresh):
    """Runs a command with each step-th of its growths refused, one after another."""
    if fresh:
        fresh()
    whole = end_of([program, *words])
    number, count, wrong = 0, 0, []
    while len(wrong) < 3:
        number += step
        if fresh:
            fresh()
        got = end_of([program, *words], env=refusals.words(number))
        if not refusals.has_come():
            break
        if not is_front(got, whole):
            wrong.append((number, got))
        if fresh and not goes_on(program, words, got, whole):
            wrong.append((number, "not upgraded once"))
        count += 1
    tally.is_same(f"{name} with a growth refused", wrong, [])
    tally.is_same(f"{name} with none refused", got, whole)
    print(f"{name}: {count} of {number - 1} growths", flush=True)


def goes_on(program, words, got, whole):
    """Whether an upgrade that was refused a growth is done by the next, or was done."""
    again = end_of([program, *words])
    return again == (("", "lynx: store: other-version\n", 4) if got[2] == 0 else whole) or (
        got[2] == 4 and again == ("", "lynx: store: other-version\n", 4))


def asked(bank, asks, tries=20):
    """What a question is answered in the end, asked again where memory was wanting or the connection was lost; None where its
    server stopped, or the service ended."""
    for _ in range(tries):
        try:
            return asks(bank)
        except (lynx.Wanting, lynx.Lost):
            continue
        except lynx.Stopped:
            return None
    return None


def pay(bank):
    """The seed and the payment under their numbers, and the payment's last hop: what was answered of each."""
    first = asked(bank, lambda it: it.begin("seed", 100, number=1))
    second = asked(bank, lambda it: it.begin("pay", 30, number=2)) if first else None
    found = asked(bank, lambda it: it.look(second.chain, 1, wait=10)) if second else None
    return first, second, found


def agree(early, late):
    """Whether what was answered early stands later: the same chain, stamp and results."""
    return early is None or (early.stamp, early.results) == (late.stamp, late.results)


def serve_once(refusals, program, number):
    """A service in which that growth is refused, and one over the same stores in which none is: what is wrong, or None."""
    early = None, None, None
    with Room(PAYMENT) as room:
        with Service(program, room, env=refusals.words(number)) as service:
            if service.first == f"listening 127.0.0.1:{service.port}\n":
                bank = lynx.Client(service.port, room.set, client=1, first=1, timeout=10, tries=3)
                early = pay(bank)
                asked(bank, lambda it: it.shut())
            out, err, status = service.end()
        if (status, err) != (0, "") and (status not in (3, 4) or not err.startswith("lynx: ") or err.count("\n") != 1):
            return "end", out, err, status
        with Service(program, room) as service:
            late = pay(lynx.Client(service.port, room.set, client=1, first=1))
            lynx.Client(service.port, room.set, client=1, first=1).shut()
            ended = service.end()
        if ended != ("closed\norder 0:0 0:1\n", "", 0):
            return "again", ended
        return None if all(agree(*pair) for pair in zip(early, late)) else ("answers", early, late)


def serve_all(tally, refusals, program, step):
    """Services with a growth refused, until one comes to its end before it."""
    number, count, wrong = 0, 0, []
    while len(wrong) < 3:
        number += step
        fault = serve_once(refusals, program, number)
        if fault:
            wrong.append((number, fault))
        if not refusals.has_come():
            break
        count += 1
    tally.is_same("services with a growth refused", wrong, [])
    tally.holds("services were refused growths", count > 0)
    print(f"serve: {count} of {number - step} growths", flush=True)


def refuse_call(tally, refusals, growths, name):
    """Makes a call with each growth of its program refused, and gives how many the call met. Those before the call and after it
    end the program with status 3."""
    number, met, wrong = 0, 0, []
    while len(wrong) < 3:
        number += 1
        got = end_of([growths, name], env=refusals.words(number))
        if not refusals.has_come():
            break
        if got == ("refused, then done\n", "", 0):
            met += 1
        elif got not in (("", "", 3), ("done\n", "", 0)):
            wrong.append((number, got))
    tally.is_same(f"{name} with a growth refused", wrong, [])
    tally.is_same(f"{name} with none refused", got, ("done\n", "", 0))
    print(f"{name}: {met} growths", flush=True)
    return met


@pytest.fixture
def refusals(program):
    """The library that refuses, and a store to be shown and upgraded."""
    with Refusals() as made:
        make_store(program, os.path.join(made.room, "worked.lynx"))
        yield made


@pytest.mark.parametrize("at", range(len(commands(""))), ids=[name for name, *_ in commands("")])
def test_commands(tally, program, refusals, at):
    name, command, each, fresh = commands(refusals.room)[at]
    refuse_all(tally, refusals, program, name, command, each, fresh)


def test_services(tally, program, refusals, pytestconfig):
    serve_all(tally, refusals, program, max(1, STEP // pytestconfig.getoption("--times")))


def test_calls(tally, growths, refusals):
    names = end_of([growths])[0].splitlines()
    met = {name: refuse_call(tally, refusals, growths, name) for name in names}
    tally.is_same("calls that met no growth", {name for name in met if not met[name]}, TAKE_NONE)
    tally.holds("calls were refused growths", sum(met.values()) > 500)
