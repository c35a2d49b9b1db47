"""The payments of the example, and the store behind them."""
import ctypes
import hashlib
import os
import signal
import socket
import subprocess
import sys
import threading
import time

HERE = os.path.dirname(os.path.abspath(__file__))
TOP = os.path.dirname(os.path.dirname(HERE))
sys.path.insert(0, os.path.join(TOP, "clients", "python"))
import lynx  # noqa: E402

LIBC = ctypes.CDLL(None)

# What prctl calls the signal that a process gets when the thread that began it ends.
PARENT_DEATH_SIGNAL = 1

# Accounts below 1000 are at server 0, those below 2000 at server 1, the others at server 2.
ACCOUNTS = {"ada": 0, "cyd": 1, "bob": 1000, "dan": 1001, "eve": 2000, "fay": 2001}

OPENED_WITH = 1000

# Requests of this service have this client's id; their numbers come from the keys of those who ask.
CLIENT = 1

RECENT = 20

SLOW_SECONDS = 4

AUDIT_SECONDS = 0.5


def number_of(key):
    """The request number of an idempotency key: the same for the same key, also after a restart."""
    return int.from_bytes(hashlib.sha256(key.encode()).digest()[:8], "big")


def server_of(name):
    return min(ACCOUNTS[name] // 1000, 2)


def free_port():
    with socket.socket() as found:
        found.bind(("127.0.0.1", 0))
        return found.getsockname()[1]


class Store:
    """`lynx serve` over a folder. It is begun again where it is killed, and dies with this process."""

    def __init__(self, program, folder):
        self.words = [program, "serve", os.path.join(HERE, "bank.set"), folder]
        self.ends, self.starts, self.lines = False, 0, []
        self.begin()

    def begin(self):
        port, self.status = free_port(), free_port()
        self.process = subprocess.Popen([*self.words, str(port), "--status", str(self.status)], stdin=subprocess.DEVNULL, stdout=subprocess.PIPE, text=True,
                                        start_new_session=True, preexec_fn=lambda: LIBC.prctl(PARENT_DEATH_SIGNAL, signal.SIGKILL))
        if not self.process.stdout.readline().startswith("listening "):
            sys.exit(self.process.wait())
        self.process.stdout.readline()
        self.starts += 1

    def watch(self):
        """Reads what it says in its end, and begins it again until all is to end."""
        while True:
            self.lines = self.process.stdout.read().splitlines()
            self.process.wait()
            if self.ends:
                return
            self.begin()


class Deaf(lynx.Client):
    """A client that asks, and hangs up before it is answered."""

    def _answer(self, wanted):
        raise ConnectionError("it hung up")


class Bank:
    """The payments of this service, by a client of Lynx that its threads take turns with."""

    def __init__(self, store, folder):
        self.store, self.folder, self.lock = store, folder, threading.Lock()
        self.client = lynx.Client(folder, client=CLIENT, tries=12)
        self.chains, self.is_slow, self.order, self.is_new = {}, False, "", True
        self.accounts = {name: {"server": server_of(name), "may_spend": None, "has": None} for name in ACCOUNTS}
        for name in ACCOUNTS:
            self.move("deposit", {"to": name, "amount": OPENED_WITH}, f"open {name}")

    def begin(self, program, args, number, what, loses=False):
        """Begins a chain. One who `loses` the answer goes before it comes, and asks again under the same number."""
        with self.lock:
            if loses:
                try:
                    Deaf(self.folder, client=CLIENT, tries=1).begin(program, *args, number=number)
                except lynx.Lost:
                    time.sleep(0.2)
            answer = self.client.begin(program, *args, number=number)
            if isinstance(answer, lynx.Begun) and answer.chain not in self.chains:
                self.is_new = self.is_new or program != "audit"
                self.chains[answer.chain] = {
                    "chain": str(answer.chain), "what": what, "program": program, "since": time.monotonic(),
                    "hops": [{"server": 0, "stamp": answer.stamp, "results": answer.results}] +
                            [{"server": server, "stamp": None, "results": None} for server in self.servers_of(program)[1:]]}
            return answer

    def servers_of(self, program):
        """The servers of a program's hops."""
        lines = self.client.set_text.partition(f"\nprogram {program}")[2].partition("\nend")[0].split("\n")
        return [int(line[4:]) for line in lines if line.startswith("hop ")]

    def follow(self):
        """Looks for the hops that are still owed, and audits the accounts once anything is new."""
        audited = 0.0
        while not self.store.ends:
            time.sleep(0.05)
            try:
                if self.is_new and time.monotonic() - audited > AUDIT_SECONDS:
                    self.is_new, audited = False, time.monotonic()
                    self.begin("audit", [], time.time_ns(), "an audit")
                with self.lock:
                    for chain in list(self.chains):
                        self.look(chain, self.chains[chain])
                    old = [chain for chain, it in self.chains.items() if all(hop["stamp"] for hop in it["hops"])]
                    for chain in old[:-RECENT]:
                        del self.chains[chain]
            except (lynx.LynxError, OSError):
                pass

    def look(self, chain, known):
        """Looks whether hops of the chain are done. Slow links are this wait, and nothing of the store."""
        for at, hop in enumerate(known["hops"]):
            if hop["stamp"] is None and time.monotonic() - known["since"] > SLOW_SECONDS * at * self.is_slow:
                found = self.client.look(chain, at)
                if found:
                    hop["stamp"], hop["results"] = found.stamp, found.results

    def move(self, kind, given, key):
        """A deposit or a payment."""
        to, amount = given["to"], given["amount"]
        if kind == "deposit":
            return self.begin(f"deposit{server_of(to)}", [ACCOUNTS[to], amount], number_of(key), f"{to} pays in {amount}")
        source = given["from"]
        return self.begin(f"send{server_of(source)}{server_of(to)}", [ACCOUNTS[source], ACCOUNTS[to], amount], number_of(key),
                          f"{source} pays {to} {amount}", given.get("lose") is True)

    def read(self):
        """Reads what each account may spend and has, which takes no entry; what was read last, where the store is away."""
        for name, key in ACCOUNTS.items():
            try:
                self.accounts[name].update(may_spend=self.client.read("funds", key), has=self.client.read("acct", key))
            except (lynx.LynxError, OSError):
                return

    def state(self):
        """All that the page shows: what each account may spend and has; their sum, which an audit tells since it is of three servers;
        the latest chains."""
        with self.lock:
            self.read()
            accounts = {name: dict(known) for name, known in self.accounts.items()}
            audits = [it for it in self.chains.values() if it["program"] == "audit"]
            whole = [it for it in audits if all(hop["stamp"] for hop in it["hops"])][-1:]
            total = sum(sum(hop["results"][-2:]) for hop in whole[0]["hops"]) if whole else None
            chains = [{name: it[name] for name in ("chain", "what", "hops")} for it in list(self.chains.values())[::-1][:RECENT]]
            return {"accounts": accounts, "sum": total, "by": whole[0]["chain"] if whole else None, "slow": self.is_slow,
                    "starts": self.store.starts, "order": self.order, "chains": chains}

    def shut(self):
        """Has the store end. A look comes first, since over a connection that is lost the answer would be lost too."""
        self.client.look("0:0", 0)
        self.client.shut()

    def end(self):
        """Has the store end for good."""
        with self.lock:
            self.store.ends = True
            try:
                self.shut()
            except lynx.LynxError:
                # It was killed just now, and isn't begun again.
                pass

    def audit(self):
        """Ends the store, whose end checks all that it told, and gives what it says; it is begun again."""
        with self.lock:
            starts = self.store.starts
            self.shut()
            while self.store.starts == starts:
                time.sleep(0.01)
            self.order = " ".join(self.store.lines)
            return self.order
