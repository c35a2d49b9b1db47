"""What tests of the built program share: the payment set, counts of tests, and a service under test, `lynx serve` over a fresh
folder."""
import contextlib
import functools
import importlib.machinery
import importlib.util
import itertools
import os
import re
import shutil
import socket
import struct
import subprocess
import sys
import tempfile
import time
import urllib.request

TOP = os.path.dirname(os.path.dirname(os.path.abspath(__file__)))
sys.dont_write_bytecode = True
sys.path.insert(0, os.path.join(TOP, "clients", "python"))


with open(os.path.join(TOP, "examples", "payment.set"), encoding="ascii") as file:
    PAYMENT = file.read()


class Tally:
    """How many tests passed, and how many failed."""

    def __init__(self):
        self.passed = self.failed = 0

    def is_same(self, name, got, wanted):
        """Counts a test, and prints what differs."""
        if got == wanted:
            self.passed += 1
        else:
            self.failed += 1
            print(f"== {name}\n-- got: {got!r}\n-- wanted: {wanted!r}")

    def holds(self, name, fact):
        self.is_same(name, bool(fact), True)

    def finds(self, tool):
        """Where a program is installed; where it isn't, that is counted as a failure, and None."""
        found = shutil.which(tool)
        if not found:
            self.failed += 1
            print(f"== {tool} isn't installed: tests/setup installs it")
        return found

    def end(self):
        """The last line, and the status."""
        print(f"{self.passed} passed, {self.failed} failed")
        return 1 if self.failed or not self.passed else 0


def program(words):
    """The built program: the first word, or that which `rt run` leaves."""
    found = words[0] if words else os.path.join(TOP, "crates", "lynx", "out", "lynx")
    if not os.path.isfile(found):
        sys.exit(f"there is no {found}: 'rt ci', or 'rt run' in crates/lynx, builds it")
    return os.path.abspath(found)


def script(name):
    """A script of tests/ as a module."""
    loader = importlib.machinery.SourceFileLoader(name, os.path.join(TOP, "tests", name))
    made = importlib.util.module_from_spec(importlib.util.spec_from_loader(name, loader))
    loader.exec_module(made)
    return made


# Ports below those that the system gives to clients, as /proc/sys/net/ipv4/ip_local_port_range has it.
FIRST_PORT, PORTS = 12000, 20000


@functools.cache
def own_ports():
    """The ports of this process, in turn: each worker of pytest has a part of them."""
    worker, workers = int(os.environ.get("PYTEST_XDIST_WORKER", "gw0")[2:]), int(os.environ.get("PYTEST_XDIST_WORKER_COUNT", "1"))
    share = PORTS // workers
    first, begin = FIRST_PORT + worker * share, os.getpid() * 7 % share
    return itertools.cycle([*range(first + begin, first + share), *range(first, first + begin)])


def free_port():
    """A port that nobody listens at just now, that no other worker of pytest is given, and that no client's connection takes."""
    for port in own_ports():
        with socket.socket() as found, contextlib.suppress(OSError):
            found.bind(("127.0.0.1", port))
            return port
    raise AssertionError("the ports of this process have an end")


def end_of(words, given="", **how):
    """What a program prints, and its status."""
    ran = subprocess.run(words, input=given, capture_output=True, text=True, timeout=120, **how)
    return ran.stdout, ran.stderr, ran.returncode


def bound_by_modes():
    """Words before those of a program by which the modes of files bind it, though this user be root."""
    return [] if os.geteuid() else ["setpriv", "--bounding-set=-dac_override,-dac_read_search"]


class Room:
    """A fresh folder, with a set's text in `set`."""

    def __init__(self, set_text):
        self.path = tempfile.mkdtemp(prefix="lynx-serving-")
        self.set_text = set_text
        self.set = self.file("set", set_text)
        self.stores = os.path.join(self.path, "stores")
        os.mkdir(self.stores)

    def file(self, name, text):
        path = os.path.join(self.path, name)
        with open(path, "w", encoding="utf-8") as file:
            file.write(text)
        return path

    def store(self, server):
        return os.path.join(self.stores, f"server-{server}.lynx")

    def __enter__(self):
        return self

    def __exit__(self, *_):
        shutil.rmtree(self.path, ignore_errors=True)


class Service:
    """A running service over the stores of a room."""

    def __init__(self, lynx, room, port=None, env=None, words=()):
        self.port = port or free_port()
        self.ran = subprocess.Popen([lynx, "serve", room.set, room.stores, str(self.port), *words], stdin=subprocess.DEVNULL,
                                    stdout=subprocess.PIPE, stderr=subprocess.PIPE, text=True, env=env)
        self.first = self.ran.stdout.readline()

    def __enter__(self):
        return self

    def __exit__(self, fault, *_):
        if self.ran.poll() is None:
            self.ran.kill()
        out, err = self.ran.communicate()
        if fault:  # pytest shows it below a test that failed
            print(f"the service said: {self.first!r} {out!r} {err!r}, status {self.ran.returncode}")

    def kill(self):
        self.ran.kill()
        self.ran.communicate()

    def end(self, within=60):
        """What it prints from `listening` on, and its status, once it has ended by itself."""
        try:
            out, err = self.ran.communicate(timeout=within)
        except subprocess.TimeoutExpired:
            self.kill()
            return "not ended", "", None
        return out, err, self.ran.returncode

    def connect(self, timeout=30.0):
        return Line(self.port, timeout)


class WatchedService(Service):
    """A service that tells its status."""

    def __init__(self, lynx, room, *words, env=None):
        self.status = free_port()
        super().__init__(lynx, room, env=env, words=("--status", str(self.status), *words))
        self.second = self.ran.stdout.readline()


class Strain:
    """The disk and the clock of programs that run in the environment `env`: what the test says of them holds from then on. `hold` is a
    part of the paths of files whose syncs wait, `slow` of those whose syncs take `millis` longer, `fail` of those whose syncs fail,
    and `ahead` are the seconds by which the clock is ahead (tests/strain.c)."""

    def __init__(self, room):
        self.folder, library = (os.path.join(room.path, name) for name in ("strain", "strain.so"))
        os.mkdir(self.folder)
        subprocess.run(["gcc", "-O2", "-shared", "-fPIC", "-o", library, os.path.join(TOP, "tests", "strain.c"), "-ldl"], check=True)
        self.env = dict(os.environ, LD_PRELOAD=library, LYNX_STRAINS=self.folder)

    def set(self, **told):
        for name, text in told.items():
            path = os.path.join(self.folder, name)
            with open(path + ".new", "w", encoding="ascii") as file:
                file.write(str(text))
            os.rename(path + ".new", path)

    def clear(self, *names):
        for name in names:
            os.remove(os.path.join(self.folder, name))


class Line:
    """A connection, by its bytes."""

    def __init__(self, port, timeout=30.0):
        self.socket = socket.create_connection(("127.0.0.1", port), timeout)
        self.socket.setsockopt(socket.IPPROTO_TCP, socket.TCP_NODELAY, 1)

    def __enter__(self):
        return self

    def __exit__(self, *_):
        self.socket.close()

    def send(self, data):
        self.socket.sendall(data)

    def item(self):
        """The next item's bytes, fewer where the connection ends."""
        head = self.take(5)
        return head if len(head) < 5 else head + self.take(struct.unpack(">BI", head)[1])

    def take(self, count):
        data = b""
        while len(data) < count:
            try:
                piece = self.socket.recv(count - len(data))
            except ConnectionError:
                break
            if not piece:
                break
            data += piece
        return data

    def rest(self):
        """All bytes until the service ends the connection."""
        return self.take(1 << 30)


def pays(client, count):
    """The bytes of so many payments of 1, under the numbers from 1 on."""
    return b"".join(struct.pack(">BIQQBBQ", 1, 26, client, number, 1, 1, 1) for number in range(1, count + 1))


def files(folder):
    """The bytes of each file of a folder."""
    found = {}
    for name in sorted(os.listdir(folder)):
        with open(os.path.join(folder, name), "rb") as file:
            found[name] = file.read()
    return found


def stored(lynx, room, text, folder=None):
    """Runs a script over the stores of the room, or over those of another folder."""
    return end_of([lynx, "run", "--stores", folder or room.stores, room.set, room.file("script", text)])


def wait_until(fact, within=30.0):
    """Whether the fact came to hold in time."""
    until = time.monotonic() + within
    while not fact():
        if time.monotonic() > until:
            return False
        time.sleep(0.01)
    return True


def owed(service):
    """How many hops the service tells to be owed."""
    with urllib.request.urlopen(f"http://127.0.0.1:{service.status}/metrics", timeout=10) as page:
        return sum(int(count) for count in re.findall(r"(?m)^lynx_owed_hops\{[^}]*\} (\d+)$", page.read().decode()))
