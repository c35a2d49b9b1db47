"""Peers of a service at a port, under the load that tests/measure_port makes: C over libsqlite3 (tests/baselines/port.c), and
PostgreSQL and Redis where they are installed. Each begin adds a record and changes one account, and is answered once it is on the
disk. A peer is a context, and tells the begins a second and the microseconds within which 99 of 100 were answered."""
import glob
import os
import re
import shutil
import subprocess
import tempfile

from serving import TOP, Service, end_of, free_port
import lynx

ACCOUNTS = 1_000
TABLES = f"""
CREATE TABLE acct(k int PRIMARY KEY, v bigint NOT NULL);
INSERT INTO acct SELECT k, 0 FROM generate_series(1, {ACCOUNTS}) k;
CREATE TABLE entry(place bigserial PRIMARY KEY, k int NOT NULL, n bigint NOT NULL);
CREATE FUNCTION seed(which int, amount bigint) RETURNS bigint LANGUAGE plpgsql AS $$
DECLARE sum bigint;
BEGIN
  INSERT INTO entry(k, n) VALUES (which, amount);
  UPDATE acct SET v = v + amount WHERE k = which RETURNING v INTO sum;
  RETURN sum;
END $$;
"""
# A payment by two-phase commit: this database prepares its part, and asks the other one to commit its own before it does.
ACROSS = """
CREATE EXTENSION dblink;
CREATE PROCEDURE pay(which int, name text) LANGUAGE plpgsql AS $$
BEGIN
  PERFORM dblink_exec('other', 'BEGIN');
  PERFORM seed(which, -1);
  PERFORM * FROM dblink('other', format('SELECT seed(%s, 1)', which)) AS t(v bigint);
  PERFORM dblink_exec('other', format('PREPARE TRANSACTION %L', name));
END $$;
"""

# What a client does for a payment to the other database; it keeps its connection to that.
ACROSS_SCRIPT = """\\set k random(1, {accounts})
\\set n random(1, 1000000000000)
SELECT dblink_connect('other', 'host={path} port={port} user=postgres dbname=two') WHERE dblink_get_connections() IS NULL;
BEGIN;
CALL pay(:k, 'p:client_id-:n');
PREPARE TRANSACTION 'q:client_id';
SELECT dblink_exec('other', 'COMMIT PREPARED ''p:client_id-:n''');
COMMIT PREPARED 'q:client_id';
"""


class Peer:
    """What is measured, over a folder of its own."""

    def __init__(self, name, folder):
        self.name, self.path = name, tempfile.mkdtemp(prefix="lynx-peer-", dir=folder)
        os.chmod(self.path, 0o777)
        self.ran = None

    def __enter__(self):
        return self

    def __exit__(self, *_):
        if self.ran and self.ran.poll() is None:
            self.ran.terminate()
            self.ran.wait(60)
        shutil.rmtree(self.path, ignore_errors=True)

    def bench(self, bench, connections, in_flight, seconds):
        """The load of lynx_bench at the port."""
        load = [str(number) for number in (self.port, connections, in_flight, seconds)]
        out, err, status = end_of([bench, "port", *load])
        found = re.search(r"(\d+) a second, p50 \d+ us, p99 (\d+) us", out)
        if status or not found:
            raise SystemExit(f"{self.name}: {err or out}")
        return int(found[1]), int(found[2])


class Lynx(Peer):
    """`lynx serve`, with words of its own."""

    def __init__(self, built, bench, folder, words=()):
        super().__init__("lynx serve " + " ".join(words) if words else "lynx", folder)
        self.bench_program, self.words = bench, words
        self.set, self.stores = os.path.join(self.path, "set"), os.path.join(self.path, "stores")
        os.mkdir(self.stores)
        with open(self.set, "w", encoding="ascii") as file:
            file.write(end_of([bench, "set", "1"])[0])
        self.service = Service(built, self, words=words)
        self.port, self.ran = self.service.port, self.service.ran

    def __exit__(self, *_):
        lynx.Client(self.port, self.set).shut()
        self.service.end()
        super().__exit__()

    def load(self, connections, in_flight, seconds):
        return self.bench(self.bench_program, connections, in_flight, seconds)


class Sqlite(Peer):
    """The server in C over libsqlite3: a transaction for each begin, or for all that came since the last."""

    def __init__(self, built, bench, folder, shares):
        super().__init__("C, " + ("one transaction for all that came" if shares else "a transaction a begin"), folder)
        self.bench_program, self.port = bench, free_port()
        words = [built, self.path, str(self.port), "all" if shares else "each"]
        self.ran = subprocess.Popen(words, stdout=subprocess.PIPE, text=True)
        self.ran.stdout.readline()

    def load(self, connections, in_flight, seconds):
        return self.bench(self.bench_program, connections, in_flight, seconds)


def built_port(folder):
    """The server in C, compiled."""
    path, source = os.path.join(folder, "port"), os.path.join(TOP, "tests", "baselines", "port.c")
    subprocess.run(["cc", "-O2", "-o", path, source, "-lsqlite3"], check=True)
    return path


def postgres_folder():
    """Where PostgreSQL's programs are, or nothing."""
    found = sorted(glob.glob("/usr/lib/postgresql/*/bin/postgres"))
    return os.path.dirname(found[-1]) if found else None


class Postgres(Peer):
    """PostgreSQL with two databases; a begin is one call of a function, in one round trip."""

    def __init__(self, folder):
        super().__init__(f"PostgreSQL, {ACCOUNTS:,} accounts", folder)
        self.bin, self.port = postgres_folder(), free_port()
        self.data = os.path.join(self.path, "data")
        self.as_owner("initdb", "-D", self.data, "-A", "trust", "-U", "postgres")
        words = f"-p {self.port} -k {self.path} -c max_connections=300 -c max_prepared_transactions=300 -c shared_buffers=256MB"
        self.as_owner("pg_ctl", "-D", self.data, "-w", "-l", os.path.join(self.path, "log"), "-o", words, "start")
        for base in ("one", "two"):
            self.as_owner("createdb", "-p", str(self.port), "-h", self.path, "-U", "postgres", base)
            self.tell(base, TABLES)
        self.tell("one", ACROSS)

    def __exit__(self, *_):
        self.as_owner("pg_ctl", "-D", self.data, "-m", "immediate", "stop")
        super().__exit__()

    def as_owner(self, name, *words, **how):
        """Runs one of its programs, which root can't, and gives what it prints."""
        who = ["runuser", "-u", "postgres", "--"] if os.geteuid() == 0 else []
        ran = subprocess.run([*who, os.path.join(self.bin, name), *words], capture_output=True, text=True, cwd=self.path, **how)
        if ran.returncode:
            raise SystemExit(f"{name}: {ran.stderr}")
        return ran.stdout

    def tell(self, base, text):
        self.as_owner("psql", "-q", "-v", "ON_ERROR_STOP=1", "-p", str(self.port), "-h", self.path, "-U", "postgres", base, input=text)

    def pgbench(self, text, connections, seconds):
        """Transactions a second of a script, and the 99th of a hundred times."""
        script = os.path.join(self.path, "script")
        with open(script, "w", encoding="ascii") as file:
            file.write(text)
        for old in glob.glob(os.path.join(self.path, "times.*")):
            os.remove(old)
        out = self.as_owner("pgbench", "-n", "-h", self.path, "-p", str(self.port), "-U", "postgres", "-f", script, "-c", str(connections),
                            "-j", str(min(connections, 4)), "-T", str(seconds), "-l", "--log-prefix", os.path.join(self.path, "times"), "one")
        times = sorted(int(line.split()[2]) for name in glob.glob(os.path.join(self.path, "times.*")) for line in open(name, encoding="ascii"))
        return int(float(re.search(r"tps = ([\d.]+)", out)[1])), times[len(times) * 99 // 100]

    def load(self, connections, in_flight, seconds):
        if in_flight > 1:
            return None
        return self.pgbench(f"\\set k random(1, {ACCOUNTS})\nSELECT seed(:k, 1);\n", connections, seconds)

    def load_across(self, connections, seconds):
        """Payments to the other database, by two-phase commit."""
        return self.pgbench(ACROSS_SCRIPT.format(path=self.path, port=self.port, accounts=ACCOUNTS), connections, seconds)


class Redis(Peer):
    """Redis that syncs its log before it answers."""

    def __init__(self, folder):
        super().__init__("Redis, appendfsync always", folder)
        self.port = free_port()
        words = ["redis-server", "--port", str(self.port), "--dir", self.path, "--save", "", "--appendonly", "yes", "--appendfsync", "always"]
        self.ran = subprocess.Popen(words, stdout=subprocess.DEVNULL)
        while end_of(["redis-cli", "-p", str(self.port), "ping"])[0] != "PONG\n":
            pass

    def load(self, connections, in_flight, seconds):
        rate = self.benchmark(connections, in_flight, 2_000)[0]
        return self.benchmark(connections, in_flight, max(1_000, int(rate * seconds)))

    def benchmark(self, connections, in_flight, count):
        out = end_of(["redis-benchmark", "-p", str(self.port), "-c", str(connections), "-P", str(in_flight), "-n", str(count), "-r",
                      str(ACCOUNTS), "--csv", "incr", "acct:__rand_int__"])[0]
        row = out.strip().split("\n")[-1].replace('"', "").split(",")
        return int(float(row[1])), int(float(row[6]) * 1000)
