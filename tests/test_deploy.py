"""What deploy/ has to run a service by: the unit of systemd, the entry of a container, rules and a dashboard for what a service
tells, and the examples for nginx and logrotate. Each is tried by its own tool, and over a service that runs."""
import contextlib
import json
import os
import re
import shutil
import signal
import subprocess
import threading
import time
import urllib.error
import urllib.request

from serving import TOP, WatchedService, end_of, free_port, wait_until
import lynx

DEPLOY = os.path.join(TOP, "deploy")
EXPOSURE = 2.5

# What is put before programs, so that the unit and the script find `lynx`, and a `sleep` that counts and hardly sleeps.
SLEEP = "#!/bin/sh\necho >> {}\nexec /bin/sleep 0.02\n"


def text_of(*names):
    with open(os.path.join(DEPLOY, *names), encoding="utf-8") as file:
        return file.read()


def path_with(room, program):
    """A PATH that begins with a folder that has the program as `lynx`."""
    folder = os.path.join(room.path, "bin")
    os.mkdir(folder)
    os.symlink(program, os.path.join(folder, "lynx"))
    return dict(os.environ, PATH=f"{folder}:{os.environ['PATH']}:/usr/sbin:/sbin")


def first_words(ran):
    """The first words of the two lines that a service prints once it listens."""
    return [ran.stdout.readline().split(" ")[0] for _ in range(2)]


def order_in(room):
    """The order with which a service ended, as the file `order` beside its stores has it."""
    with open(os.path.join(room.stores, "order"), encoding="ascii") as file:
        return file.read()


def settings_of_unit():
    """The settings of the unit: each line by its word, lines that go on joined."""
    text = re.sub(r" *\\\n *", " ", text_of("systemd", "lynx@.service"))
    return dict(re.findall(r"^(\w+)=(.*)$", text, re.M))


def root_with_unit(program, folder):
    """A root with the program, the unit, and what the unit needs of a system."""
    units, binaries = os.path.join(folder, "usr/lib/systemd/system"), os.path.join(folder, "usr/bin")
    for it in (units, binaries):
        os.makedirs(it)
    shutil.copy(program, os.path.join(binaries, "lynx"))
    shutil.copy("/bin/sh", binaries)
    os.symlink("usr/bin", os.path.join(folder, "bin"))
    shutil.copy(os.path.join(DEPLOY, "systemd", "lynx@.service"), units)
    for system in ("/usr/lib/systemd/system", "/lib/systemd/system"):
        for name in ("sysinit", "basic", "multi-user", "shutdown", "local-fs", "sockets", "paths", "timers", "slices"):
            if os.path.exists(f"{system}/{name}.target"):
                shutil.copy(f"{system}/{name}.target", units)
    return folder


def test_unit(tally, program, tmp_path):
    """systemd reads the unit without a word, and finds little that it leaves open."""
    root = root_with_unit(program, str(tmp_path / "root"))
    verify = ["systemd-analyze", "verify", f"--root={root}", "--man=no", "lynx@bank.service"]
    tally.is_same("verify", end_of(verify), ("", "", 0))
    told = end_of(["systemd-analyze", "security", "--offline=true", f"--root={root}", f"--threshold={int(EXPOSURE * 10)}",
                   "--no-pager", "lynx@bank.service"])
    found = re.search(r"Overall exposure level for lynx@bank.service: ([\d.]+)", told[0])
    print(found and found[0])
    tally.holds("exposure", found and float(found[1]) <= EXPOSURE and told[2] == 0)
    unit = settings_of_unit()
    tally.is_same("kind, user", (unit["Type"], unit["User"]), ("exec", "lynx"))
    os.makedirs(os.path.join(root, "usr/lib/systemd/system/lynx@bank.service.d"))
    shutil.copy(os.path.join(DEPLOY, "systemd", "copy.conf"), os.path.join(root, "usr/lib/systemd/system/lynx@bank.service.d"))
    tally.is_same("with a copy", end_of(verify), ("", "", 0))


def started(room, words=""):
    """The words of ExecStart for the instance `set` of a room, as systemd makes them of the unit and of example.conf."""
    conf = dict(re.findall(r"^(\w+)=(.*)$", text_of("systemd", "example.conf"), re.M))
    conf.update(PORT=str(free_port()), STATUS=str(free_port()), WORDS=words)
    made = []
    for word in settings_of_unit()["ExecStart"].replace("%S/lynx/%i", room.stores).replace("/etc/lynx/%i.set", room.set).split():
        made += conf[word[1:]].split() if re.fullmatch(r"\$\w+", word) else [re.sub(r"\$\{(\w+)\}", lambda it: conf[it[1]], word)]
    return made


def stopped(room, env, process):
    """Runs ExecStop for that process, as systemd does: it reads a word in quotes, and $$ for $."""
    line = settings_of_unit()["ExecStop"]
    shell, script, folder, pid = re.fullmatch(r"(\S+ -c) '(.*)' (\S+) (\S+)", line).groups()
    began = time.monotonic()
    folder, pid = folder.replace("%S/lynx/%i", room.stores), pid.replace("${MAINPID}", process)
    told = end_of([*shell.split(), script.replace("$$", "$"), folder, pid], env=env)
    return told, time.monotonic() - began


def test_start_and_stop(tally, program, room):
    """The words by which the unit starts a service, with a second folder too, and ends it: well where it serves, at once where
    nobody does, and after some tries where a process tells of no service."""
    env, copy = path_with(room, program), os.path.join(room.path, "second")
    os.mkdir(copy)
    words = started(room, f"--copy {copy}")
    with subprocess.Popen(words, stdout=subprocess.PIPE, stderr=subprocess.PIPE, text=True, env=env) as ran:
        tally.is_same("it listens", first_words(ran), ["listening", "status"])
        with lynx.Client(room.stores) as bank:
            bank.begin("seed", 100)
        # As systemd does, this waits for the process meanwhile: one that ended and that nobody waits for is still there.
        told = []
        stopping = threading.Thread(target=lambda: told.append(stopped(room, env, str(ran.pid))[0]))
        stopping.start()
        out, fault = ran.communicate(timeout=60)
        stopping.join(60)
        tally.is_same("its end", (out, order_in(room), ran.returncode), ("closed\n", "order 0:0\n", 0))
        tally.holds("its log", "event=audited well=true" in fault)
        tally.is_same("stopped", told, [("bye\n", "", 0)])
    tally.is_same("the second folder follows", end_of([program, "audit", copy])[0], end_of([program, "audit", room.stores])[0])
    told, seconds = stopped(room, env, "")
    tally.is_same("nobody serves", told, ("", "", 0))
    tally.holds("at once", seconds < 5)
    counts = room.file("counts", "")
    with open(os.path.join(room.path, "bin", "sleep"), "w", encoding="ascii") as file:
        file.write(SLEEP.format(counts))
    os.chmod(os.path.join(room.path, "bin", "sleep"), 0o755)
    with subprocess.Popen(["/bin/sleep", "600"]) as other:
        told, _ = stopped(room, env, str(other.pid))
        tally.is_same("a process that tells of no service", told, ("", "", 0))
        with open(counts, encoding="ascii") as file:
            tally.is_same("tries", len(file.read()), 15)
        tally.is_same("it is left to systemd", other.poll(), None)
        other.kill()


def test_calls(tally, program, room):
    """What a service asks of the system, as a user like lynx, is what the unit lets through."""
    lists = re.findall(r"^SystemCallFilter=(~?)(.*)$", text_of("systemd", "lynx@.service"), re.M)

    def calls(name):
        """The calls of a group, and of the groups in it."""
        lines = end_of(["systemd-analyze", "syscall-filter", "--no-pager", name])[0].splitlines()[1:]
        words = [line.strip() for line in lines if line.strip() and not line.strip().startswith("#")]
        return {it for word in words for it in (calls(word) if word.startswith("@") else [word])}

    allowed = set()
    for taken, names in lists:
        for name in names.split():
            named = calls(name) if name.startswith("@") else {name}
            allowed = allowed - named if taken else allowed | named
    os.chmod(room.path, 0o777)
    os.chmod(room.stores, 0o777)
    trace, port, status = os.path.join(room.path, "trace"), str(free_port()), str(free_port())
    own = ["setpriv", "--reuid=65534", "--regid=65534", "--clear-groups"] if os.geteuid() == 0 else []
    words = [*own, "strace", "-f", "-qq", "-o", trace, program, "serve", room.set, room.stores, port, "--status", status, "--log"]
    with subprocess.Popen(words, stdout=subprocess.PIPE, stderr=subprocess.PIPE, text=True) as ran:
        tally.is_same("it listens", first_words(ran), ["listening", "status"])
        with lynx.Client(room.stores) as bank:
            bank.begin("seed", 100)
            bank.begin("pay", 30).wait(20)
            urllib.request.urlopen(f"http://127.0.0.1:{status}/metrics", timeout=20).close()
            bank.shut()
        ran.communicate(timeout=60)
        tally.is_same("its end", ran.returncode, 0)
    with open(trace, encoding="ascii", errors="replace") as file:
        asked = set(re.findall(r"(?m)^\d+ +(\w+)\(", file.read()))
    tally.holds("it was traced", {"openat", "accept4", "fdatasync"} & asked)
    tally.is_same("calls that the unit refuses", sorted(asked - allowed), [])


def test_container(tally, program, room):
    """The entry of the container as process 1: on the signal of a stop the service ends well."""
    text = text_of("container", "Containerfile")
    stop, entry = re.search(r"(?m)^STOPSIGNAL (\w+)$", text)[1], json.loads(re.search(r"(?m)^ENTRYPOINT (.*)$", text)[1])
    words = json.loads(re.search(r"(?m)^CMD (.*)$", text)[1])
    port, status = str(free_port()), str(free_port())
    places = {"/srv/bank.set": room.set, "/srv/bank": room.stores, "7000": port, "7001": status}
    words = [re.sub(r"^(/srv/bank(?:\.set)?|700[01])(?=$|/)", lambda it: places[it[1]], word) for word in words]
    tally.is_same("its entry", entry, ["serve.sh"])
    copied = {name for line in re.findall(r"(?m)^COPY (.*)$", text) for name in line.split()[:-1]}
    tally.is_same("what it copies", copied, {"lynx", "serve.sh", "bank.set"})
    tally.is_same("shellcheck", end_of(["shellcheck", os.path.join(DEPLOY, "container", "serve.sh")]), ("", "", 0))
    env = path_with(room, program)
    own = ["unshare", "--pid", "--fork", "--mount-proc", "--kill-child"] + ([] if os.geteuid() == 0 else ["--map-root-user"])
    script = os.path.join(DEPLOY, "container", "serve.sh")
    with subprocess.Popen([*own, "sh", script, *words], stdin=subprocess.DEVNULL, stdout=subprocess.PIPE, stderr=subprocess.PIPE,
                          text=True, env=env) as ran:
        tally.is_same("it listens", first_words(ran), ["listening", "status"])
        with open(f"/proc/{ran.pid}/task/{ran.pid}/children", encoding="ascii") as file:
            first = int(file.read().split()[0])
        with open(f"/proc/{first}/status", encoding="ascii") as file:
            tally.is_same("it is process 1", re.search(r"(?m)^NSpid:.*\t(\d+)$", file.read())[1], "1")
        with lynx.Client(room.stores) as bank:
            bank.begin("seed", 100)
        os.kill(first, getattr(signal, stop))
        out, _ = ran.communicate(timeout=60)
        tally.is_same("its end", (out, order_in(room), ran.returncode), ("closed\n", "order 0:0\n", 0))
    words = [*own, program, "serve", room.set, room.stores, port]
    with subprocess.Popen(words, stdin=subprocess.DEVNULL, stdout=subprocess.PIPE, text=True) as ran:
        ran.stdout.readline()
        with open(f"/proc/{ran.pid}/task/{ran.pid}/children", encoding="ascii") as file:
            first = int(file.read().split()[0])
        os.kill(first, getattr(signal, stop))
        time.sleep(0.5)
        tally.is_same("without it the signal is ignored", ran.poll(), None)
        with lynx.Client(room.stores) as bank:
            bank.shut()
        ran.communicate(timeout=60)


@contextlib.contextmanager
def followed(program, room):
    """A service with a second folder, after a payment."""
    copy = os.path.join(room.path, "second")
    os.mkdir(copy)
    with WatchedService(program, room, "--copy", copy) as service:
        with lynx.Client(room.stores) as bank:
            bank.begin("seed", 100)
            bank.begin("pay", 30).wait(20)
            yield service
            bank.shut()
        service.end()


def told_by(service):
    """Each metric that a service tells, with the values of its labels."""
    with urllib.request.urlopen(f"http://127.0.0.1:{service.status}/metrics", timeout=20) as page:
        lines = re.findall(r"(?m)^(lynx_\w+)(?:\{(.*)\})? \S+$", page.read().decode())
    found = {}
    for name, labels in lines:
        for label, value in re.findall(r'(\w+)="([^"]*)"', labels) or [("", "")]:
            found.setdefault(name, {}).setdefault(label, set()).add(value)
    return found


def strangers(queries, told):
    """Metrics, labels and their values in queries that a service doesn't tell; job and instance come from the scrape."""
    for query in queries:
        for name in set(re.findall(r"\blynx_\w+", query)) - set(told):
            yield f"{query}: there is no {name}"
        for name, chosen in re.findall(r"\b(lynx_\w+)\{([^}]*)\}", query):
            for label, how, value in re.findall(r'(\w+)(=~?)"([^"]*)"', chosen):
                values = told.get(name, {}).get(label, set())
                wanted = value.split("|") if how == "=~" else [value]
                if label not in ("job", "instance") and not set(wanted) <= values:
                    yield f"{query}: {name} has no {label} {value}"
        for labels in re.findall(r"\b(?:by|on) \(([^)]*)\)", query):
            known = {label for each in told.values() for label in each} | {"job", "instance"}
            yield from (f"{query}: nothing has the label {it}" for it in set(re.findall(r"\w+", labels)) - known)


def test_alerts(tally, program, room, tmp_path):
    """The rules by promtool, their cases too; and that a service tells what they and the dashboard ask for."""
    folder = os.path.join(DEPLOY, "prometheus")
    for words in ("check rules lynx.rules.yml", "test rules lynx.test.yml", "check config --syntax-only scrape.yml"):
        told = end_of(["promtool", *words.split()], cwd=folder)
        tally.holds(f"promtool {words}: {told[0]}{told[1]}", told[2] == 0 and "SUCCESS" in told[0])
    rules = text_of("prometheus", "lynx.rules.yml")
    alerts = re.findall(r"- alert: (\w+)", rules)
    tried = re.findall(r"alertname: (\w+)", text_of("prometheus", "lynx.test.yml"))
    tally.is_same("alerts without a case", sorted(set(alerts) - set(tried)), [])
    board = json.loads(text_of("grafana", "lynx.json"))
    queries = [target["expr"] for panel in board["panels"] for target in panel["targets"]]
    tally.holds("panels", len(board["panels"]) >= 12 and len({it["id"] for it in board["panels"]}) == len(board["panels"]))
    plain = [it.replace("$__rate_interval", "5m").replace("$instance", ".*") for it in queries]
    (tmp_path / "queries.yml").write_text(json.dumps({"groups": [{"name": "queries", "rules": [
        {"record": f"query:{at}", "expr": it} for at, it in enumerate(plain)]}]}))
    told = end_of(["promtool", "check", "rules", tmp_path / "queries.yml"])
    tally.holds(f"queries of the dashboard: {told[1]}", told[2] == 0 and f"{len(queries)} rules found" in told[0])
    with followed(program, room) as service:
        told = told_by(service)
        asked = [*re.findall(r"expr: (?:>-\n)?((?:.*lynx_.*\n?)(?: {10,}.*lynx_.*\n)*)", rules), *plain]
        tally.is_same("what a service doesn't tell", sorted(strangers(asked, told)), [])
        told.pop("lynx_owed_hops")
        tally.holds("a metric that isn't told is found", list(strangers(asked, told)))
        used = set(re.findall(r"\blynx_\w+", " ".join(plain)))
        tally.is_same("what the dashboard leaves out", sorted(set(told) - used), [])


def asked(url, host=None, method="GET"):
    """The status of an answer, and its text."""
    request = urllib.request.Request(url, headers={"Host": host} if host else {}, method=method)
    try:
        with urllib.request.urlopen(request, timeout=20) as page:
            return page.status, page.read().decode()
    except urllib.error.HTTPError as fault:
        return fault.code, fault.read().decode()


def test_proxy(tally, program, room):
    """The example for nginx: a scrape from elsewhere gets the metrics, which the service itself refuses, and nothing else."""
    port = free_port()
    with followed(program, room) as service:
        site = text_of("nginx", "lynx-metrics.conf").replace("listen 9464", f"listen 127.0.0.1:{port}")
        site = site.replace("7001", str(service.status))
        room.file("site.conf", site.replace("allow 10.0.0.5", "allow 127.0.0.1"))
        room.file("other.conf", site)
        for name in ("site", "other"):
            kinds = "client_body", "proxy", "fastcgi", "uwsgi", "scgi"
            folders = "".join(f"{it}_temp_path {room.path}/{it};\n" for it in kinds)
            room.file(f"{name}.main", f"daemon off;\npid {room.path}/nginx.pid;\nerror_log stderr;\nevents {{}}\n"
                      f"http {{\naccess_log off;\n{folders}include {room.path}/{name}.conf;\n}}\n")
        words = ["nginx", "-e", "stderr", "-p", room.path, "-c"]
        env = dict(os.environ, PATH=f"{os.environ['PATH']}:/usr/sbin:/sbin")
        tally.is_same("nginx -t", end_of([*words, os.path.join(room.path, "site.main"), "-t", "-q"], env=env)[2], 0)
        away = "lynx.elsewhere:9464"
        tally.is_same("the service itself", asked(f"http://127.0.0.1:{service.status}/metrics", away)[0], 403)
        for name, wanted in (("site", (200, 200, 404, 404, 404, 403)), ("other", (403, 403, 404, 404, 404, 403))):
            with subprocess.Popen([*words, os.path.join(room.path, f"{name}.main")], stderr=subprocess.DEVNULL, env=env) as ran:
                tally.holds("it listens", wait_until(lambda: os.path.exists(os.path.join(room.path, "nginx.pid"))))
                time.sleep(0.3)
                there = f"http://127.0.0.1:{port}"
                got = [asked(f"{there}{path}", away, method) for path, method in (
                    ("/metrics", "GET"), ("/healthz", "GET"), ("/status", "GET"), ("/set", "GET"), ("/copy/pause", "POST"),
                    ("/metrics", "POST"))]
                tally.is_same(f"{name}: answers", tuple(status for status, _ in got), wanted)
                if name == "site":
                    tally.holds("metrics", 'lynx_server_running{server="0"} 1\n' in got[0][1] and got[1][1] == "ok\n")
                ran.terminate()
                ran.wait(20)


def test_rotated(tally, program, room):
    """The example for logrotate: the file is renamed, the next line goes to a new one, and no line is lost."""
    logs, log = os.path.join(room.path, "logs"), os.path.join(room.path, "logs", "bank.log")
    os.mkdir(logs, 0o755)
    conf = room.file("rotate", text_of("logrotate", "lynx").replace("/var/log/lynx", logs))
    os.chmod(conf, 0o644)
    words = [program, "serve", room.set, room.stores, str(free_port()), "--log-file", log]
    with subprocess.Popen(words, stdout=subprocess.PIPE, stderr=subprocess.PIPE, text=True) as ran:
        ran.stdout.readline()
        with lynx.Client(room.stores) as bank:
            bank.begin("seed", 100)
            wait_until(lambda: "event=client" in read(log))
            old = read(log)
            env = dict(os.environ, PATH=f"{os.environ['PATH']}:/usr/sbin:/sbin")
            told = end_of(["logrotate", "--state", os.path.join(room.path, "state"), "--force", conf], env=env)
            tally.is_same(f"logrotate: {told[1]}", told[2], 0)
            tally.is_same("what was there", (read(log + ".1"), os.path.exists(log)), (old, False))
        with lynx.Client(room.stores) as bank:
            bank.begin("seed", 1)
            bank.shut()
        tally.is_same("on standard error", ran.communicate(timeout=60)[1], "")
    events = re.findall(r"(?m)^20\S+Z event=(\S+)", read(log))
    tally.is_same("the old file stays", read(log + ".1"), old)
    tally.is_same("the new one, to its end", events, ["gone", "client", "gone", "closing", "audited"])


def read(name):
    """The text of a file."""
    with open(name, encoding="ascii") as file:
        return file.read()
