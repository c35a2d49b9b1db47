"""What tools/dist makes, installed as a user does it: the archive unpacked, the .deb into a clean root, the wheel into a fresh
venv, the npm archive and the Go module into fresh projects. Each runs the example of its README against the installed program."""
import gzip
import json
import os
import re
import shutil
import stat
import subprocess
import sys
import tarfile
import urllib.request

import pytest
from serving import PAYMENT, TOP, Room, Service, end_of, free_port

PAID = ("begun 0:0 stamp 1 results -\nbegun 0:1 stamp 2 results 100\ndone 0:1 1 stamp 3 results - end\n"
        "cell acct 0 70\ncell acct 1000 30\norder 0:0 0:1\n")

# What the archive has below its folder.
HAS = (
    "bin/lynx", "lib/systemd/system/lynx@.service", "lib/sysusers.d/lynx.conf", "share/man/man1/lynx.1.gz",
    "share/man/man1/lynx-serve.1.gz",
    "share/bash-completion/completions/lynx", "share/zsh/site-functions/_lynx", "share/fish/vendor_completions.d/lynx.fish",
    "share/vim/vimfiles/syntax/lynxset.vim", "share/vim/vimfiles/ftdetect/lynx.vim", "share/doc/lynx/LICENSE-MIT",
    "share/doc/lynx/LICENSE-APACHE", "share/doc/lynx/README.md", "share/doc/lynx/docs/OPERATING.md",
    "share/lynx/clients/python/lynx/__init__.py", "share/lynx/clients/python/lynx/py.typed",
    "share/lynx/clients/javascript/index.d.ts", "share/lynx/clients/go/lynx/go.mod",
    "share/lynx/goproxy/lynx.internal/lynx/@v/list",
    "share/lynx/deploy/container/serve.sh", "share/lynx/deploy/grafana/lynx.json", "share/lynx/editors/textmate/package.json",
    "share/lynx/examples/payment.set",
)


def version_of(program):
    return end_of([program, "--version"])[0].split()[1]


def text_of(*names):
    with open(os.path.join(*names), encoding="utf-8") as file:
        return file.read()


def example_of(name, language):
    """The code of a README that is in this language."""
    return re.search(rf"```{language}\n((?:.*\n)*?)```", text_of(TOP, "clients", name, "README.md"))[1]


def unpacked(archive, folder):
    """Unpacks as `tar -xzf` does."""
    os.makedirs(folder, exist_ok=True)
    subprocess.run(["tar", "-C", folder, "-xzf", archive], check=True)
    return folder


def files_below(folder):
    return {os.path.relpath(os.path.join(where, name), folder) for where, _, names in os.walk(folder) for name in names}


@pytest.fixture(scope="session")
def installed(dist, program, tmp_path_factory):
    """The folder of the archive, unpacked."""
    name = f"lynx-{version_of(program)}-x86_64-linux"
    return os.path.join(unpacked(os.path.join(dist, f"{name}.tar.gz"), str(tmp_path_factory.mktemp("archive"))), name)


class Served:
    """A service of the installed program over the folder `stores` of a fresh project."""

    def __init__(self, installed):
        self.room = Room(PAYMENT)
        self.service = Service(os.path.join(installed, "bin", "lynx"), self.room)

    def __enter__(self):
        self.service.__enter__()
        return self.room.path

    def __exit__(self, *why):
        self.service.__exit__(*why)
        self.room.__exit__(*why)


def test_files(tally, dist, program):
    """All that was to be made is there under one version, and its sums are right."""
    version = version_of(program)
    names = {f"lynx-{version}-x86_64-linux.tar.gz", f"lynx_{version}_amd64.deb", f"lynx_chains-{version}-py3-none-any.whl",
             f"lynx-chains-{version}.tgz", f"lynx-go-{version}.tar.gz", "SHA256SUMS"}
    tally.is_same("files", set(os.listdir(dist)), names)
    told = end_of(["sha256sum", "--check", "--strict", "SHA256SUMS"], cwd=dist)
    tally.is_same("sums", (sorted(told[0].splitlines()), told[2]), (sorted(f"{it}: OK" for it in names - {"SHA256SUMS"}), 0))
    for name in sorted(names):
        print(name, os.path.getsize(os.path.join(dist, name)))


def test_same_bytes(tally, dist, program, tmp_path):
    """The same sources elsewhere, younger, without git and under another mask give the same bytes."""
    seconds = end_of(["git", "log", "-1", "--format=%ct"], cwd=TOP)[0].strip()
    sources = tmp_path / "sources"
    for name in ("tools", "clients", "deploy", "editors", "examples", "docs"):
        shutil.copytree(os.path.join(TOP, name), sources / name, symlinks=True, copy_function=shutil.copy)
    for name in ("README.md", "CHANGELOG.md", "LICENSE-MIT", "LICENSE-APACHE"):
        shutil.copy(os.path.join(TOP, name), sources)
    shutil.copy(program, tmp_path / "built")
    words = ["sh", "-c", 'umask 077; exec "$@"', "sh", sys.executable, "tools/dist", "--program", "../built", "../made"]
    told = end_of(words, cwd=sources, env=dict(os.environ, SOURCE_DATE_EPOCH=seconds, TZ="Asia/Tokyo"))
    tally.is_same("made", told[1:], ("", 0))
    for name in os.listdir(dist):
        with open(os.path.join(dist, name), "rb") as one, open(tmp_path / "made" / name, "rb") as other:
            tally.holds(f"the same bytes: {name}", one.read() == other.read())


def test_disagreeing(tally, program, tmp_path):
    """A client of another version than the program isn't packed."""
    for name in ("tools", "clients", "editors"):
        shutil.copytree(os.path.join(TOP, name), tmp_path / name, symlinks=True)
    package = tmp_path / "clients" / "javascript" / "package.json"
    package.write_text(re.sub(r'"version": ".*"', '"version": "9.9.9"', package.read_text()))
    words = [sys.executable, "tools/dist", "--program", program, "made"]
    told = end_of(words, cwd=tmp_path, env=dict(os.environ, SOURCE_DATE_EPOCH="1"))
    fault = f"tools/dist: clients/javascript/package.json says 9.9.9, and the program {version_of(program)}\n"
    tally.is_same("refused", told, ("", fault, 1))
    tally.holds("nothing is made", not (tmp_path / "made").exists())


def test_archive(tally, installed, dist, program):
    """The archive: what it has, whose its files are, and that its program runs."""
    there = files_below(installed)
    tally.is_same("what it lacks", sorted(set(HAS) - there), [])
    strange = sorted(it for it in there if "__pycache__" in it or it.endswith((".pyc", ".lynx")))
    tally.is_same("what it shouldn't have", strange, [])
    with tarfile.open(os.path.join(dist, f"lynx-{version_of(program)}-x86_64-linux.tar.gz")) as tar:
        members = tar.getmembers()
    tally.is_same("in order", [it.name for it in members], sorted(it.name for it in members))
    tally.is_same("whose they are", {(it.uid, it.gid, it.uname, it.gname) for it in members}, {(0, 0, "root", "root")})
    tally.is_same("one time", len({it.mtime for it in members}), 1)
    tally.is_same("modes", {stat.S_IMODE(it.mode) for it in members}, {0o644, 0o755})
    lynx = os.path.join(installed, "bin", "lynx")
    with open(lynx, "rb") as one, open(program, "rb") as other:
        tally.holds("the program", one.read() == other.read())
    examples = os.path.join(installed, "share", "lynx", "examples")
    tally.is_same("a set", end_of([lynx, "check", "payment.set"], cwd=examples), ("accepted\n", "", 0))
    tally.is_same("a run", end_of([lynx, "run", "payment.set", "payment.script"], cwd=examples), (PAID, "", 0))


def in_root(root, *words):
    """dpkg over a root of its own, whose scripts run outside of it."""
    own = [] if os.geteuid() == 0 else ["unshare", "--map-root-user"]
    return end_of([*own, "dpkg", f"--root={root}", "--force-script-chrootless", "--force-depends", *words],
                  env=dict(os.environ, LC_ALL="C", PATH=f"{os.environ['PATH']}:/usr/sbin:/sbin"))


def test_deb(tally, dist, program, tmp_path):
    """The .deb: what it says of itself; put into a clean root, it brings the program, its user and /etc/lynx; and taken out, it
    leaves stores."""
    version, root = version_of(program), str(tmp_path / "root")
    made = os.path.join(dist, f"lynx_{version}_amd64.deb")
    fields = end_of(["dpkg-deb", "--field", made, "Package", "Version", "Architecture"])[0]
    tally.is_same("fields", fields, f"Package: lynx\nVersion: 1:{version}\nArchitecture: amd64\n")
    listed = end_of(["dpkg-deb", "--contents", made])[0].splitlines()
    tally.is_same("whose its files are", {line.split()[1] for line in listed}, {"root/root"})
    os.makedirs(os.path.join(root, "var", "lib", "dpkg"))
    for name in ("var/lib/dpkg/status", "var/lib/dpkg/available"):
        with open(os.path.join(root, name), "w", encoding="ascii"):
            pass
    told = in_root(root, "--install", made)
    tally.is_same(f"installed: {told[1]}", told[2], 0)
    tally.is_same("nothing is changed", in_root(root, "--verify", "lynx"), ("", "", 0))
    with open(os.path.join(root, "etc", "passwd"), encoding="ascii") as file:
        tally.is_same("its user", [line.split(":")[5] for line in file if line.startswith("lynx:")], ["/var/lib/lynx"])
    lynx = os.path.join(root, "usr", "bin", "lynx")
    tally.is_same("the version", end_of([lynx, "--version"]), (f"lynx {version}\n", "", 0))
    example = os.path.join(root, "etc", "lynx", "example.set")
    tally.is_same("the set of the example", end_of([lynx, "check", example]), ("accepted\n", "", 0))
    with Room(PAYMENT) as room, Service(lynx, room) as service:
        asked = end_of([lynx, "ask", room.stores], "begin 1 1 seed 100\nbegin 1 2 pay 30\nlook 0:1 1 wait\nshut\n")
        wanted = "begun 0:0 stamp 1 results -\nbegun 0:1 stamp 2 results 100\nfound stamp 3 results -\nbye\n"
        tally.is_same("asked", asked, (wanted, "", 0))
        tally.is_same("the end", service.end()[1:], ("", 0))
    for name in ("usr/lib/systemd/system/lynx@.service", "usr/share/zsh/vendor-completions/_lynx", "etc/lynx/example.conf",
                 "usr/share/doc/lynx/copyright", "usr/share/doc/lynx/changelog.gz"):
        tally.holds(name, os.path.isfile(os.path.join(root, name)))
    stores = os.path.join(root, "var", "lib", "lynx", "bank")
    os.makedirs(stores)
    tally.is_same("taken out", in_root(root, "--purge", "lynx")[2], 0)
    tally.is_same("what stays", (os.path.exists(lynx), os.path.exists(stores)), (False, True))


def test_browser(tally, dist, program, tmp_path):
    """Debian has a web browser of the name lynx: it isn't replaced, and doesn't replace the store."""
    version, browser = version_of(program), "2.9.0dev.12-1"
    tally.is_same("an upgrade keeps the store", end_of(["dpkg", "--compare-versions", f"1:{version}", "gt", browser])[2], 0)
    subprocess.run(["dpkg-deb", "--control", os.path.join(dist, f"lynx_{version}_amd64.deb"), tmp_path / "control"], check=True)
    for words, wanted in (("install", 0), ("upgrade 1:0.0.1", 0), (f"upgrade {browser}", 1), (f"install {browser}", 1),
                          (f"abort-upgrade {browser}", 0)):
        tally.is_same(f"preinst {words}", end_of(["sh", tmp_path / "control" / "preinst", *words.split()])[2], wanted)
    scripts = [tmp_path / "control" / it for it in ("preinst", "postinst", "prerm", "postrm")]
    tally.is_same("shellcheck", end_of(["shellcheck", *scripts]), ("", "", 0))


USE = """import lynx


def pay(bank: lynx.Client, n: int) -> int:
    answer = bank.begin('pay', n, number=12)
    if isinstance(answer, lynx.Refused):
        return answer.need
    hops = answer.wait(5)
    return answer.named['x'] if hops is None else len(hops)


reveal_type(lynx.Client('stores').look('0:1', 1))
"""


@pytest.fixture(scope="session")
def venv(dist, program, tmp_path_factory):
    """A fresh venv with the wheel, by its own pip."""
    folder = str(tmp_path_factory.mktemp("venv"))
    python = shutil.which("python3", path="/usr/bin") or sys.executable
    subprocess.run([python, "-m", "venv", folder], check=True)
    wheel = os.path.join(dist, f"lynx_chains-{version_of(program)}-py3-none-any.whl")
    pip = [os.path.join(folder, "bin", "pip"), "--quiet", "--disable-pip-version-check"]
    subprocess.run([*pip, "install", "--no-index", wheel], check=True)
    return folder


def test_wheel(tally, venv, installed, program, tmp_path):
    """The wheel in a fresh venv: its README's example, its types for who imports it, and examples/service copied elsewhere."""
    python = os.path.join(venv, "bin", "python")
    plain = {name: value for name, value in os.environ.items() if not name.startswith("PYTHON")}
    with Served(installed) as project:
        told = end_of([python, "-c", example_of("python", "python")], cwd=project, env=plain)
        tally.is_same("the example", told, ("100\n[[100], []]\n", "", 0))
    about = end_of([python, "-m", "pip", "show", "--files", "lynx-chains"], env=plain)[0]
    tally.holds("its version", f"Version: {version_of(program)}\n" in about)
    told = end_of([python, "-c", "import lynx; print(lynx.__version__)"], env=plain)
    tally.is_same("its own version", told[0], f"{version_of(program)}\n")
    tally.is_same("checked", end_of([python, "-m", "pip", "check"], env=plain)[2], 0)
    use = tmp_path / "use.py"
    use.write_text(USE)
    told = end_of(["mypy", "--strict", "--cache-dir", "/dev/null", "--python-executable", python, use], cwd=tmp_path, env=plain)
    tally.is_same("types of who imports it", re.sub(r"^.*note: ", "", told[0]),
                  'Revealed type is "Union[lynx.Found, None]"\nSuccess: no issues found in 1 source file\n')
    use.write_text(USE.replace("'pay', n", "'pay', str(n)"))
    told = end_of(["mypy", "--strict", "--cache-dir", "/dev/null", "--python-executable", python, use], cwd=tmp_path, env=plain)
    tally.holds("a wrong type is found", '"begin" of "Client" has incompatible type "str"' in told[0])
    copied, port = shutil.copytree(os.path.join(TOP, "examples", "service"), tmp_path / "service"), free_port()
    words = [python, copied / "serve.py", "--lynx", os.path.join(installed, "bin", "lynx"), "--folder", tmp_path / "bank",
             "--port", str(port)]
    with subprocess.Popen(words, stdout=subprocess.PIPE, stderr=subprocess.PIPE, text=True, env=plain) as ran:
        tally.is_same("examples/service elsewhere", ran.stdout.readline(), f"http://127.0.0.1:{port}\n")
        with urllib.request.urlopen(f"http://127.0.0.1:{port}/state", timeout=20) as page:
            tally.is_same("its accounts", len(json.load(page)["accounts"]), 6)
        with urllib.request.urlopen(urllib.request.Request(f"http://127.0.0.1:{port}/shut", method="POST"), timeout=20):
            pass
        out, fault = ran.communicate(timeout=60)
        tally.is_same("its end", (out.split()[0], fault, ran.returncode), ("closed", "", 0))


# Public names without a docstring.
UNTOLD = """import inspect, lynx
for name in lynx.__all__:
    it = getattr(lynx, name)
    inner = [(f'{name}.{key}', each) for key, each in vars(it).items() if inspect.isfunction(each) and key[0] != '_']
    print(*(at for at, each in [(name, it), *inner] if not inspect.getdoc(each)), end='')
"""


def test_python_types(tally):
    """mypy --strict of the client itself, and that each public name has a docstring."""
    told = end_of(["mypy", "--strict", "--cache-dir", "/dev/null", "-p", "lynx"], cwd=os.path.join(TOP, "clients", "python"))
    tally.is_same("mypy", told, ("Success: no issues found in 1 source file\n", "", 0))
    tally.is_same("without a docstring", end_of([sys.executable, "-B", "-c", UNTOLD], cwd=os.path.join(TOP, "clients", "python")),
                  ("", "", 0))


TYPED = """import { Client, Refused, type Found, type Begun } from 'lynx-chains';

const bank = await Client.at('stores', { client: 7n, first: 1 });
const answer: Begun | Refused = await bank.begin('pay', 30, 4n, { number: 12 });
if (answer instanceof Refused) {
  const text: string = answer.text;
} else {
  const x: bigint | undefined = answer.named.x;
  const hops: bigint[][] | null = await answer.wait(5);
}
const found: Found | null = await bank.look('0:1', 1, { wait: 5 });
"""

# The names that a module exports, with the functions of each class; private ones aren't told.
EXPORTS = """import * as it from 'lynx-chains';
for (const [name, value] of Object.entries(it)) {
  console.log(name);
  if (typeof value !== 'function' || !/^class/.test(String(value))) continue;
  for (const of of [value, value.prototype]) {
    for (const key of Object.getOwnPropertyNames(of)) {
      const is = Object.getOwnPropertyDescriptor(of, key).value;
      if (typeof is === 'function' && key !== 'constructor') console.log(`${name}.${key}`);
    }
  }
}
"""


def declared():
    """The names that index.d.ts declares: of the module, and the functions of its classes."""
    text, names = text_of(TOP, "clients", "javascript", "index.d.ts"), set()
    for kind, name, body in re.findall(r"^export (class|function|const) (\w+)[^{;]*(?:\{((?:\n.*)*?)(?:\n\}|\})|;)", text, re.M):
        names.add(name)
        if kind == "class":
            names.update(f"{name}.{it}" for it in re.findall(r"^  (?:static )?(\w+)\(", body, re.M) if it != "constructor")
    return names


def test_npm(tally, dist, installed, program, tmp_path):
    """The npm archive in a fresh project: without packages of its own, `npm install` of a file is to unpack it into node_modules.
    Its README's example; its types by tsc; and that they are the types of all that it exports."""
    unpacked(os.path.join(dist, f"lynx-chains-{version_of(program)}.tgz"), tmp_path / "node_modules")
    os.rename(tmp_path / "node_modules" / "package", tmp_path / "node_modules" / "lynx-chains")
    package = json.loads(text_of(tmp_path, "node_modules", "lynx-chains", "package.json"))
    tally.is_same("it needs no other", [key for key in package if "ependencies" in key or key == "scripts"], [])
    tally.is_same("its files", files_below(tmp_path / "node_modules" / "lynx-chains"), {"package.json", *package["files"]})
    (tmp_path / "main.mjs").write_text(example_of("javascript", "js"))
    with Served(installed) as project:
        os.rename(os.path.join(project, "stores"), tmp_path / "stores")
        os.symlink(tmp_path / "stores", os.path.join(project, "stores"))
        tally.is_same("the example", end_of(["node", "main.mjs"], cwd=tmp_path), ("100n\n[ [ 100n ], [] ]\n", "", 0))
    check = ["tsc", "--strict", "--noEmit", "--target", "es2022", "--module", "node16", "--moduleResolution", "node16", "use.mts"]
    (tmp_path / "use.mts").write_text(TYPED)
    tally.is_same("tsc", end_of(check, cwd=tmp_path), ("", "", 0))
    for right, wrong in (("'pay', 30", "'pay', 'x'"), ("client: 7n", "cleint: 7n"), ("text: string", "text: bigint")):
        (tmp_path / "use.mts").write_text(TYPED.replace(right, wrong))
        tally.is_same(f"tsc finds {wrong}", end_of(check, cwd=tmp_path)[2], 2)
    (tmp_path / "exports.mjs").write_text(EXPORTS)
    exports = set(end_of(["node", "exports.mjs"], cwd=tmp_path)[0].split())
    tally.is_same("what the types don't say", sorted(exports - declared()), [])
    tally.is_same("what isn't there", sorted(declared() - exports), [])


def test_go(tally, dist, installed, program, tmp_path):
    """The Go module in two fresh projects, by its proxy and by a workspace: its README's example, by the README's words."""
    version = version_of(program)
    unpacked(os.path.join(dist, f"lynx-go-{version}.tar.gz"), tmp_path)
    shelf = re.search(r"env -w (GOPROXY=\S+) (GONOSUMDB=\S+)", text_of(TOP, "clients", "go", "lynx", "README.md"))
    proxy = shelf[1].replace("/PATH/", f"{tmp_path}/").replace("VERSION", version).split(",")[0].partition("=")[2]
    env = {**os.environ, "GOFLAGS": "-modcacherw", "GOPATH": str(tmp_path / "go"), "GOCACHE": str(tmp_path / "cache"),
           "GOPROXY": f"{proxy},off", "GONOSUMDB": shelf[2].partition("=")[2], "GOTOOLCHAIN": "local"}
    source = os.path.join(installed, "share", "lynx", "clients", "go", "lynx")
    ways = {"proxied": ["go", "get", f"lynx.internal/lynx@v{version}"], "workspace": ["go", "work", "init", ".", source]}
    for way, words in ways.items():
        folder = tmp_path / way
        folder.mkdir()
        (folder / "main.go").write_text(example_of("go/lynx", "go"))
        tally.is_same(f"{way}: a module", end_of(["go", "mod", "init", "bank"], cwd=folder, env=env)[2], 0)
        told = end_of(words, cwd=folder, env=env)
        tally.is_same(f"{way}: {told[1]}", told[2], 0)
        told = end_of(["go", "build", "-o", "bank", "."], cwd=folder, env=env)
        tally.is_same(f"{way}: built {told[1]}", told[2], 0)
        with Served(installed) as project:
            tally.is_same(f"{way}: the example", end_of([folder / "bank"], cwd=project), ("100\n[[100] []] <nil>\n", "", 0))
    tally.holds("its version", f"require lynx.internal/lynx v{version}" in text_of(tmp_path, "proxied", "go.mod"))


def options_of(program, *words):
    """The options that a help text names at the beginning of a line, and the words of its commands."""
    text = end_of([program, *words, "--help"])[0]
    listed = text.partition("\nOptions:\n")[2].partition("\n\n")[0]
    heads = " ".join(re.findall(r"^ {2,6}(-.*?)(?: {2}|$)", listed, re.M))
    return ({*re.findall(r"-{1,2}[A-Za-z][\w-]*", heads)},
            re.findall(r"^  (\w+) ", text.partition("\nCommands:\n")[2].partition("\n\n")[0], re.M))


def table_of_sources():
    """The commands, and all options, as the sources of the words have them: apart from what the program prints."""
    folder = os.path.join(TOP, "crates", "lynx_args", "src")
    text = "".join(text_of(folder, name) for name in sorted(os.listdir(folder)))
    named = dict(re.findall(r'const (\w+): &str =\s+"([\w-]+)";', text))
    commands = [name if quoted else named[name] for quoted, name in
                re.findall(r'CommandText = CommandText \{\s+name: ("?)(\w+)"?,', text)]
    options = [name if quoted else named[name] for quoted, name in
               re.findall(r'name: ("?)([\w-]+)"?,\s+place: Place::(?:Flag|Value)', text)]
    return set(commands), {f"--{it}" for it in options}


def bash_words(script, line):
    """What bash completes a line to."""
    words = line.split(" ")
    given = " ".join(repr(it) for it in words)
    run = (f"source {script}\nCOMP_WORDS=({given})\nCOMP_CWORD={len(words) - 1}\n_lynx\n"
           'printf "%s\\n" "${COMPREPLY[@]}"\n')
    told = end_of(["bash", "--norc", "-c", run], cwd=os.path.join(TOP, "examples"))
    return set(told[0].split()) if told[1:] == ("", 0) else told


def fish_words(script, line):
    """What fish completes a line to."""
    told = end_of(["fish", "--no-config", "-c", f"source {script}; complete -C '{line}'"], cwd=os.path.join(TOP, "examples"))
    return {it.split("\t")[0] for it in told[0].splitlines() if it} if told[1:] == ("", 0) else told


def zsh_told(script, line, describe="", arguments=""):
    """What zsh is told to complete a line to, by functions that stand for its own."""
    run = (f"_describe() {{ {describe} }}\n_arguments() {{ {arguments} }}\nwords=({line})\nCURRENT=$#words\n"
           f"complete() {{ source {script} }}\ncomplete\n")
    return end_of(["zsh", "-f", "-c", run])


def test_pages(tally, installed, program):
    """Man pages and completions have just the words of the help, and these are those of the sources."""
    share = os.path.join(installed, "share")
    _, commands = options_of(program)
    commands.remove("help")
    helps = {name: options_of(program, name)[0] for name in commands}
    known, options = table_of_sources()
    tally.is_same("commands of the sources", set(commands), known)
    tally.is_same("options of the sources", set().union(*helps.values()), options | {"-h", "--help"})
    pages = sorted(os.listdir(os.path.join(share, "man", "man1")))
    tally.is_same("a page for each", pages, sorted(["lynx.1.gz", *(f"lynx-{it}.1.gz" for it in commands)]))
    bash, fish, zsh = (os.path.join(share, it) for it in (
        "bash-completion/completions/lynx", "fish/vendor_completions.d/lynx.fish", "zsh/site-functions/_lynx"))
    for name, wanted in helps.items():
        path = os.path.join(share, "man", "man1", f"lynx-{name}.1.gz")
        with gzip.open(path, "rt", encoding="ascii") as file:
            text = file.read()
        heads = re.findall(r"^\.TP\n(.*\\fB.*)$", text, re.M)
        found = {it.replace("\\", "") for head in heads for it in re.findall(r"\\fB((?:\\-)+[\w\\-]+)\\fR", head)}
        tally.is_same(f"{name}: options of its page", found, wanted)
        tally.is_same(f"{name}: its page by mandoc", end_of(["mandoc", "-T", "lint", "-W", "warning"], text), ("", "", 0))
        long = {it for it in wanted if it.startswith("--")}
        tally.is_same(f"{name}: bash", bash_words(bash, f"lynx {name} -"), wanted)
        tally.is_same(f"{name}: fish", fish_words(fish, f"lynx {name} --"), long)
        given = zsh_told(zsh, f"lynx {name} -", arguments='print -rl -- "$@"')
        tally.is_same(f"{name}: zsh", (set(re.findall(r"(?m)(--?[A-Za-z][\w-]*)(?=\[)", given[0])), given[1:]), (wanted, ("", 0)))
    with gzip.open(os.path.join(share, "man", "man1", "lynx.1.gz"), "rt", encoding="ascii") as file:
        text = file.read()
    tally.is_same("lynx(1) by mandoc", end_of(["mandoc", "-T", "lint", "-W", "warning"], text), ("", "", 0))
    tally.is_same("lynx(1): commands", re.findall(r"^\\fBlynx\\-(\w+)\\fR\(1\)$", text, re.M), commands)
    for shell, told in (("bash", bash_words(bash, "lynx ")), ("fish", fish_words(fish, "lynx "))):
        tally.is_same(f"commands of {shell}", {it for it in told if not it.startswith("-")} - {"help"}, set(commands))
    given = zsh_told(zsh, "lynx ''", describe='print -rl -- "${(@P)2}"')
    tally.is_same("commands of zsh", (re.findall(r"(?m)^(\w+):", given[0]), given[1:]), (commands, ("", 0)))


def test_completed_files(tally, installed):
    """Where a folder is wanted folders are completed, where a file is files, and where a number is nothing."""
    share = os.path.join(installed, "share")
    bash, fish = (os.path.join(share, it) for it in ("bash-completion/completions/lynx", "fish/vendor_completions.d/lynx.fish"))
    tally.is_same("a set, bash", bash_words(bash, "lynx check pay"), {"payment.set", "pay-and-note.set", "payment.script"})
    tally.is_same("a set, fish", fish_words(fish, "lynx check pay"), {"payment.set", "pay-and-note.set", "payment.script"})
    tally.is_same("a folder, bash", bash_words(bash, "lynx run --stores b"), {"bank", "board", "branches"})
    tally.is_same("a folder, fish", fish_words(fish, "lynx run --stores b"), {"bank/", "board/", "branches/"})
    tally.is_same("a number, bash", bash_words(bash, "lynx sample --seed "), set())
    tally.is_same("no command, bash", bash_words(bash, "lynx nothing "), set())
