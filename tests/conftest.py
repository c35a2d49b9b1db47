"""What the tests share as fixtures: the built program, a tally of checks, rooms with a set, and services over them. And what is
counted: each check of a tally, each test without one, and a test that is skipped as a failure."""
import collections
import contextlib
import fcntl
import itertools
import os
import shutil
import subprocess
import sys

import pytest
from hypothesis import settings
from serving import PAYMENT, TOP, Room, Service, Tally

# The options of built programs, each with its crate.
PROGRAMS = {"program": "lynx", "bench": "lynx_bench", "growths": "lynx_growths"}

# A module of so many tests has short ones.
MANY = 100


def pytest_addoption(parser):
    for option, crate in PROGRAMS.items():
        parser.addoption(f"--{option}", default=os.path.join(TOP, "crates", crate, "out", crate),
                         help=f"the built {crate}; crates/{crate}/out/{crate} if left out")
    parser.addoption("--times", type=int, default=1,
                     help="how many times as many random cases, kills and refused growths of a service are tried; 1 if left out")


def pytest_generate_tests(metafunc):
    """A test of a `seed` is run for as many seeds as SEEDS of its module says, --times as many."""
    if "seed" in metafunc.fixturenames:
        metafunc.parametrize("seed", range(metafunc.module.SEEDS[metafunc.function.__name__] * metafunc.config.getoption("--times")))


def pytest_collection_modifyitems(items):
    """Spreads long tests over the processors: xdist hands out tests in runs, long runs first. So modules of MANY tests come first,
    then one test of each of the others in turn, and in the end those that run alone, which wait for no other then."""
    counts, places = collections.Counter(item.module for item in items), collections.defaultdict(itertools.count)

    def place(item):
        at = next(places[item.module])
        return item.get_closest_marker("alone") is not None, at if counts[item.module] < MANY else -1

    items.sort(key=place)


def pytest_configure(config):
    settings.register_profile("gate", max_examples=100 * config.getoption("--times"), derandomize=True, database=None, deadline=None,
                              print_blob=True)
    settings.load_profile("gate")
    if not hasattr(config, "workerinput"):
        config.pluginmanager.register(Closing(config), "closing")


def built(config, option):
    """A built program."""
    found = os.path.join(TOP, config.getoption(f"--{option}"))
    if not os.path.isfile(found):
        pytest.fail(f"there is no {found}: 'rt ci', or 'rt run' in crates/{PROGRAMS[option]}, builds it", pytrace=False)
    return found


@pytest.fixture(scope="session")
def program(pytestconfig):
    """The built program."""
    return built(pytestconfig, "program")


@pytest.fixture(scope="session")
def bench(pytestconfig):
    """The built program of loads."""
    return built(pytestconfig, "bench")


@pytest.fixture(scope="session")
def growths(pytestconfig):
    """The built program of calls that are refused growths."""
    return built(pytestconfig, "growths")


@pytest.fixture(scope="session")
def chromium():
    """The browser."""
    found = shutil.which("chromium")
    if not found:
        pytest.fail("chromium isn't installed: tests/setup installs it", pytrace=False)
    return found


@pytest.fixture(scope="session")
def dist(program, tmp_path_factory):
    """The folder of what tools/dist makes of the program, made once for all workers, in out/dist."""
    base = tmp_path_factory.getbasetemp()
    done = (base.parent if "PYTEST_XDIST_WORKER" in os.environ else base) / "packed"
    with open(str(done) + ".lock", "w", encoding="ascii") as lock:
        fcntl.flock(lock, fcntl.LOCK_EX)
        folder = os.path.join(TOP, "out", "dist")
        if not done.exists():
            shutil.rmtree(folder, ignore_errors=True)
            ran = subprocess.run([sys.executable, os.path.join(TOP, "tools", "dist"), "--program", program, folder],
                                 stdout=subprocess.PIPE, stderr=subprocess.STDOUT, text=True, check=False)
            done.write_text(ran.stdout if ran.returncode == 0 else f"failed: {ran.stdout}", encoding="utf-8")
        told = done.read_text(encoding="utf-8")
    if told.startswith("failed: "):
        pytest.fail(told, pytrace=False)
    return folder


class Turn:
    """Tests run beside each other, and what measures time runs while no other test does."""

    def __init__(self, queue, running):
        self.queue, self.running = queue, running

    def begin(self, is_alone):
        """Waits until no other test runs, or only until none that is alone does. Meanwhile no other begins."""
        fcntl.flock(self.queue, fcntl.LOCK_EX)
        fcntl.flock(self.running, fcntl.LOCK_EX if is_alone else fcntl.LOCK_SH)
        fcntl.flock(self.queue, fcntl.LOCK_UN)

    @contextlib.contextmanager
    def alone(self):
        """For a part of a test that measures time."""
        fcntl.flock(self.running, fcntl.LOCK_UN)
        self.begin(True)
        yield
        fcntl.flock(self.running, fcntl.LOCK_SH)


@pytest.fixture(autouse=True)
def turn(request, tmp_path_factory):
    """Begins a test beside others, or where none runs if it is marked as `alone`, since it measures time."""
    base = tmp_path_factory.getbasetemp()
    folder = base.parent if "PYTEST_XDIST_WORKER" in os.environ else base
    with open(folder / "next", "w", encoding="ascii") as queue, open(folder / "running", "w", encoding="ascii") as running:
        made = Turn(queue, running)
        made.begin(request.node.get_closest_marker("alone") is not None)
        yield made


@pytest.fixture
def tally():
    """Counts the checks of a test, which fails in the end where one of them did."""
    return Tally()


@pytest.fixture
def room():
    """A fresh folder with the payment set, and an empty one for its stores."""
    with Room(PAYMENT) as made:
        yield made


@pytest.fixture
def service(program, room):
    """A service over the stores of the room."""
    with Service(program, room) as made:
        yield made


@pytest.hookimpl(hookwrapper=True)
def pytest_runtest_makereport(item):
    """Fails a test one of whose checks failed, and one that is skipped, and hands on how many checks there were."""
    report = (yield).get_result()
    if report.skipped:
        report.outcome, report.longrepr = "failed", f"it was skipped: {report.longrepr}"
    checks = getattr(item, "funcargs", {}).get("tally")
    if report.when == "call" and checks:
        if report.passed and (checks.failed or not checks.passed):
            report.outcome = "failed"
            report.longrepr = f"{checks.failed} of its {checks.passed + checks.failed} checks failed"
        report.user_properties.append(("checks", [checks.passed, max(checks.failed, int(report.failed))]))


class Closing:
    """Adds up what the tests of each file counted, and ends with the line that tests/all reads."""

    def __init__(self, config):
        self.config, self.counts = config, collections.defaultdict(lambda: [0, 0])

    def pytest_runtest_logreport(self, report):
        passed, failed = dict(report.user_properties).get("checks") or (int(report.passed), int(report.failed))
        if report.when == "call" or report.failed:
            counted = self.counts[report.nodeid.split("::")[0]]
            counted[0] += passed if report.when == "call" else 0
            counted[1] += failed if report.when == "call" else 1

    def pytest_collectreport(self, report):
        if report.failed:
            self.counts[report.nodeid][1] = 1

    @pytest.hookimpl(trylast=True)
    def pytest_unconfigure(self):
        told = self.config.pluginmanager.get_plugin("terminalreporter")
        for name, (passed, failed) in sorted(self.counts.items()):
            told.write_line(f"{name}: {passed} passed, {failed} failed")
        sums = [sum(column) for column in zip(*self.counts.values())] or [0, 0]
        told.write_line(f"{sums[0]} passed, {sums[1]} failed")
