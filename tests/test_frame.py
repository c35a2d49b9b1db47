"""That tests/conftest.py counts what tests do: each check, and as a failure what fails, what is skipped, and what checks nothing."""
import os
import subprocess
import sys

import pytest
from serving import TOP

TESTS = os.path.join(TOP, "tests")

# Tests, with what each counts: checks that hold, and failures.
PROBE = '''
import pytest

@pytest.fixture
def broken():
    raise ValueError

@pytest.fixture
def left_open():
    yield
    raise ValueError

def test_two_checks(tally):         # 2, 0
    tally.is_same("one", 1, 1)
    tally.holds("two", True)

def test_a_check_that_fails(tally): # 1, 2
    tally.is_same("one", 1, 1)
    tally.is_same("two", 2, 3)
    tally.finds("no-such-tool")

def test_plain():                   # 1, 0
    pass

def test_that_fails():              # 0, 1
    assert 1 == 2

def test_that_skips():              # 0, 1
    pytest.skip("no tool")

@pytest.mark.skip(reason="no tool")
def test_marked():                  # 0, 1
    pass

@pytest.mark.xfail
def test_that_is_to_fail():         # 0, 1
    assert 1 == 2

def test_broken_off(tally):         # 1, 1
    tally.is_same("one", 1, 1)
    raise ValueError

def test_without_checks(tally):     # 0, 1
    pass

def test_of_a_broken_fixture(broken): # 0, 1
    pass

def test_with_a_fault_behind(left_open): # 1, 1
    pass

def test_without_a_program(program): # 0, 1
    pass
'''

ALONE = '''
import os, pytest, time

def spans(name):
    with open(os.path.join(os.path.dirname(__file__), name), "a") as file:
        file.write(f"{time.monotonic()} ")
        time.sleep(0.3)
        file.write(f"{time.monotonic()}\\n")

@pytest.mark.parametrize("number", range(12))
def test_beside(number):
    spans("beside")

@pytest.mark.alone
@pytest.mark.parametrize("number", range(2))
def test_alone(number):
    spans("alone")

@pytest.mark.parametrize("number", range(2))
def test_partly_alone(turn, number):
    spans("beside")
    with turn.alone():
        spans("alone")
    spans("beside")
'''


def ran(folder, text, *words):
    """What pytest prints of tests in a file of that text, and its status."""
    path = folder / "test_probe.py"
    path.write_text(text, encoding="ascii")
    command = [sys.executable, "-B", "-m", "pytest", "-c", os.path.join(TESTS, "pytest.ini"), "--rootdir", folder, "-p", "conftest",
               "--program", "none", *words, path]
    done = subprocess.run(command, cwd=folder, env={**os.environ, "PYTHONPATH": TESTS}, stdin=subprocess.DEVNULL,
                          stdout=subprocess.PIPE, stderr=subprocess.STDOUT, text=True, check=False)
    return done.stdout.splitlines(), done.returncode


@pytest.mark.parametrize("processes", ["0", "3"])
def test_counts(tmp_path, processes):
    lines, status = ran(tmp_path, PROBE, "-n", processes)
    counts = [[int(it) for it in line.split("#")[1].split(",")] for line in PROBE.splitlines() if "#" in line]
    passed, failed = (sum(column) for column in zip(*counts))
    assert (lines[-1], status) == (f"{passed} passed, {failed} failed", 1)


@pytest.mark.parametrize("processes", ["0", "3"])
def test_counts_of_a_file_that_cannot_be_read(tmp_path, processes):
    lines, status = ran(tmp_path, "import no_such_module\n", "-n", processes)
    assert lines[-1] == "0 passed, 1 failed" and status != 0


def test_alone(tmp_path):
    """A test that has to be alone, or a part of one, runs beside no other."""
    lines, status = ran(tmp_path, ALONE, "-n", "4")
    assert (lines[-1], status) == ("16 passed, 0 failed", 0)
    beside, alone = ([tuple(map(float, line.split())) for line in (tmp_path / name).read_text().splitlines()]
                     for name in ("beside", "alone"))
    assert any(one[0] < other[1] and other[0] < one[1] for at, one in enumerate(beside) for other in beside[:at])
    assert not any(one[0] < other[1] and other[0] < one[1] for one in alone for other in [*beside, *(it for it in alone if it != one)])


def test_program_elsewhere():
    """Tests are looked for here, wherever the program is that they are to run."""
    words = [os.path.join(TESTS, "pytest"), "-n", "0", "--program", sys.executable, "-k", "test_due_by_name"]
    done = subprocess.run(words, stdin=subprocess.DEVNULL, capture_output=True, text=True, check=False)
    assert done.stdout.splitlines()[-1] == "1 passed, 0 failed"
