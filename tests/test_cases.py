"""The cases under tests/cases over the built program.

A case is a group of files of one name in a folder of tests/cases:

    NAME.set NAME.script NAME.stdin    what it is given (the folder's SET stands in for a set that is left out)
    NAME.sql                           what is done to the store that the folder's SQL makes, by the sqlite3 of Python
    NAME.args                          the words, one a line; {set}, {script} and {store} stand for the files, {dir} for an
                                       empty folder, and {top} for the top of the repository. Left out: the folder's ARGS,
                                       or else 'run SET SCRIPT' where there is a script, 'check SET' where there is a set,
                                       or none
    NAME.stdout NAME.stderr            what has to be printed, by the byte (left out: nothing)
    NAME.status                        the exit status (left out: the folder's STATUS, or else 0)
    NAME.to NAME.errors                where standard output and standard error go in place of being compared:
                                       /dev/full, or 'closed'

The bytes of a store have to be the same before and after.

The standard output of a case of `lynx draw SET` is what tests/reference_picture.py SET prints, a script that was written
apart from the program: tests/reference_picture.py tests/cases/pictures/trip.set > tests/cases/pictures/trip.stdout. That of
`lynx draw SET SCRIPT` is what tests/reference_chart.py SET SCRIPT prints, and what begins as an SVG is read by an XML parser.

`tests/pytest test_cases.py -k FOLDER/NAME` runs the cases that have this in their names.
"""
import os
import sqlite3
import subprocess
import tempfile
import xml.etree.ElementTree as ElementTree

import pytest
from serving import TOP

CASES = os.path.join(TOP, "tests", "cases")
PARTS = ("set", "script", "stdin", "sql", "args", "stdout", "stderr", "status", "to", "errors")


def read(path, default=b""):
    """The bytes of a file, or the default where there is none."""
    if not os.path.exists(path):
        return default
    with open(path, "rb") as file:
        return file.read()


def names_of(folder):
    """The names of the cases of a folder."""
    found = set()
    for file in os.listdir(os.path.join(CASES, folder)):
        stem, _, part = file.rpartition(".")
        if part in PARTS:
            found.add(stem)
        elif file not in ("ARGS", "SET", "SQL", "STATUS"):
            raise ValueError(f"tests/cases/{folder}/{file} is of no case")
    return sorted(found)


class Case:
    """One case, with its files."""

    def __init__(self, folder, name):
        self.name = f"{folder}/{name}"
        self.folder = os.path.join(CASES, folder)
        self.stem = os.path.join(self.folder, name)
        status = read(f"{self.stem}.status", read(os.path.join(self.folder, "STATUS"), b"0"))
        self.wanted = (read(f"{self.stem}.stdout"), read(f"{self.stem}.stderr"), int(status))

    def path(self, part):
        """The file of a part, if there is one."""
        shared = os.path.join(self.folder, part.upper())
        own = f"{self.stem}.{part}"
        return own if os.path.exists(own) else shared if os.path.exists(shared) else None

    def store(self, room):
        """The file of the store."""
        return os.path.join(room, "store.lynx")

    def make_store(self, room):
        """Makes the store, if the case has one, and gives its bytes."""
        shared = os.path.join(self.folder, "SQL")
        if not os.path.exists(shared):
            return b""
        base = sqlite3.connect(self.store(room))
        base.executescript(read(shared).decode())
        base.executescript(read(f"{self.stem}.sql").decode())
        base.close()
        return read(self.store(room))

    def words(self, room):
        """The words of the command line."""
        set_file, script = self.path("set"), self.path("script")
        given = self.path("args")
        if given:
            lines = read(given).split(b"\n")[:-1]
            places = {b"{set}": set_file, b"{script}": script, b"{store}": self.store(room), b"{dir}": room}
            return [(places[line] or "").encode() if line in places else line.replace(b"{top}", TOP.encode())
                    for line in lines]
        if script:
            return ["run", set_file, script]
        return ["check", set_file] if set_file else []

    def ends(self, program):
        """What the program prints, and its status."""
        with tempfile.TemporaryDirectory() as room:
            how = {"stdout": subprocess.PIPE, "stderr": subprocess.PIPE}
            opened, closed = [], []
            for part, stream, number in (("to", "stdout", 1), ("errors", "stderr", 2)):
                target = read(f"{self.stem}.{part}").decode().strip()
                if target == "closed":
                    closed.append(number)
                elif target:
                    how[stream] = open(target, "wb")
                    opened.append(how[stream])
            if closed:
                how["preexec_fn"] = lambda: [os.close(number) for number in closed]
            stored = self.make_store(room)
            stdin = self.path("stdin")
            with open(stdin or os.devnull, "rb") as source:
                ran = subprocess.run([program, *self.words(room)], stdin=source, cwd=room, timeout=120, **how)
            for file in opened:
                file.close()
            changed = b"" if read(self.store(room)) == stored else b"the store was changed\n"
            return ran.stdout or b"", (ran.stderr or b"") + changed, ran.returncode


def every_case():
    return [(folder, name) for folder in sorted(os.listdir(CASES)) for name in names_of(folder)]


def shown(printed):
    """What was printed, or a status, behind what it is called."""
    return printed if isinstance(printed, int) else "\n" + printed.decode(errors="backslashreplace")


def differences(case, got):
    """What differs from what is wanted."""
    for what, is_so, wanted in zip(("standard output", "standard error", "status"), got, case.wanted):
        if is_so != wanted:
            yield f"-- {what}: {shown(is_so)}\n-- wanted: {shown(wanted)}"


@pytest.mark.parametrize("folder, name", [pytest.param(*it, id="/".join(it)) for it in every_case()])
def test_case(program, folder, name):
    case = Case(folder, name)
    got = case.ends(program)
    if got != case.wanted:
        pytest.fail("\n".join(differences(case, got)), pytrace=False)
    if got[0].startswith(b"<svg"):
        ElementTree.fromstring(got[0])
