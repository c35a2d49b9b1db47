"""Which Python runs the scripts that need Debian's packages: these are for /usr/bin/python3, while the `python3` on the path may
be another one, without them."""
import os
import shutil
import subprocess
import sys

# Debian's packages that are used, each with the module that it brings.
MODULES = {
    "python3-selenium": "selenium", "python3-pytest": "pytest", "python3-pytest-xdist": "xdist",
    "python3-hypothesis": "hypothesis", "python3-venv": "ensurepip",
}

FINDS = "import importlib.util, sys; print(*[it for it in sys.argv[1:] if importlib.util.find_spec(it) is None])"


def candidates():
    """The interpreters of this machine: this one first, then Debian's, then that of the path."""
    found = [sys.executable, "/usr/bin/python3", shutil.which("python3")]
    return [it for at, it in enumerate(found) if it and os.access(it, os.X_OK) and it not in found[:at]]


def lacking(python, packages):
    """Those of the packages that an interpreter doesn't have."""
    ran = subprocess.run([python, "-c", FINDS, *packages], stdin=subprocess.DEVNULL, capture_output=True, text=True, check=False)
    return ran.stdout.split() if ran.returncode == 0 else [*packages]


def python_with(packages):
    """The first interpreter that has all the packages, or None, and the packages that the nearest one lacks."""
    lacks = {python: lacking(python, packages) for python in candidates()}
    python = min(lacks, key=lambda it: len(lacks[it]))
    return (None if lacks[python] else python), lacks[python]


def go_on_with(*packages):
    """Goes on where this interpreter has the packages; otherwise begins the script in the one that has them, and ends it with
    the names that are missing where none has."""
    python, lacks = python_with(packages)
    if python is None:
        print(f"no python3 here has {', '.join(lacks)}: tests/setup installs it\n0 passed, 1 failed")
        sys.exit(1)
    if python != sys.executable:
        sys.stdout.flush()
        os.execv(python, [python, *sys.argv])
