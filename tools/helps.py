"""The table of the commands of lynx, read from the program's own help. tools/pages.py makes man pages and completions of it."""
import os
import re
import subprocess
from dataclasses import dataclass, field

OPTION = re.compile(r"  (?:    |-(\w), )--([\w-]+)(?: <([^>]+)>)? {2,}(\S.*)")
ARGUMENT = re.compile(r"  ([<\[])([^>\]]+)[>\]] {2,}(\S.*)")
COMMAND = re.compile(r"  (\w+) {2,}(\S.*)")


@dataclass
class Option:
    """An option: `--name`, its letter and the word for its value, where it has them."""
    letter: str
    name: str
    value: str
    help: str


@dataclass
class Argument:
    """An argument, by the word that stands for it."""
    name: str
    is_needed: bool
    help: str


@dataclass
class Verb:
    """A command, or the program itself, whose name is empty. `after` are the lines behind its options."""
    name: str
    about: str
    usage: str
    arguments: list = field(default_factory=list)
    options: list = field(default_factory=list)
    commands: list = field(default_factory=list)
    after: list = field(default_factory=list)


def asked(program, *words):
    """What the program prints, which is called by the name lynx whatever its file's is."""
    ran = subprocess.run(["lynx", *words], executable=os.path.abspath(program), capture_output=True, text=True, check=True)
    return ran.stdout


def version_of(program):
    """The version, as `lynx --version` says it."""
    return re.fullmatch(r"lynx (\d+\.\d+\.\d+)\n", asked(program, "--version"))[1]


def joined(lines):
    """Entries of a list of a help text, each with the lines that go on with it."""
    entries = []
    for line in lines:
        if line.startswith(" " * 8) and not OPTION.fullmatch(line):
            entries[-1] += " " + line.strip()
        else:
            entries.append(line)
    return entries


def sections_of(text):
    """The paragraphs of a help text: its head, those under `Arguments:` and so on, and the lines behind `Options:`."""
    head, _, rest = text.partition("\n\nUsage: ")
    usage, _, rest = rest.partition("\n\n")
    lists = {}
    while found := re.match(r"(Commands|Arguments|Options):\n((?:  .*\n)+)\n*", rest):
        lists[found[1]], rest = joined(found[2].splitlines()), rest[found.end():]
    return head, usage, lists, rest.splitlines()


def verb_of(name, text):
    """The command of a help text."""
    head, usage, lists, after = sections_of(text)
    verb = Verb(name, " ".join(head.split()), usage, after=after)
    verb.commands = [COMMAND.fullmatch(line).groups() for line in lists.get("Commands", ())]
    verb.arguments = [Argument(word, bracket == "<", told)
                      for bracket, word, told in (ARGUMENT.fullmatch(line).groups() for line in lists.get("Arguments", ()))]
    verb.options = [Option(*(it or "" for it in OPTION.fullmatch(line).groups())) for line in lists["Options"]]
    return verb


def table_of(program):
    """The program itself, and its commands in their order; `help` is no command of its own."""
    top = verb_of("", asked(program, "--help"))
    top.about = top.about.removeprefix(f"lynx {version_of(program)} ")
    top.commands = [it for it in top.commands if it[0] != "help"]
    return top, [verb_of(name, asked(program, name, "--help")) for name, _ in top.commands]
