"""The grammar of hints (`lynx_hints`) beside the reader's (`lynx_text`, `lynx_lines`), which share no table: behind each line of the
examples, and of sets at their limits, `what can stand here` names just the first words that the reader takes there, and `takes N
words` the count of words that it takes."""
import os
import re
import subprocess

import pytest
from serving import PAYMENT, TOP

GREATEST = 2**64 - 1

# What the reader says of a line that can't stand there, or for which there is no room.
MISPLACED = {"bad-line", "limit-passed", "need-not-first", "shard-gap", "shard-overlap", "repeated"}

VERBS = ("servers", "table", "shard", "program", "range", "hop", "end", "get", "set", "add", "sub", "max", "let", "need")

# A line of each verb of scripts.
EVENTS = {"begin": "begin 0 1 1 pay 5", "deliver": "deliver 0:0 1", "lose": "lose 0:0 1", "wake": "wake 0", "restart": "restart 0"}

HOPS = "".join("hop 0\nget r{0} acct 0\n".format(hop) for hop in range(8))
ACTIONS = "hop 0\n" + "".join(f"let v{value} 1 + 1\n" for value in range(16))
SHARDS = "".join(f"shard {low} {low} 0\n" for low in range(63)) + f"shard 63 {GREATEST} 0\n"
FULL = f"""lynx 2
servers 2
table acct
{SHARDS}program hops
{HOPS}end
program actions n m
range n 0..9
range m 0..9
{ACTIONS}end
"""


def texts():
    """The sets of the examples, and one that comes to the limits, by name."""
    found = {"limits": FULL}
    for folder, _, files in sorted(os.walk(os.path.join(TOP, "examples"))):
        for file in sorted(files):
            if file.endswith(".set"):
                with open(os.path.join(folder, file), encoding="ascii") as text:
                    found[os.path.relpath(os.path.join(folder, file), TOP)] = text.read()
    return found


TEXTS = texts()


class Reader:
    """The program, asked what it says of texts."""

    def __init__(self, program):
        self.program = program

    def says(self, words, text):
        """The line and the word of the fault, None for none, and the hints."""
        end = subprocess.run([self.program, *words, "/dev/stdin"], input=text, capture_output=True, text=True, check=False)
        fault = re.match(r"lynx: \w+ line (\d+): ([a-z-]+)\n", end.stderr)
        assert fault or end.returncode != 2, end.stderr
        return (int(fault[1]), fault[2]) if fault else None, end.stderr

    def check(self, text):
        return self.says(["check", "--hints"], text)


def bounds(lines):
    """The greatest key of the shard on the last line, -1 for a table's own line."""
    return int(lines[-1].split()[2]) if lines[-1].startswith("shard ") else -1


def probes(verb, lines):
    """Lines of the verb, one of which the reader takes behind these lines if it takes any."""
    parameters = [line.split()[2:] for line in lines if line.startswith("program ")]
    if verb == "shard":
        return [f"shard {min(bounds(lines) + 1, GREATEST)} {GREATEST} 0\n"]
    if verb == "range":
        return [f"range {name} 0..9\n" for name in (parameters[-1] if parameters else [])]
    value = {
        "servers": "servers 2\n", "table": f"table zz\nshard 0 {GREATEST} 0\n", "program": "program zz\n", "hop": "hop 0\n", "end": "end\n",
        "get": "get zz zz 0\n", "let": "let zz 1 + 1\n", "need": "need 1 = 1\n",
    }
    return [value.get(verb, f"{verb} zz 0 0\n")]


def stands(reader, lines, verb):
    """Whether the reader takes a line of the verb behind these lines."""
    for probe in probes(verb, lines):
        fault, _ = reader.check("".join(lines) + probe)
        if fault is None or fault[0] > len(lines) + probe.count("\n") or fault[0] > len(lines) and fault[1] not in MISPLACED:
            return True
    return False


def told(hints):
    """The first words that can stand there, as the hints name them, and whether the text may end; None where they don't say."""
    found = re.search(r"  what can stand here: (.*)\n", hints)
    if not found:
        return None
    words = re.split(r", or |, ", found[1])
    return set(words) - {"the end of the text"}, "the end of the text" in words


@pytest.mark.parametrize("name", TEXTS)
def test_places(program, name):
    """Behind each line of the set."""
    reader, lines = Reader(program), TEXTS[name].splitlines(keepends=True)
    for count in range(1, len(lines) + 1):
        front = lines[:count]
        _, hints = reader.check("".join(front) + "zz\n")
        here = told(hints)
        if here is None:
            # The reader has a fault of an earlier line: the shards of a table leave a gap.
            assert front[-1].split()[0] in ("table", "shard") and bounds(front) < GREATEST, "".join(front)
            continue
        words, may_end = here
        assert words == {verb for verb in VERBS if stands(reader, front, verb)}, "".join(front)
        assert may_end == (reader.check("".join(front))[0] is None), "".join(front)


LINES = {
    "servers": ("lynx 2\n", "servers 2"), "table": ("lynx 2\nservers 2\n", "table zz"),
    "shard": ("lynx 2\nservers 2\ntable acct\n", f"shard 0 {GREATEST} 0"), "program": ("lynx 2\nservers 2\n", "program zz"),
    "range": ("lynx 2\nservers 2\nprogram p n\n", "range n 0..9"), "hop": ("lynx 2\nservers 2\nprogram p n\n", "hop 0"),
    "end": ("lynx 2\nservers 2\nprogram p\nhop 0\nneed 1 = 1\n", "end"),
}
ACTING = f"lynx 2\nservers 2\ntable acct\nshard 0 {GREATEST} 0\nprogram p\nhop 0\n"
LINES.update({verb: (ACTING, line) for verb, line in {
    "get": "get r acct 0", "set": "set acct 0 1", "add": "add acct 0 1", "sub": "sub acct 0 1", "max": "max acct 0 1",
    "let": "let v 1 + 1", "need": "need 1 = 1"}.items()})


def count_of(hints):
    """How many words a line takes behind its first one, and whether it may have more; None where the hints don't say."""
    found = re.search(r"takes (at least )?(no word|\d+) ?", hints)
    return found and (0 if found[2] == "no word" else int(found[2]), found[1] is not None)


def counts(says, front, line, behind=8):
    """For each count of words behind the first of the line: whether the reader calls it a bad line, and what the hints say."""
    words = line.split()
    for count in range(behind):
        text = " ".join([words[0], *(words[1:] + ["0"] * behind)[:count]])
        fault, hints = says(front + text + "\n")
        yield count, fault == (front.count("\n") + 1, "bad-line"), count_of(hints)


@pytest.mark.parametrize("verb", VERBS)
def test_counts(program, verb):
    """The words of each line of a set."""
    front, line = LINES[verb]
    seen = list(counts(Reader(program).check, front, line))
    taken = [count for count, is_bad, _ in seen if not is_bad]
    assert taken and taken[0] == len(line.split()) - 1
    assert {found for _, is_bad, found in seen if is_bad} == {(taken[0], len(taken) > 1)}


@pytest.mark.parametrize("verb", EVENTS)
def test_events(program, verb, tmp_path):
    """The words of each line of a script, and what can stand there."""
    path = tmp_path / "payment.set"
    path.write_text(PAYMENT, encoding="ascii")
    reader = Reader(program)

    def says(text):
        return reader.says(["run", "--hints", str(path)], text)

    seen = list(counts(says, "", EVENTS[verb]))
    taken = [count for count, is_bad, _ in seen if not is_bad]
    assert taken and taken[0] <= len(EVENTS[verb].split()) - 1
    assert {found for _, is_bad, found in seen if is_bad} == {(taken[0], len(taken) > 1)}
    assert told(says("zz\n")[1]) == (set(EVENTS), True)
