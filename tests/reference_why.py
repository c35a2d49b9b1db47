#!/usr/bin/env python3
"""tests/reference_why.py [--summary] SET: the verdict on the set text in a file and why it is so, by a plain reading of docs/FORMATS.md
that was written apart from the program; the verdict is that of tests/reference.py, and hops that may conflict are found as
for tests/reference_picture.py. What it prints for a set is what a case of `lynx check SET --why --all` expects, with --summary of
one without --all, and tests/test_random.py compares the program with both."""
import itertools
import os
import sys

sys.path.insert(0, os.path.dirname(os.path.abspath(__file__)))
sys.dont_write_bytecode = True
import reference
import reference_picture
from reference_late import abroad, late_blocks

ACTIONS = ("get", "set", "add", "sub", "max", "let", "need")
# how many conflicts of a cycle, and how many groups of an accepted set, a summary tells, at most
MAX_MEETINGS, MAX_GROUPS = 4, 8
SENTENCES = {"one-hop": "none of them meets others at two of its hops",
             "no-walk": "no cycle goes through a chain by two hops and over two first servers",
             "blocks": "the order of chains of one first server rules each cycle out"}
# how many sets without some of their programs are looked at, at most, and how many pairs of hops that may conflict in all
MAX_LOOKS, MAX_EDGES_SEEN = 2500, 50_000_000


def hop_lines(text):
    """The number of each hop's line, from 1, by its program and its number."""
    found, program, hop = {}, None, 0
    for number, line in enumerate(text.splitlines(), 1):
        words = line.split(" ")
        if words[0] == "program":
            program, hop = words[1], 0
        elif words[0] == "hop":
            found[program, hop] = number
            hop += 1
    return found


def meet_line(chains, lines, left, right):
    tables = " ".join(reference_picture.tables_met(chains, left, right))
    server = chains.hops(left[0])[left[1]][0]
    return f"meet {left[0]} {left[1]} {right[0]} {right[1]} server {server} table {tables} lines {lines[left]} {lines[right]}"


def groups(chains, edges):
    """The programs by groups, each a list in the order of the set: those that edges join, also by way of others."""
    number = {program: place for place, program in enumerate(chains.programs)}
    while True:
        joined = dict(number)
        for left, right in edges:
            least = min(joined[left[0]], joined[right[0]])
            joined[left[0]] = joined[right[0]] = least
        if joined == number:
            break
        number = joined
    return [[program for program in chains.programs if number[program] == least] for least in sorted(set(number.values()))]


def reason(chains, edges, group, otherwise):
    if len({chains.origin(program) for program in group}) == 1:
        return "one-origin"
    met = {place for edge in edges for place in edge}
    if all(sum(place[0] == program for place in met) < 2 for program in group):
        return "one-hop"
    return otherwise


def late_lines(chains, lines):
    """The lines of late blocks, and behind each what it meets where it is entered and where it is left."""
    reach, printed = abroad(chains), []
    for entered, left in late_blocks(chains, reach):
        exit_words = str(left[1]) if left[0] == entered[0] else f"{left[0]} {left[1]}"
        printed.append(f"late {entered[0]} {entered[1]} {exit_words} lines {lines[entered]} {lines[left]}")
        for end in (entered, left):
            printed += [meet_line(chains, lines, end, other).replace("meet", "abroad", 1) for other in reach[end]]
    return printed


def mixed_lines(chains, edges):
    """The lines of groups that have programs of two origins, and a program that meets others at two hops."""
    found = [group for group in groups(chains, edges) if reason(chains, edges, group, None) is None]
    return [f"mixed {' '.join(group)}" for group in found]


def left_of(text, programs):
    """The set text without these programs."""
    lines, is_left = [], True
    for line in text.splitlines():
        words = line.split(" ")
        if words[0] == "program":
            is_left = words[1] not in programs
        if is_left or words[0] not in ("program", "range", "hop", "end", *ACTIONS):
            lines.append(line)
        if words[0] == "end":
            is_left = True
    return "".join(line + "\n" for line in lines)


def is_accepted(text):
    chains = reference.Set(text)
    return not reference.block_walk_offends(chains) or reference.least_walk(chains) is None


def without_lines(text, chains, edges):
    """The lines of programs whose taking away makes the set accepted: of one program, of two or of three, the fewest; first
    those of which all have late blocks; at most three lines, and no more than so many sets are looked at."""
    late = {end[0] for block in late_blocks(chains, abroad(chains)) for end in block}
    found, looks, most = [], 0, min(MAX_LOOKS, MAX_EDGES_SEEN // max(len(edges), 1))
    for count in (1, 2, 3):
        chosen = list(itertools.combinations(chains.programs, count))
        for programs in sorted(chosen, key=lambda programs: not late >= set(programs)):
            if looks == most:
                return found + [f"bound {looks}"]
            looks += 1
            if is_accepted(left_of(text, programs)):
                found.append(f"without {' '.join(programs)}")
            if len(found) == 3:
                return found
        if found:
            return found
    return []


RELATIONS = {"<": int.__lt__, "<=": int.__le__, "=": int.__eq__, "!=": int.__ne__, ">=": int.__ge__, ">": int.__gt__}


def within(pieces, others):
    """The numbers that lie in both, as intervals."""
    return [(max(low, other), min(high, end)) for low, high in pieces for other, end in others if max(low, other) <= min(high, end)]


def never_at(chains, program):
    """The hop and the action, counted within it, by which a program can't begin: the first for whose key no argument is
    left by the shards of the hops so far, or a need between two numbers that doesn't hold. None where there is none."""
    left = {name: [chains.range(program, name)] for name in chains.programs[program]["parameters"]}
    for hop, (server, actions) in enumerate(chains.hops(program)):
        for place, words in enumerate(actions):
            if words[0] == "need" and words[1].isdigit() and words[3].isdigit():
                if not RELATIONS[words[2]](int(words[1]), int(words[3])):
                    return hop, place
            if words[0] in ("get", "set", "add", "sub", "max"):
                table, key = (words[2], words[3]) if words[0] == "get" else (words[1], words[2])
                if key in left:
                    left[key] = within(left[key], [(low, high) for low, high, keeper in chains.tables[table] if keeper == server])
                    if not left[key]:
                        return hop, place
    return None


def never_lines(chains, lines):
    found = [(program, never_at(chains, program)) for program in chains.programs]
    return [f"never {program} line {lines[program, at[0]] + 1 + at[1]}" for program, at in found if at]


def fewer(lines, most):
    """The first of these lines, and how many more there are."""
    return lines[:most] + ([f"  and {len(lines) - most} more"] if len(lines) > most else [])


def met_line(chains, lines, conflict):
    """The line of a conflict of a cycle, which is the words of its line."""
    left, right = (conflict[1], int(conflict[2])), (conflict[3], int(conflict[4]))
    tables = " ".join(reference_picture.tables_met(chains, left, right))
    hops = [f"hop {hop} of {program} (line {lines[program, hop]})" for program, hop in (left, right)]
    return f"  {hops[0]} meets {hops[1]} at server {chains.hops(left[0])[left[1]][0]} in table {tables}"


def fine_line(chains, edges, group, otherwise):
    """The line of a group of an accepted set, and why it is fine."""
    why_so = reason(chains, edges, group, otherwise)
    sentence = SENTENCES.get(why_so, f"all begin at server {chains.origin(group[0])}, and keep that order everywhere")
    return f"  {' '.join(group)}: {sentence}"


def summed_up(text):
    """The verdict on a set text without fault, the lines of its summary, and the status."""
    chains, (verdict, status) = reference.Set(text), reference.check(text)
    edges = reference_picture.conflicts(chains)
    otherwise = {"accepted\n": "no-walk", "accepted by blocks\n": "blocks"}.get(verdict)
    if otherwise:
        fine = [fine_line(chains, edges, group, otherwise) for group in groups(chains, edges)]
        return verdict, ["Whatever these programs do, a serial order explains it:"] + fewer(fine, MAX_GROUPS), status
    met = [met_line(chains, hop_lines(text), line.split(" ")) for line in verdict.splitlines()[1:]]
    blamed = [line.split(" ", 1)[1] for line in without_lines(text, chains, edges) if line.startswith("without ")]
    return verdict, (["These hops can meet in a circle, which no order explains:"] + fewer(met, MAX_MEETINGS)
                     + [f"Look first at {programs}, without which the set is accepted." for programs in blamed]
                     + ["lynx mend tells what makes it accepted, and --all lists every meeting."]), status


def summary(text):
    """What `lynx check SET --why` prints of a set text without fault, and its status."""
    verdict, printed, status = summed_up(text)
    return verdict + "".join(line + "\n" for line in printed), status


def why(text):
    """What `lynx check SET --why --all` prints of a set text without fault, and its status."""
    chains, (verdict, printed, status) = reference.Set(text), summed_up(text)
    edges, lines = reference_picture.conflicts(chains), hop_lines(text)
    printed += [meet_line(chains, lines, left, right) for left, right in edges]
    otherwise = {"accepted\n": "no-walk", "accepted by blocks\n": "blocks"}.get(verdict)
    if otherwise:
        printed += [f"group {reason(chains, edges, group, otherwise)} {' '.join(group)}" for group in groups(chains, edges)]
    for program in chains.programs:
        if chains.origin(program) in [server for server, _ in chains.hops(program)[1:]]:
            printed.append(f"busy {program} {chains.origin(program)}")
    printed += never_lines(chains, lines)
    if not otherwise:
        printed += late_lines(chains, lines) + mixed_lines(chains, edges) + without_lines(text, chains, edges)
    return verdict + "".join(line + "\n" for line in printed), status


def is_mended(text, printed):
    """Whether no walk of blocks of a set offends once the meetings are taken away that these lines name as abroad."""
    chains = reference.Set(text)
    words = [line.split(" ") for line in printed.splitlines() if line.startswith("abroad ")]
    taken = {frozenset([(word[1], int(word[2])), (word[3], int(word[4]))]) for word in words}
    every = reference.places(chains)
    met = {place for place in every for other in every
           if reference.meet(chains, place, other) and frozenset([place, other]) not in taken}
    return all(reference.is_forward(chains, block) for block in reference.blocks(chains) if met >= {block[0], block[1]})


if __name__ == "__main__":
    with open(sys.argv[-1], encoding="ascii") as file:
        sys.stdout.write((summary if sys.argv[1] == "--summary" else why)(file.read())[0])
