#!/usr/bin/env python3
"""tests/reference_picture.py [--walk | --late] SET: the picture of the set text in a file, or of the programs of its walk alone,
or of those that stand in its way and what they meet, by a plain reading of docs/FORMATS.md that was written apart from the
program; the verdict on the set is that of tests/reference.py. What it prints for a set is what a case of `lynx draw` expects,
and tests/test_random.py compares the program with it; tests/test_mend.py does with pictures of changed sets."""
import os
import sys

sys.path.insert(0, os.path.dirname(os.path.abspath(__file__)))
sys.dont_write_bytecode = True
import reference
from reference_late import abroad, late_blocks

COLOURS = ["#99ddff", "#eedd88", "#bbcc33", "#ffaabb", "#77aadd", "#ee8866", "#44bb99", "#dddddd",
           "#cceeff", "#eeeebb", "#ccddaa", "#ffcccc", "#bbccee", "#e8cdef", "#aaaa00", "#ffffff"]
HEAD = """digraph lynx {
  graph [fontname="Helvetica", fontsize=12, style=rounded, labeljust=l, newrank=true, nodesep=0.4, ranksep=0.6];
  node [shape=box, style=filled, fontname="Helvetica", fontsize=11];
  edge [fontname="Helvetica", fontsize=10];
"""
ACCEPTED = "accepted\\l"
EXCUSED = "accepted by blocks: the orange steps lead all the way round, but no chains run so: between chains of other " \
    "origins each block goes forward alone.\\l"
OFFENDING = "offending: by the red steps in their order, each chain may come before the next, all the way round.\\l"
LATE = "offending: the programs with thick frames stand in the way, since those of other servers meet two hops of theirs.\\l"
CHANGED = "Thick frames stand around changed hops.\\l"
LEGEND = ("Solid arrows lead to the next hop. Dashed lines join hops that may conflict, in the tables named.\\l"
          "Where two chains of one program may conflict, it is drawn again. Each server has its colour.\\l")
CONFLICTS = "  edge [style=dashed, dir=none];\n"
STEPS = '  edge [dir=forward, penwidth=2, color="#cc0000", fontcolor="#cc0000", fontsize=12];\n'
EXCUSED_STEPS = STEPS.replace("#cc0000", "#cc7700")
# a group of one origin with more programs than this stands in a box, without its conflicts
MAX_LINED = 10
# the programs that stand side by side in a box
ROW = 7
# by the first line of the verdict: the caption, and how the steps of the closed walk that offends are drawn
LOOKS = {
    "accepted": (ACCEPTED, STEPS),
    "accepted by blocks": (EXCUSED, EXCUSED_STEPS),
    "offending": (OFFENDING, STEPS),
}


def places(chains):
    """Each hop of the set, as a pair of its program and its number."""
    return [(program, hop) for program in chains.programs for hop in range(len(chains.hops(program)))]


def touches_of(chains, place):
    """The table, the least and the greatest key, and the kind of each touch of a hop."""
    touches = filter(None, (reference.touch_of(action) for action in chains.hops(place[0])[place[1]][1]))
    return [(table, chains.keys(place[0], key), kind) for table, key, kind in touches]


def may_meet(left, right):
    """Whether two touches may be of one cell, and don't commute."""
    are_apart = left[1][1] < right[1][0] or right[1][1] < left[1][0]
    return left[0] == right[0] and not are_apart and not reference.commute(left[2], right[2])


def parameter(chains, program, name):
    """A parameter of a program, with its range if it has one."""
    bounds = chains.programs[program]["ranges"].get(name)
    return f"{name}:{bounds[0]}..{bounds[1]}" if bounds else name


def tables_met(chains, left, right):
    """The tables at which two hops may conflict, in the order of the set."""
    if chains.hops(left[0])[left[1]][0] != chains.hops(right[0])[right[1]][0]:
        return []
    pairs = [(a, b) for a in touches_of(chains, left) for b in touches_of(chains, right)]
    return [table for table in chains.tables if any(a[0] == table and may_meet(a, b) for a, b in pairs)]


def conflicts(chains):
    """The pairs of hops that may conflict, the one that comes first in the set first."""
    found = places(chains)
    return [(left, right) for number, left in enumerate(found) for right in found[number:]
            if tables_met(chains, left, right)]


def groups(chains, edges):
    """The groups of programs that conflicts join, each in the order of the set."""
    left, found = list(chains.programs), []
    while left:
        group = {left[0]}
        while True:
            reached = {end[0] for edge in edges for end in edge if group & {edge[0][0], edge[1][0]}}
            if reached <= group:
                break
            group |= reached
        found.append([program for program in left if program in group])
        left = [program for program in left if program not in group]
    return found


def boxes(chains, edges):
    """The groups that stand in a box, by the first program of each."""
    return {group[0]: group for group in groups(chains, edges)
            if len(group) > MAX_LINED and len({chains.origin(program) for program in group}) == 1}


def box(chains, group, edges):
    """A box with the programs of a group."""
    pairs = sum(left[0] in group for left, _ in edges)
    lines = [f'  subgraph "cluster group of {group[0]}" {{',
             f'    label="{len(group)} programs that begin at server {chains.origin(group[0])}: '
             f'{pairs} pairs of their hops may conflict, and are not drawn";']
    for program in group:
        lines += cluster(chains, program, False)
    for above, below in zip(group, group[ROW:]):
        last = len(chains.hops(above)) - 1
        lines.append(f"    {node((above, last), False)} -> {node((below, 0), False)} [style=invis];")
    return lines + ["  }"]


def node(place, again):
    return f'"{place[0]} {place[1]}{" again" if again else ""}"'


def cluster(chains, program, again, late=()):
    """A program, or the program drawn again; those in the way, which are late, with a thick frame."""
    words = " ".join([program] + [parameter(chains, program, name) for name in chains.programs[program]["parameters"]])
    why = "\\lmeets other servers by two hops\\l" if program in late else ""
    label = f'style="dashed,rounded"; label="{program} (again)"' if again else f'label="{words}{why}"'
    lines = [f'  subgraph "cluster {program}{" again" if again else ""}" {{']
    lines += ["    penwidth=3;"] if program in late else []
    lines.append(f"    {label};")
    for hop, (server, actions) in enumerate(chains.hops(program)):
        words = "".join(" ".join(action) + "\\l" for action in actions)
        lines.append(f'    {node((program, hop), again)} [label="hop {hop} at server {server}\\n{words}", '
                     f'fillcolor="{COLOURS[server]}"];')
        if hop:
            lines.append(f"    {node((program, hop - 1), again)} -> {node((program, hop), again)};")
    return lines + ["  }"]


def steps(walk, drawn_twice):
    """The steps of a walk of conflict edges: from where, to where, and whether by a conflict. A visit is left by the
    beginning of an edge, and was entered by the end of the edge before."""
    visits = []
    for number, (left, _) in enumerate(walk):
        again = left[0] in drawn_twice and any(earlier[0] == left[0] for earlier, _ in walk[:number])
        visits.append(((walk[number - 1][1], again), (left, again)))
    found = []
    for number, (_, left) in enumerate(visits):
        entered, left_next = visits[(number + 1) % len(visits)]
        found.append((left, entered, True))
        if entered != left_next:
            found.append((entered, left_next, False))
    return found


def step_line(chains, number, step):
    (source, target, is_conflict) = step
    words = f' {number} {", ".join(tables_met(chains, source[0], target[0]))}"' if is_conflict \
        else f' {number}", style=solid, constraint=false'
    return f'  {node(*source)} -> {node(*target)} [label="{words}];'


def in_the_way(chains, status):
    """The programs of the late blocks of an offending set, and those that they meet at their ends."""
    reach = abroad(chains)
    ends = {end for block in late_blocks(chains, reach) for end in block} if status else set()
    return {end[0] for end in ends}, {other[0] for end in ends for other in reach[end]}


def shows(chains, program, hop):
    """What the node of a hop shows: its server and its lines of actions. None where the set has no such hop."""
    hops = chains.hops(program) if program in chains.programs else []
    return (hops[hop][0], [" ".join(action) for action in hops[hop][1]]) if hop < len(hops) else None


def marks(chains, before, shown, drawn_twice):
    """The frames of the hops of these programs that the set before hasn't."""
    changed = [(program, hop) for program in shown for hop in range(len(chains.hops(program)))
               if shows(chains, program, hop) != shows(before, program, hop)]
    return [f"    {node(place, again)} [penwidth=3];" for place in changed
            for again in ((False, True) if place[0] in drawn_twice else (False,))]


def picture(text, extent=None, before=None):
    """What `lynx draw` prints of a set text without fault, and its status; with --walk, of the programs of the walk alone, with
    --late, of those in the way and what they meet, without the walk. With the text of a set before, changed hops are marked."""
    chains, (verdict, status) = reference.Set(text), reference.check(text)
    edges = conflicts(chains)
    drawn_twice = {left[0] for left, right in edges if left[0] == right[0]}
    walk = [] if extent == "--late" else reference.least_walk(chains) or []
    walked = steps(walk, drawn_twice)
    late, met = in_the_way(chains, status)
    wanted = {None: set(chains.programs), "--walk": {left[0] for left, _ in walk}, "--late": late | met}[extent]
    shown = [program for program in chains.programs if program in wanted]
    large = boxes(chains, edges)
    boxed = {program for group in large.values() for program in group}
    lines = []
    for program in shown:
        if program in large:
            lines += box(chains, large[program], edges)
        elif program not in boxed:
            for again in (False, True) if program in drawn_twice else (False,):
                lines += cluster(chains, program, again, late)
    dashed = []
    for left, right in edges:
        if not {left[0], right[0]} <= set(shown) or left[0] in boxed:
            continue
        ends = {(left, False), (right, left[0] == right[0])}
        if not any(is_conflict and {source, target} == ends for source, target, is_conflict in walked):
            dashed.append(f'  {node(left, False)} -> {node(right, left[0] == right[0])} '
                          f'[label=" {", ".join(tables_met(chains, left, right))}"];')
    coloured = [step_line(chains, number, step) for number, step in enumerate(walked, 1)]
    put = lambda some: "".join(line + "\n" for line in some)
    caption, style = LOOKS[verdict.splitlines()[0]]
    if extent == "--late":
        caption = LATE if status else ACCEPTED
    framed = marks(chains, reference.Set(before), [program for program in shown if program not in boxed], drawn_twice) if before else []
    label = f'  label="{caption}{CHANGED if before else ""}{LEGEND}";\n'
    return HEAD + label + put(lines) + CONFLICTS + put(dashed) + style + put(coloured) + put(framed) + "}\n", status


if __name__ == "__main__":
    with open(sys.argv[-1], encoding="ascii") as file:
        sys.stdout.write(picture(file.read(), sys.argv[1] if sys.argv[2:] else None)[0])
