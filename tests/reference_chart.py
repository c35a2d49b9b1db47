#!/usr/bin/env python3
"""tests/reference_chart.py SET SCRIPT: the chart of a run of the script over the set, by a plain reading of docs/FORMATS.md
and of crates/lynx_chart/specs that was written apart from the program; what the servers do is that of tests/reference.py. What it
prints is what a case of `lynx draw SET SCRIPT` expects, and tests/test_random.py compares the program with it."""
import os
import sys

sys.path.insert(0, os.path.dirname(os.path.abspath(__file__)))
sys.dont_write_bytecode = True
import reference
from reference_picture import COLOURS

STYLE = """<style>
svg{background:#ffffff;color:#333333;font:11px "DejaVu Sans Mono",Menlo,Consolas,monospace}
text{fill:currentColor}
path,use{fill:none;stroke:currentColor}
marker path{fill:currentColor;stroke:none}
.column{stroke:#999999;stroke-dasharray:1 4}
.head{font-weight:bold;text-anchor:middle}
.box use,.owed use{fill:inherit;stroke:#555555}
.box text{fill:#000000}
.at{text-anchor:end;opacity:0.7}
.refusal,.owed{fill:#ffffff}
.owed use{stroke:currentColor;stroke-dasharray:5 3}
.message{marker-end:url(#tip)}
.held{stroke-dasharray:6 4}
.again{stroke-width:0.5}
.restart{stroke-width:3;stroke-dasharray:2 2}
.link path{stroke:#cc0000;stroke-width:2;marker-end:url(#end)}
#end path,.link text{fill:#cc0000}
.link text{text-anchor:end;paint-order:stroke;stroke:#ffffff;stroke-width:4px}
.chain:hover path,.chain:hover use{stroke-width:3}
svg:has(.chain:hover) .chain:not(:hover){opacity:0.3}
@media (prefers-color-scheme:dark){
svg{background:#1c1c1c;color:#dddddd}
.owed{fill:#1c1c1c}
.link path{stroke:#ff7777}
#end path,.link text{fill:#ff7777}
.link text{stroke:#1c1c1c}
}
</style>
<defs>
<marker id="tip" viewBox="0 0 8 8" refX="8" refY="4" markerWidth="8" markerHeight="8"
 markerUnits="userSpaceOnUse" orient="auto"><path d="M0,0L8,4L0,8z"/></marker>
<marker id="end" viewBox="0 0 8 8" refX="8" refY="4" markerWidth="10" markerHeight="10"
 markerUnits="userSpaceOnUse" orient="auto"><path d="M0,0L8,4L0,8z"/></marker>
<path id="right" d="M0,0h20m-5,-5l10,10m0,-10l-10,10"/>
<path id="left" d="M0,0h-20m-5,-5l10,10m0,-10l-10,10"/>
<rect id="box" x="-8" y="-15" width="200" height="62"/>
</defs>
"""
SAYING = {
    "order": "One after another in this order, without a break, the chains give the same results.",
    "cycle": "By the red lines each chain comes before the next, and the last before the first.",
}
LEGEND = [
    "Down a column a server's entries stand by their stamps. An arrow is a message: dashed",
    "where it was held, thin where it came again, with a cross where it was lost or dropped.",
    "A dashed box is a hop that is owed. The colour of a chain is its place.",
]

LEFT, WIDE, TALL = 24, 200, 62      # the margin, and a box
COLUMN, ROW = 264, 104              # from column to column, from row to row
TOP, HEAD, BLOCK = 90, 28, 40       # what is above the first heads, a line of heads, and rows between two of them


def escaped(text):
    return text.replace("&", "&amp;").replace("<", "&lt;").replace(">", "&gt;").replace('"', "&quot;")


def fitted(text, most):
    return escaped(text) if len(text) <= most else escaped(text[:most - 2]) + ".."


def x_of(column):
    return LEFT + column * COLUMN


def y_of(row):
    return TOP + HEAD + row * ROW + row // BLOCK * HEAD


class Run:
    """What a script does over a set."""

    def __init__(self, set_text, script):
        self.set = reference.Set(set_text)
        self.world = reference.World(self.set)
        self.events, self.lines, self.restarts = script.splitlines(), [], []
        for line in self.events:
            before = len(self.world.list)
            self.lines.append(self.world.apply(line))
            if line.startswith("restart"):
                self.restarts.append((int(line.split(" ")[1]), before))
        self.last, self.status = self.world.explained()
        self.word, *names = self.last.split(" ")
        self.chains = [tuple(map(int, name.split(":"))) for name in names if name != "-"]
        self.stamps = sorted({entry["stamp"] for entry in self.world.list})
        self.acts = [entry for entry in self.world.list if entry["kind"] != "refused"]
        self.messages = self.sent()

    def row(self, entry):
        return self.stamps.index(entry["stamp"])

    def rows(self):
        """How many rows there are, those of owed hops among them."""
        return max([len(self.stamps)] + [message["row"] + 1 for message in self.messages])

    def sent(self):
        """Each message that was sent, in the order of the entries that sent them."""
        owed = [0] * self.set.servers
        found = []
        for act in self.acts:
            hops, hop = self.set.hops(act["program"]), act["hop"] + 1
            if hop < len(hops):
                ran = [other for other in self.acts if other["chain"] == act["chain"] and other["hop"] == hop]
                server = hops[hop][0]
                found.append({"act": act, "chain": act["chain"], "hop": hop, "server": server, "owed": not ran,
                              "row": self.row(ran[0]) if ran else len(self.stamps) + owed[server]})
                owed[server] += not ran
        return found

    def befell(self, message):
        """What befell a message on its way, by the lines that were printed."""
        told = f"{reference.name(message['chain'])} {message['hop']}"
        verbs = {"lost": "lost", "dropped": "dropped", "held": "held", "repeat": "again"}
        lines = [line for line, event in zip(self.lines, self.events) if not event.startswith("wake")]
        return [word for verb, word in verbs.items() if any((line + " ").startswith(f"{verb} {told} ") for line in lines)]

    def place_lines(self, chain):
        return [f"{self.chains.index(chain) + 1} in the {self.word}"] if chain in self.chains else []

    def colour(self, chain):
        return COLOURS[self.chains.index(chain) % 16] if chain in self.chains else "#ffffff"


def deed(run, entry):
    """What stands in an entry's box, a line each."""
    hop = f"{reference.name(entry['chain'])} hop {entry['hop']}" if entry["kind"] == "hop" else ""
    first = {"refused": lambda: f"refused by need {entry['need']}", "hop": lambda: hop,
             "begun": lambda: f"{reference.name(entry['chain'])} begins"}[entry["kind"]]()
    lines = [first, " ".join(map(str, (entry["program"],) + tuple(entry["args"])))]
    if entry["kind"] != "refused":
        lines.append("".join(run.place_lines(entry["chain"])))
        lines += [f"results {reference.values(entry['results'])}"] if entry["results"] else []
    return lines


def box(kind, server, row, corner, lines):
    """A box of a kind: what stands in its corner, and its lines."""
    title = escaped("".join(line + "\n" for line in lines if line) + corner)
    at = f'<text class="at" x="184">{corner}</text>' if corner else ""
    texts = "".join(f'<text y="{14 * i}">{fitted(line, 27)}</text>' for i, line in enumerate(lines) if line)
    return (f'<g class="{kind}" transform="translate({x_of(server) + 8},{y_of(row) + 15})"><title>{title}</title>'
            f'<use href="#box"/>{at}{texts}</g>\n')


def entry_box(run, entry):
    kind = "box refusal" if entry["kind"] == "refused" else "box"
    return box(kind, entry["server"], run.row(entry), f"stamp {entry['stamp']}", deed(run, entry))


def owed_box(message):
    lines = [f"{reference.name(message['chain'])} owes hop {message['hop']}", message["act"]["program"]]
    return box("owed", message["server"], message["row"], "", lines)


def route(a, r, b, q, shift):
    """The points of an arrow from the box at column a and row r to that at column b and row q."""
    out, into, lane = y_of(r) + 46 + 5 * shift, y_of(q) + 16 + 5 * shift, y_of(r) + TALL + 6 + 2 * a + shift
    right, left = lambda column: x_of(column) + WIDE, x_of
    if a == b:
        return [(right(a), out), (right(a) + 20, out), (right(a) + 20, into), (right(a), into)]
    if a < b:
        around = [(left(a + 1), lane), (right(b - 1), lane)] if a + 1 < b else []
        return [(right(a), out), *around, (left(b), into)]
    around = [(right(a - 1), lane), (left(b + 1), lane)] if b + 1 < a else []
    return [(left(a), out), *around, (right(b), into)]


def arrow(kind, points, title):
    way = "".join(f" {x},{y}" for x, y in points)
    return f'<path class="{kind}" d="M{way}">{title}</path>\n'


def arrows(run, message):
    """A message, with what befell it."""
    act, fates = message["act"], run.befell(message)
    a, r, b, q = act["server"], run.row(act), message["server"], message["row"]
    title = f"<title>{' '.join([reference.name(message['chain']), 'hop', str(message['hop'])] + fates)}</title>"
    out = owed_box(message) if message["owed"] else ""
    out += arrow("message held" if "held" in fates else "message", route(a, r, b, q, 0), title)
    if "again" in fates:
        out += arrow("message again", route(a, r, b, q, 1), title)
    if "lost" in fates or "dropped" in fates:
        side, x = ("left", x_of(a)) if b < a else ("right", x_of(a) + WIDE)
        out += f'<use href="#{side}" x="{x}" y="{y_of(r) + 31}">{title}</use>\n'
    return out


def chain_group(run, chain):
    out = f'<g class="chain" fill="{run.colour(chain)}">\n'
    out += "".join(entry_box(run, act) for act in run.acts if act["chain"] == chain)
    out += "".join(arrows(run, message) for message in run.messages if message["chain"] == chain)
    return out + "</g>\n"


def restart_line(run, server, before):
    """A server restarts above its next entry, or below all rows."""
    rows = [run.row(entry) for entry in run.world.list[before:] if entry["server"] == server] + [len(run.stamps)]
    title = f"<title>server {server} restarts</title>"
    return f'<path class="restart" d="M{x_of(server)},{y_of(rows[0])}m0,-3h{WIDE}">{title}</path>\n'


def meeting(run, one, other):
    """Where one chain precedes another: the entries, and the cell."""
    touched = lambda act: reference.touches(run.set, act["program"], act["hop"], act["args"])
    for i, act in enumerate(run.acts):
        for later in run.acts[i + 1:]:
            if act["chain"] == one and later["chain"] == other:
                for a in touched(act):
                    for b in touched(later):
                        if a[:2] == b[:2] and not reference.commute(a[2], b[2]):
                            return act, later, a[:2]
    raise ValueError


def links(run):
    if run.word == "order":
        return ""
    out = ""
    for i, (one, other) in enumerate(zip(run.chains, run.chains[1:] + run.chains[:1])):
        act, later, (table, key) = meeting(run, one, other)
        cell, end = f"{table} {key}", x_of(later["server"]) + WIDE
        title = escaped(f"{reference.name(one)} before {reference.name(other)} by {cell}")
        way = (f"M{x_of(act['server']) + WIDE},{y_of(run.row(act)) + 54}h{10 + 6 * (i % 4)}"
               f"V{y_of(run.row(later)) + 8}H{end}")
        out += (f'<g class="link"><title>{title}</title><path d="{way}"/>'
                f'<text x="{end + 4}" y="{y_of(run.row(later))}" dy="-8">{fitted(cell, 34)}</text></g>\n')
    return out


def heads(run, y):
    return "".join(f'<text class="head" x="{x_of(server) + 100}" y="{y}">server {server}</text>\n'
                   for server in range(run.set.servers))


def chart(set_text, script):
    """What `lynx draw SET SCRIPT` prints, and its status."""
    run = Run(set_text, script)
    rows, servers = run.rows(), range(run.set.servers)
    wide, tall = max(640, LEFT + run.set.servers * COLUMN), y_of(rows) + HEAD
    out = f'<svg xmlns="http://www.w3.org/2000/svg" width="{wide}" height="{tall}" viewBox="0 0 {wide} {tall}">\n'
    out += f"<desc>{run.last}</desc>\n" + STYLE
    for i, line in enumerate([run.last, SAYING[run.word]] + LEGEND):
        out += f'<text x="{LEFT}" y="{18 + 15 * i}">{fitted(line, 88)}</text>\n'
    for server in servers:
        out += f'<path class="column" d="M{x_of(server) + 100},118V{y_of(rows)}"/>\n'
    for block in range(0, rows // BLOCK + 1):
        out += heads(run, y_of(block * BLOCK) - 10)
    out += heads(run, tall - 10) if rows > 10 else ""
    out += "".join(entry_box(run, entry) for entry in run.world.list if entry["kind"] == "refused")
    out += "".join(chain_group(run, act["chain"]) for act in run.acts if act["kind"] == "begun")
    out += "".join(restart_line(run, *restart) for restart in run.restarts)
    return out + links(run) + "</svg>\n", run.status


if __name__ == "__main__":
    given = []
    for name in sys.argv[1:3]:
        with open(name, encoding="ascii") as file:
            given.append(file.read())
    sys.stdout.write(chart(*given)[0])
