"""Where the shapes of charts stand: the runs of tests/cases/charts, and runs of two, four and sixteen servers. Each chart is read
by an XML parser, no two boxes meet, and no arrow goes through a box. As a headless Chromium draws it, each box has to stand
below the head of the server whose entry it is, entries of later stamps lower."""
import functools
import os
import random
import re
import subprocess
import xml.etree.ElementTree as ElementTree

import pytest
import reference
from serving import TOP

SVG = "{http://www.w3.org/2000/svg}"
PAGE = """<!DOCTYPE html><meta charset="ascii"><body style="margin:0">%s<pre id="told"></pre><script>
const told = [];
for (const it of document.querySelectorAll("text.head, g.box, g.owed")) {
  const seen = (it.querySelector("use") || it).getBoundingClientRect();
  const text = it.querySelector("title") || it;
  told.push([Math.round(seen.x + seen.width / 2), Math.round(seen.y), text.textContent.replaceAll("\\n", "|")].join(" "));
}
document.getElementById("told").textContent = told.join("\\n");
</script></body>"""


def random_run(seed, servers, count):
    """A set of that many servers, and a script for it that mostly does something."""
    rng = random.Random(seed)
    lines = ["lynx 1", f"servers {servers}", "table cell"]
    for server in range(servers):
        high = 10 * server + 9 if server + 1 < servers else (1 << 64) - 1
        lines.append(f"shard {10 * server} {high} {server}")
    routes = [rng.sample(range(servers), rng.randint(2, min(servers, 5))) for _ in range(6)]
    for number, route in enumerate(routes):
        lines.append(f"program prog{number}")
        lines += [line for server in route for line in (f"hop {server}", f"set cell {10 * server} {number}")]
        lines.append("end")
    text = "".join(line + "\n" for line in lines)
    world, script = reference.World(reference.Set(text)), []
    for number in range(count):
        sent = [(act["chain"], act["hop"] + 1) for act in world.list if act["hop"] + 1 < len(world.chains.hops(act["program"]))]
        if not sent or rng.random() < 0.4:
            program = rng.randrange(6)
            script.append(f"begin {routes[program][0]} 1 {number} prog{program}")
        elif rng.random() < 0.9:
            (origin, index), hop = rng.choice(sent[-4:])
            script.append(f"{'lose' if rng.random() < 0.1 else 'deliver'} {origin}:{index} {hop}")
        else:
            script.append(f"restart {rng.randrange(servers)}")
        world.apply(script[-1])
    return text, "".join(line + "\n" for line in script)


def stored_run(stem):
    """The set and the script of a case."""
    return tuple(read(stem + part) for part in (".set", ".script"))


def read(path):
    with open(path, encoding="ascii") as file:
        return file.read()


def runs():
    """The names of all runs, each with what makes its set and its script."""
    folder = os.path.join(TOP, "tests", "cases", "charts")
    for name in sorted(os.listdir(folder)):
        if name.endswith(".script"):
            yield name[:-7], functools.partial(stored_run, os.path.join(folder, name[:-7]))
    for servers, count in ((2, 12), (2, 40), (4, 40), (4, 120), (16, 40), (16, 200)):
        yield f"{count} events of {servers} servers", functools.partial(random_run, servers, servers, count)


def boxes_of(chart):
    """The corner of each box, and its title."""
    for group in chart.iter(f"{SVG}g"):
        if "transform" in group.attrib:
            x, y = map(int, re.fullmatch(r"translate\((\d+),(\d+)\)", group.get("transform")).groups())
            yield x - 8, y - 15, group.find(f"{SVG}title").text


def goes_through(start, end, x, y):
    """Whether a line between two points meets the inside of the box at that corner."""
    for part in range(1, 400):
        at_x = start[0] + (end[0] - start[0]) * part / 400
        at_y = start[1] + (end[1] - start[1]) * part / 400
        if x + 1 < at_x < x + 199 and y + 1 < at_y < y + 61:
            return True
    return False


def faults_of(text):
    """What is wrong with the places of a chart's shapes."""
    chart = ElementTree.fromstring(text)
    boxes = list(boxes_of(chart))
    for i, (x, y, title) in enumerate(boxes):
        for other_x, other_y, other in boxes[:i]:
            if abs(x - other_x) < 200 and abs(y - other_y) < 62:
                yield f"{title!r} and {other!r} meet"
    for arrow in [path for path in chart.iter(f"{SVG}path") if path.get("class", "").startswith("message")]:
        points = [tuple(map(int, point.split(","))) for point in arrow.get("d").removeprefix("M").split()]
        for start, end in zip(points, points[1:]):
            for x, y, title in boxes:
                low, high = sorted((start[1], end[1]))
                if low < y + 62 and y < high + 1 and goes_through(start, end, x, y):
                    yield f"the arrow of {arrow.find(SVG + 'title').text!r} goes through {title!r}"


def servers_of(set_text, script):
    """Which server's each box is, by its title: the titles that tests/reference.py knows."""
    world = reference.World(reference.Set(set_text))
    for line in script.splitlines():
        world.apply(line)
    found = {}
    for entry in world.list:
        if entry["kind"] == "refused":
            continue
        what = "begins" if entry["kind"] == "begun" else f"hop {entry['hop']}"
        found[f"{reference.name(entry['chain'])} {what}"] = entry["server"]
    for entry in [it for it in world.list if it["kind"] != "refused"]:
        hops = world.chains.hops(entry["program"])
        if entry["hop"] + 1 < len(hops):
            found[f"{reference.name(entry['chain'])} owes hop {entry['hop'] + 1}"] = hops[entry["hop"] + 1][0]
    return found


def seen_faults(browser, room, text, set_text, script):
    """What is wrong with the places of boxes as a browser draws them."""
    page = room / "page.html"
    page.write_text(PAGE % text, encoding="ascii")
    words = [browser, "--headless", "--no-sandbox", "--disable-gpu", f"--user-data-dir={room}/data", "--dump-dom",
             f"file://{page}"]
    ran = subprocess.run(words, stdin=subprocess.DEVNULL, capture_output=True, text=True, timeout=120)
    told = re.search(r'<pre id="told">(.*?)</pre>', ran.stdout, re.S)
    if not told:
        yield f"the browser told nothing: {ran.stderr[-300:]}"
        return
    heads, lowest, servers = {}, {}, servers_of(set_text, script)
    for line in told[1].split("\n"):
        x, y, title = line.split(" ", 2)
        if re.fullmatch(r"server \d+", title):
            if abs(heads.setdefault(int(title[7:]), int(x)) - int(x)) > 1:
                yield f"heads of {title} stand in two columns"
            continue
        server = servers.get(title.split("|")[0])
        if server is not None and abs(heads[server] - int(x)) > 1:
            yield f"{title} stands at {x}, and the head of server {server} at {heads[server]}"
        if title.split("|")[-1].startswith("stamp "):
            lowest.setdefault(int(title.split("|")[-1][6:]), set()).add(int(y))
    rows = [lowest[stamp] for stamp in sorted(lowest)]
    if any(len(row) != 1 for row in rows) or any(max(a) + 62 > min(b) for a, b in zip(rows, rows[1:])):
        yield "rows aren't the stamps in order"


@pytest.mark.parametrize("made", [pytest.param(made, id=name) for name, made in runs()])
def test_places(program, chromium, tmp_path, made):
    """Nothing of a chart meets, and a browser puts each box where it belongs."""
    set_text, script = made()
    paths = [tmp_path / name for name in ("set", "script")]
    for path, content in zip(paths, (set_text, script)):
        path.write_text(content, encoding="ascii")
    ran = subprocess.run([program, "draw", *paths], stdin=subprocess.DEVNULL, capture_output=True, text=True, timeout=60)
    assert ran.returncode <= 1 and ran.stderr == ""
    assert list(faults_of(ran.stdout)) == []
    assert list(seen_faults(chromium, tmp_path, ran.stdout, set_text, script)) == []
