"""A plain reading of docs/PROOF.md and docs/FORMATS.md, written apart from the program: what a set text and a
script print, and the verdict on a set. It walks lists where the program may keep counters, and makes no effort to be
fast. tests/test_random.py compares the program with it, and tests/test_reference.py holds it to plainer ways.
"""
MASK = (1 << 64) - 1
GETTING, SETTING, ADDING, RAISING = "getting", "setting", "adding", "raising"
HELD_ROOM = 64


class Set:
    """A set of programs, from its text, which is known to have no fault."""

    def __init__(self, text):
        self.servers, self.tables, self.programs = 0, {}, {}
        program = None
        for line in text.splitlines()[1:]:
            words = line.split(" ")
            if words[0] == "servers":
                self.servers = int(words[1])
            elif words[0] == "table":
                shards = self.tables.setdefault(words[1], [])
            elif words[0] == "shard":
                shards.append(tuple(map(int, words[1:])))
            elif words[0] == "program":
                program = {"parameters": words[2:], "ranges": {}, "hops": []}
                self.programs[words[1]] = program
            elif words[0] == "range":
                program["ranges"][words[1]] = tuple(map(int, words[2].split("..")))
            elif words[0] == "hop":
                program["hops"].append((int(words[1]), []))
            elif words[0] != "end":
                program["hops"][-1][1].append(words)

    def server_of(self, table, key):
        return next(server for low, high, server in self.tables[table] if low <= key <= high)

    def hops(self, program):
        return self.programs[program]["hops"]

    def origin(self, program):
        return self.hops(program)[0][0]

    def visited(self, program):
        return sorted({server for server, _ in self.hops(program)})

    def range(self, program, parameter):
        """The least and the greatest argument of a parameter."""
        return self.programs[program]["ranges"].get(parameter, (0, MASK))

    def keys(self, program, word):
        """The least and the greatest key that a key word of the program may stand for."""
        return (int(word), int(word)) if word[0].isdigit() else self.range(program, word)

    def are_in_range(self, program, args):
        pairs = zip(self.programs[program]["parameters"], args)
        return all(low <= arg <= high for (low, high), arg in ((self.range(program, name), arg) for name, arg in pairs))


def touch_of(action):
    """The table, the key word and the kind of an action, if it touches a cell."""
    if action[0] == "get":
        return action[2], action[3], GETTING
    if action[0] == "set":
        return action[1], action[2], SETTING
    if action[0] in ("add", "sub"):
        return action[1], action[2], ADDING
    if action[0] == "max":
        return action[1], action[2], RAISING
    return None


def commute(left, right):
    return left == right and left != SETTING


def key_of(word, values):
    return int(word) if word[0].isdigit() else values[word]


def touches(chains, program, hop, args):
    values = dict(zip(chains.programs[program]["parameters"], args))
    found = [touch_of(action) for action in chains.hops(program)[hop][1]]
    return [(table, key_of(key, values), kind) for table, key, kind in filter(None, found)]


def conflict(lefts, rights):
    return any(a[:2] == b[:2] and not commute(a[2], b[2]) for a in lefts for b in rights)


def may_conflict(chains, left, right):
    """Of two pairs of a program and a hop."""
    (left_server, left_actions), (right_server, right_actions) = (chains.hops(p)[h] for p, h in (left, right))
    if left_server != right_server:
        return False
    for a in filter(None, map(touch_of, left_actions)):
        for b in filter(None, map(touch_of, right_actions)):
            (low, high), (other_low, other_high) = chains.keys(left[0], a[1]), chains.keys(right[0], b[1])
            if a[0] == b[0] and not commute(a[2], b[2]) and low <= other_high and other_low <= high:
                return True
    return False


def run_hop(chains, program, hop, args, earlier, cells):
    """The results and the changed cells, or the number of the need that isn't met."""
    values = dict(zip(chains.programs[program]["parameters"], args))
    bound = [a[1] for _, actions in chains.hops(program)[:hop] for a in actions if a[0] in ("get", "let")]
    values.update(zip(bound, [value for results in earlier for value in results]))
    of = lambda word: int(word) if word[0].isdigit() else values[word]
    cells, results, needs = dict(cells), [], 0
    for action in chains.hops(program)[hop][1]:
        if action[0] in ("get", "let"):
            if action[0] == "get":
                value = cells.get((action[2], of(action[3])), 0)
            else:
                left, right = of(action[2]), of(action[4])
                value = (left + right if action[3] == "+" else left - right) & MASK
            values[action[1]] = value
            results.append(value)
        elif action[0] == "need":
            left, right = of(action[1]), of(action[3])
            met = {"<": left < right, "<=": left <= right, "=": left == right,
                   "!=": left != right, ">=": left >= right, ">": left > right}
            if not met[action[2]]:
                return needs
            needs += 1
        else:
            cell = (action[1], of(action[2]))
            old, value = cells.get(cell, 0), of(action[3])
            changed = {"set": value, "add": old + value, "sub": old - value, "max": max(old, value)}
            cells[cell] = changed[action[0]] & MASK
    return results, {cell: value for cell, value in cells.items() if value}


class World:
    """One list of entries, each a dictionary with its server, and what each server holds."""

    def __init__(self, chains):
        self.chains, self.list = chains, []
        self.held = [[] for _ in range(chains.servers)]

    def history(self, server):
        return [entry for entry in self.list if entry["server"] == server]

    def tables(self, server):
        cells = {}
        for entry in self.history(server):
            if entry["kind"] != "refused":
                ran = run_hop(self.chains, entry["program"], entry["hop"], entry["args"], entry["earlier"], cells)
                cells = ran[1]
        return cells

    def clock(self, server):
        history = self.history(server)
        return history[-1]["stamp"] if history else 0

    def begun(self, server):
        return [entry for entry in self.history(server) if entry["kind"] == "begun"]

    def turn(self, server, origin):
        def is_last(entry):
            later = self.chains.hops(entry["program"])[entry["hop"] + 1:]
            return all(other != server for other, _ in later)
        return sum(entry["kind"] != "refused" and entry["chain"][0] == origin and is_last(entry)
                   for entry in self.history(server))

    def begin(self, server, client, number, program, args):
        chains = self.chains
        for entry in self.history(server):
            if entry["kind"] != "hop" and entry["client"] == (client, number):
                if (entry["program"], entry["args"]) != (program, args):
                    return "clash"
                return begin_line(entry) + " again"
        if chains.origin(program) != server:
            return "wrong-origin"
        if len(chains.programs[program]["parameters"]) != len(args):
            return "arg-count"
        if not chains.are_in_range(program, args):
            return "outside-range"
        for hop, (place, _) in enumerate(chains.hops(program)):
            if any(chains.server_of(table, key) != place for table, key, _ in touches(chains, program, hop, args)):
                return "wrong-shard"
        begun = self.begun(server)
        if self.turn(server, server) != len(begun):
            return "busy"
        entry = {"server": server, "client": (client, number), "program": program, "args": args, "hop": 0,
                 "earlier": [], "stamp": self.clock(server) + 1}
        ran = run_hop(chains, program, 0, args, [], self.tables(server))
        if isinstance(ran, int):
            entry.update(kind="refused", need=ran)
        else:
            numbers = {visited: sum(visited in chains.visited(other["program"]) for other in begun)
                       for visited in chains.visited(program)}
            entry.update(kind="begun", chain=(server, len(begun)), numbers=numbers, results=ran[0])
        self.list.append(entry)
        return begin_line(entry)

    def sent(self, chain, hop):
        """The message of that hop, if an entry sends it: the entry before it."""
        for entry in self.list:
            if entry["kind"] != "refused" and entry["chain"] == chain and entry["hop"] + 1 == hop:
                if hop < len(self.chains.hops(entry["program"])):
                    return {"chain": chain, "program": entry["program"], "hop": hop, "args": entry["args"],
                            "numbers": entry["numbers"], "stamp": entry["stamp"],
                            "earlier": entry["earlier"] + [entry["results"]]}
        return None

    def deliver(self, message):
        """The line of a delivery of a message that was sent."""
        chain, hop = message["chain"], message["hop"]
        server = self.chains.hops(message["program"])[hop][0]
        for entry in self.history(server):
            if entry["kind"] == "hop" and (entry["chain"], entry["hop"]) == (chain, hop):
                return self.ran_line("repeat", entry)
        number, turn = message["numbers"][server], self.turn(server, chain[0])
        if number < turn:
            return "malformed"
        held = self.held[server]
        if number > turn:
            if message in held:
                return f"held {name(chain)} {hop}"
            if len(held) < HELD_ROOM:
                held.append(message)
                held.sort(key=lambda other: (other["chain"], other["hop"]))
                return f"held {name(chain)} {hop}"
            return f"dropped {name(chain)} {hop}"
        results, _ = run_hop(self.chains, message["program"], hop, message["args"], message["earlier"], self.tables(server))
        entry = dict(message, kind="hop", server=server, results=results,
                     stamp=max(self.clock(server), message["stamp"]) + 1)
        self.list.append(entry)
        self.held[server] = [other for other in held if (other["chain"], other["hop"]) != (chain, hop)]
        return self.ran_line("done", entry)

    def ran_line(self, word, entry):
        hop = entry["hop"]
        more = f"next {hop + 1}" if hop + 1 < len(self.chains.hops(entry["program"])) else "end"
        return f"{word} {name(entry['chain'])} {hop} stamp {entry['stamp']} results {values(entry['results'])} {more}"

    def wake(self, server):
        for message in self.held[server]:
            if message["numbers"][server] == self.turn(server, message["chain"][0]):
                return self.deliver(message)
        return f"idle {server}"

    def apply(self, line):
        """What an event's line prints."""
        verb, *words = line.split(" ")
        if verb == "begin":
            return self.begin(int(words[0]), words[1], words[2], words[3], tuple(map(int, words[4:])))
        if verb in ("deliver", "lose"):
            chain, hop = tuple(map(int, words[0].split(":"))), int(words[1])
            message = self.sent(chain, hop)
            if message is None:
                return f"not-sent {name(chain)} {hop}"
            return self.deliver(message) if verb == "deliver" else f"lost {name(chain)} {hop}"
        if verb == "wake":
            return self.wake(int(words[0]))
        self.held[int(words[0])] = []
        return f"restarted {words[0]}"

    def cells(self):
        found = {}
        for server in range(self.chains.servers):
            found.update(self.tables(server))
        order = list(self.chains.tables)
        return sorted(found.items(), key=lambda cell: (order.index(cell[0][0]), cell[0][1]))

    def explained(self):
        """The order that explains the list, or a cycle, and the status."""
        acts = [entry for entry in self.list if entry["kind"] != "refused"]
        touched = [touches(self.chains, a["program"], a["hop"], a["args"]) for a in acts]
        before = {}
        for j, later in enumerate(acts):
            for i, act in enumerate(acts[:j]):
                if act["chain"] != later["chain"] and conflict(touched[i], touched[j]):
                    before.setdefault(later["chain"], set()).add(act["chain"])
        left = [act["chain"] for act in acts if act["kind"] == "begun"]
        order = []
        while left:
            free = [chain for chain in left if not before.get(chain, set()) & set(left)]
            if not free:
                return "cycle " + " ".join(map(name, cycle(left, before))), 1
            order.append(free[0])
            left.remove(free[0])
        return "order " + (" ".join(map(name, order)) or "-"), 0


def cycle(left, before):
    """From the chain begun first, back to the predecessor begun first, until one repeats."""
    path = [left[0]]
    while True:
        back = next(chain for chain in left if chain in before[path[-1]])
        if back in path:
            found = path[path.index(back):][::-1]
            first = min(range(len(found)), key=lambda i: left.index(found[i]))
            return found[first:] + found[:first]
        path.append(back)


def name(chain):
    return f"{chain[0]}:{chain[1]}"


def values(results):
    return " ".join(map(str, results)) or "-"


def begin_line(entry):
    if entry["kind"] == "refused":
        return f"refused {entry['need']} stamp {entry['stamp']}"
    return f"begun {name(entry['chain'])} stamp {entry['stamp']} results {values(entry['results'])}"


def run(set_text, script):
    """What is printed, and the status."""
    world = World(Set(set_text))
    lines = [world.apply(line) for line in script.splitlines()]
    lines += [f"cell {table} {key} {value}" for (table, key), value in world.cells()]
    last, status = world.explained()
    return "".join(line + "\n" for line in lines + [last]), status


def check(set_text):
    """The verdict's lines, and the status: a set is accepted where no closed walk offends, or no walk of blocks does."""
    chains = Set(set_text)
    walk = least_walk(chains)
    if walk is None:
        return "accepted\n", 0
    if not block_walk_offends(chains):
        return "accepted by blocks\n", 0
    lines = [f"conflict {a[0]} {a[1]} {b[0]} {b[1]}\n" for a, b in walk]
    return "offending\n" + "".join(lines), 1


def places(chains):
    """Each hop of the set, as a pair of its program and its number."""
    return [(program, hop) for program in chains.programs for hop in range(len(chains.hops(program)))]


def least_walk(chains):
    """The conflict edges of the least of the shortest closed walks that offend, by plain search, if there is one."""
    nodes = places(chains)
    joins = {node: [other for other in nodes if may_conflict(chains, node, other)] for node in nodes}
    place = {node: at for at, node in enumerate(nodes)}
    # a partial walk: the first visit's hop left, the newest visit's hop entered, whether some visit crossed, and the
    # origins that were met; levels keep the least list of edges for each such state, each edge by the places of its hops
    best = None
    for start in nodes:
        # the first visit leaves by `start`; it is entered by some hop of the same program
        states = {(other, False, False): [(place[start], place[other])] for other in joins[start]}
        for _ in range(2, 2 * len(nodes) + 3):
            if best is not None and len(next(iter(states.values()), [])) > len(best):
                break
            for (entered, crossed, differs), edges in states.items():
                if entered[0] == start[0] and len(edges) >= 2:
                    if (crossed or entered != start) and differs and (best is None or (len(edges), edges) < (len(best), best)):
                        best = edges
            after = {}
            for (entered, crossed, differs), edges in states.items():
                other_origin = differs or chains.origin(entered[0]) != chains.origin(start[0])
                for left in [(entered[0], h) for h in range(len(chains.hops(entered[0])))]:
                    for other in joins[left]:
                        state = (other, crossed or left != entered, other_origin)
                        path = edges + [(place[left], place[other])]
                        if state not in after or path < after[state]:
                            after[state] = path
            states = after
    return best and [(nodes[left], nodes[right]) for left, right in best]


def blocks(chains):
    """All blocks: the hop entered, the hop left, and whether they are of one chain; else they are of two chains of one
    origin, the one that is entered begun first."""
    pairs = [(entered, left) for entered in places(chains) for left in places(chains)
             if chains.origin(entered[0]) == chains.origin(left[0])]
    return [(*pair, True) for pair in pairs if pair[0][0] == pair[1][0]] + [(*pair, False) for pair in pairs]


def is_forward(chains, block):
    """Of one chain: it isn't left by an earlier hop than it was entered at. Of two: the second was at the server of the
    hop entered when it is left."""
    entered, left, is_one = block
    if is_one:
        return entered[1] <= left[1]
    server = chains.hops(entered[0])[entered[1]][0]
    return any(other == server for other, _ in chains.hops(left[0])[:left[1] + 1])


def meet(chains, left, right):
    """Whether two hops are of programs of different origins and may conflict, as between neighbours in a walk of blocks."""
    return chains.origin(left[0]) != chains.origin(right[0]) and may_conflict(chains, left, right)


def block_walk_offends(chains):
    """Whether some walk of blocks offends. It is enough to look at one block at a time: a walk of blocks offends exactly where
    some block isn't forward and both its hop entered and its hop left meet some hop of a program of another origin.

    Where a walk offends, it has a block that isn't forward, and its neighbours in the walk are of other origins: the
    hop left of the one before it meets its hop entered, and the hop entered of the one after it meets its hop left.
    Where there is such a block, these four are a walk, and it offends: the block; a chain of the hop that its hop left
    meets, entered and left by that hop; the block back, entered at the hop left and left by the hop entered, which is a
    block, as both are of one program or of one origin; and a chain of the hop that its hop entered meets, entered and
    left by that hop, from which the block is entered again."""
    met = {place for place in places(chains) if any(meet(chains, place, other) for other in places(chains))}
    return any(entered in met and left in met and not is_forward(chains, (entered, left, is_one))
               for entered, left, is_one in blocks(chains))


def short_block_walk_offends(chains, most=6):
    """Whether some walk of blocks of at most so many blocks offends, by trying all. For small sets."""
    every = blocks(chains)
    after = {block: [other for other in every if meet(chains, block[1], other[0])] for block in every}
    backward = {block for block in every if not is_forward(chains, block)}

    def tried(walk):
        if len(walk) >= 2 and walk[0] in after[walk[-1]] and not backward.isdisjoint(walk):
            return True
        return len(walk) < most and any(tried(walk + [other]) for other in after[walk[-1]])

    return any(tried([block]) for block in every)


def groups(chains):
    """The programs, by groups: those that dashed lines of the picture join, also by way of others."""
    group = {program: {program} for program in chains.programs}
    for left in places(chains):
        for right in places(chains):
            if may_conflict(chains, left, right) and group[left[0]] is not group[right[0]]:
                group[left[0]] |= group[right[0]]
                for program in group[right[0]]:
                    group[program] = group[left[0]]
    return [found for program, found in group.items() if program == min(found)]


def is_accepted_by_the_picture(chains):
    """The rule of docs/TUTORIAL.md, Mending a set that offends, by which many sets are seen to be accepted."""
    dashed = {place for place in places(chains) if any(may_conflict(chains, place, other) for other in places(chains))}
    away = {place for place in places(chains) if any(meet(chains, place, other) for other in places(chains))}
    count = lambda hops, program: sum(place[0] == program for place in hops)
    if all(len({chains.origin(program) for program in group}) == 1 or all(count(dashed, program) <= 1 for program in group)
           for group in groups(chains)):
        return True
    server = lambda place: chains.hops(place[0])[place[1]][0]
    has_been = lambda left, right: any(other == server(right) for other, _ in chains.hops(left[0])[:left[1] + 1])
    return all(count(away, program) <= 1 for program in chains.programs) and all(
        has_been(left, right) for left in away for right in away if chains.origin(left[0]) == chains.origin(right[0]))


def small_set(rng):
    """A set text of a few hops. Each touches one of two cells of its server, or one of those that a parameter's range
    allows. In half of the sets programs of more hops begin at server 0 and others elsewhere, so that two of one origin
    are common."""
    servers, left, number, low = rng.randint(2, 4), rng.randint(4, 8), 0, rng.choice([0, 1])
    lines = ["lynx 2", f"servers {servers}", "table t"]
    for server in range(servers):
        lines.append(f"shard {10 * server} {10 * server + 9 if server + 1 < servers else MASK} {server}")
    while left:
        lines.append(f"program p{number} k")
        if rng.random() < 0.5:
            bounds = sorted([rng.randrange(10 * servers), rng.randrange(10 * servers)])
            lines.append(f"range k {bounds[0]}..{bounds[1]}")
        count = min(left, rng.randint(1, 3))
        for hop in range(count):
            server = 0 if low and count > 1 and not hop else rng.randrange(low, servers)
            key = "k" if rng.random() < 0.1 else str(10 * server + rng.choice([0, 0, 0, 0, 1]))
            lines += [f"hop {server}", rng.choice([f"get y{hop} t {key}", f"set t {key} 1", f"add t {key} 1", f"max t {key} 1"])]
        lines.append("end")
        left, number = left - count, number + 1
    return "".join(line + "\n" for line in lines)
