"""Random sets, and random scripts over them, the same for the same seed."""
import reference

RELATIONS = ["<", "<=", "=", "!=", ">=", ">"]


def action(rng, server, names, parameters, is_first, version):
    """One line of a hop, and the name that it binds. In version 2 more keys are parameters, and `max` is there."""
    often = 0.2 * version
    key = lambda: rng.choice(parameters) if parameters and rng.random() < often else str(10 * server + rng.randrange(2))
    value = lambda: rng.choice(names) if names and rng.random() < 0.5 else str(rng.choice([0, 1, 2, 5, (1 << 64) - 1]))
    table = rng.choice("tu")
    kinds = ["get", "get", "set", "add", "add", "sub", "let"] + (["need"] if is_first else [])
    kinds += ["max", "max"] if version == 2 else []
    kind = rng.choice(kinds)
    new = f"n{len(names)}"
    if kind == "get":
        return f"get {new} {table} {key()}", new
    if kind == "let":
        return f"let {new} {value()} {rng.choice('+-')} {value()}", new
    if kind == "need":
        return f"need {value()} {rng.choice(RELATIONS)} {value()}", None
    return f"{kind} {table} {key()} {value()}", None


def only_action(rng, key, names, version, gets=0.5):
    """The one line of a hop that gets or changes the cell of a key, and the name that it binds."""
    new = f"n{len(names)}"
    kind = "max" if version == 2 and rng.random() < 0.5 else "set"
    return (f"get {new} t {key}", new) if rng.random() < gets else (f"{kind} t {key} {rng.randrange(9)}", None)


def range_lines(rng, parameters):
    """The lines of the ranges of some parameters, some of one number and some of all."""
    ends = [0, 0, 1, 9, 10, 11, 19, 20, 21, (1 << 64) - 1]
    pairs = [(name, sorted([rng.choice(ends), rng.choice(ends)])) for name in parameters if rng.random() < 0.7]
    return [f"range {name} {low}..{high}" for name, (low, high) in pairs]


def set_text(rng):
    """A set text without fault, and its programs with their counts of parameters. Half of the texts are of version 2, in
    which parameters have ranges and cells are raised. A third of the sets are loose. In the
    dense ones each hop gets or sets the one cell of its server, so that chains of different origins meet. In those that
    are apart a hop does so at one server for each program, and elsewhere gets or sets a cell of its program's origin:
    many of these sets are accepted by blocks, but not by walks."""
    style = rng.choice(["loose", "dense", "apart"])
    servers, version = rng.randint(1 if style == "loose" else 2, 3), rng.choice([1, 2])
    lines = [f"lynx {version}", f"servers {servers}"]
    for table in "tu":
        lines.append(f"table {table}")
        for server in range(servers):
            high = 10 * server + 9 if server + 1 < servers else (1 << 64) - 1
            lines.append(f"shard {10 * server} {high} {server}")
    programs, home, usual = [], rng.randrange(servers), rng.randrange(servers)
    for number in range(rng.randint(3, 6) if style == "apart" else rng.randint(1, 4)):
        parameters = [f"p{i}" for i in range(rng.randint(0, 2))] if style == "loose" else []
        names = list(parameters)
        lines.append(" ".join(["program", f"prog{number}"] + parameters))
        lines += range_lines(rng, parameters) if version == 2 else []
        meeting = usual if rng.random() < 0.6 else rng.randrange(servers)
        route = route_of(rng, style, servers, home, meeting)
        for hop, server in enumerate(route):
            lines.append(f"hop {server}")
            for _ in range(rng.randint(1, 3) if style == "loose" else 1):
                if style == "loose":
                    line, new = action(rng, server, names, parameters, hop == 0, version)
                elif style == "dense" or server == meeting:
                    line, new = only_action(rng, 10 * server, names, version)
                else:
                    line, new = only_action(rng, 10 * server + 1 + route[0], names, version, 0.2)
                lines.append(line)
                names += [new] if new else []
        lines.append("end")
        programs.append((f"prog{number}", len(parameters), route[0], len(route)))
    return "".join(line + "\n" for line in lines), programs


def route_of(rng, style, servers, home, meeting):
    """The servers of a program's hops. Those that are apart mostly lead from one home to where they meet others."""
    if style == "loose":
        return [rng.randrange(servers) for _ in range(rng.randint(1, 3))]
    if style == "apart" and rng.random() < 0.4:
        return [meeting]
    if style == "apart" and meeting != home and rng.random() < 0.7:
        return [home, meeting]
    return rng.sample(range(servers), rng.randint(2, servers))


def messages(world):
    """The chain and hop of each message that was sent."""
    acts = [entry for entry in world.list if entry["kind"] != "refused"]
    return [(act["chain"], act["hop"] + 1) for act in acts if act["hop"] + 1 < len(world.chains.hops(act["program"]))]


def event(rng, world, programs, number, count):
    """A line of a script that mostly does something in this world."""
    servers, kind, sent = world.chains.servers, rng.random(), messages(world)
    if kind < 0.4 or not sent:
        program, parameters, origin, _ = rng.choice(programs)
        server = origin if rng.random() < 0.95 else rng.randrange(servers)
        args = [str(rng.choice([0, 1, 10, 11, 20, 21])) for _ in range(parameters)]
        if rng.random() < 0.03:
            args.append("7")
        client, request = rng.randrange(3), number if rng.random() < 0.9 else rng.randrange(count)
        return " ".join(["begin", str(server), str(client), str(request), program] + args)
    if kind < 0.9:
        chain, hop = rng.choice(sent) if rng.random() < 0.3 else rng.choice(sent[-4:])
        if rng.random() < 0.05:
            hop += 1
        return f"{'deliver' if kind < 0.87 else 'lose'} {chain[0]}:{chain[1]} {hop}"
    return f"{'wake' if kind < 0.97 else 'restart'} {rng.randrange(servers)}"


def script(rng, text, programs, count):
    """Events of which most do something, made along with the world that they change."""
    world, lines = reference.World(reference.Set(text)), []
    for number in range(count):
        lines.append(event(rng, world, programs, number, count))
        world.apply(lines[-1])
    return "".join(line + "\n" for line in lines)
