"""A SUMO network (.net.xml, or a .sumocfg that names it), its signal programs and its vehicles become a network file.

  link      an edge that a signal ends; unsignalised junctions, merges and roundabouts lie inside the movements
  movement  (edge, next edge, next link or `out`), as the vehicles drive; without vehicles, by lanes
  stage     the movements that a phase without yellow gives green, where no other phase gives these and more
  flow      lanes * saturation flow * (period - lost) / 3600; `g` counts where a turn has no `G`, as a part of a lane
  rate      of the busiest minutes; burst: the least that admits the stream
"""
import json, math, os, re
from collections import Counter, defaultdict
import explain, sumo
from common import Fault, listed, must_exist, options, put, written
from network import Junction, Link, Movement, Net, busiest, least_burst
from program import Program

SHARES, RARE = 100, 0.01               # the share total, and the part of a link below which ways on join another
WINDOW, BURST = 15, 10                 # minutes that give a rate, and the burst where no vehicles are given
YELLOW = {"y", "u"}                    # a phase with one of these is no stage

def distinct(wished):
    """A name of the network file for each, no two alike."""
    used, out = {"out"}, []
    for name in wished:
        base = re.sub(r"[^A-Za-z0-9_.-]", "_", name)[:28] or "_"
        out.append(next(n for n in (base, *(f"{base}.{k}" for k in range(2, 999))) if n not in used))
        used.add(out[-1])
    return out

class Group:
    """A movement: turns (link, exit, next link) of one link that share lanes, destination and phases."""
    def __init__(self, turns, share, exact, phases):
        self.link, _, self.next = turns[0]
        self.exits, self.share, self.exact, self.phases = sorted({x for _, x, _ in turns}), share, exact, phases
        self.flow = max(1, int(exact + 1e-9))

class Roads:
    """The edges that a light ends, the turns from them, and when these are green."""
    def __init__(self, net_file, additional, a):
        self.states, self.a, self.notes = sumo.signal_programs([net_file, *additional], a.tls_program), a, []
        self.net, self.light_of, self.turns, only = sumo.read_network(net_file), {}, defaultdict(dict), listed(a.junctions)
        for edge in self.net.getEdges():
            for to, connections in edge.getOutgoing().items():
                cars = [c for c in connections if any(c.getFromLane().allows(v) and c.getToLane().allows(v) for v in sumo.CARS)]
                if cars:
                    self.turns[edge.getID()][to.getID()] = cars
                for light in (c.getTLSID() for c in cars):
                    if light in self.states and (not only or light in only):
                        self.light_of[edge.getID()] = light
        if not self.light_of:
            raise Fault(f"{net_file}: no light with a program for cars" + (f" among {a.junctions}" if only else ""))
    def lanes_to(self, edge):
        """Exit -> its part of the lanes, without U-turns."""
        lanes = {x: len(c) for x, c in self.turns[edge].items() if c[0].getDirection() != sumo.TURNAROUND}
        return {x: n / sum(lanes.values()) for x, n in lanes.items()}
    def ahead(self, edge):
        """Where vehicles on `edge` come to: next link, or None for out -> part, lanes sharing evenly."""
        found, here = defaultdict(float), {edge: 1.0}
        for _ in range(10000):                                     # where roads go round without end
            e = max(here, key=here.get, default=None)
            part, lanes = here.pop(e, 0), {} if e in self.light_of or e is None else self.lanes_to(e)
            for x, share in lanes.items() if part > 1e-6 else ():
                here[x] = here.get(x, 0) + part * share
            if not lanes:
                found[e if e in self.light_of else None] += part
        return found
    def driven(self, vehicles):
        """(uses of each turn, departures by first link) of the vehicles."""
        use, first, count, without = Counter(), defaultdict(list), 0, 0
        for count, (time, edges) in enumerate(vehicles, 1):
            at = [i for i, e in enumerate(edges[:-1]) if e in self.light_of]
            without += not at
            for i in at[:1]:
                first[edges[i]].append(time)
            for i, j in zip(at, [*at[1:], None]):
                use[edges[i], edges[i + 1], None if j is None else edges[j]] += 1
        self.notes.append(f"{count} vehicles, of which {without} pass no signal")
        return use, first
    def by_lanes(self):
        """The same where no vehicles are given: a unit a link, and vehicles an hour for each edge at the rim."""
        use, first = Counter(), defaultdict(float)
        for e in self.light_of:
            for x, share in self.lanes_to(e).items():
                for b, part in self.ahead(x).items():
                    use[e, x, b] += share * part
        for edge in self.net.getEdges():
            into = [c for connections in edge.getIncoming().values() for c in connections]
            if self.turns[edge.getID()] and all(c.getDirection() == sumo.TURNAROUND for c in into):
                for b, part in self.ahead(edge.getID()).items():
                    first[b] += part * self.a.inflow * edge.getLaneNumber()
        self.notes.append(f"no vehicles given: shares by lanes, {self.a.inflow} vehicles an hour and lane at the rim")
        return use, first
    def green(self, edge, to):
        """(phases with green, lanes, part of a lane) of a turn; phases None where no light holds it."""
        connections = self.turns[edge].get(to, [])
        held = [c for c in connections if c.getTLSID()]
        if not held:
            return None, {c.getFromLane().getIndex() for c in connections}, 1.0
        for signs, part in (("G", 1.0), ("Gg", self.a.permissive)):
            lanes_in = {}
            for state, _ in self.states[self.light_of[edge]]:
                lanes = {c.getFromLane().getIndex() for c in held if state[c.getTLLinkIndex():][:1] in set(signs)}
                if lanes and not set(state) & YELLOW:
                    lanes_in[state] = lanes
            if lanes_in:
                most = max(lanes_in.values(), key=len)
                return frozenset(s for s, lanes in lanes_in.items() if len(lanes) == len(most)), most, part
        return frozenset(), set(), 0.0
    def without_red(self, use):
        """Without turns that are never green; where a link has no turn left, what goes to it goes out."""
        red = {(e, x) for e, x, _ in use if self.green(e, x)[0] == frozenset()}
        for e, x in sorted(red):
            lost = sum(n for m, n in use.items() if m[:2] == (e, x))
            self.notes.append(f"{e} to {x}: never green in the program of {self.light_of[e]}; {lost:.6g} vehicles left out")
        links, out = {e for e, x, _ in use if (e, x) not in red}, Counter()
        for (e, x, b), n in use.items():
            if (e, x) not in red:
                out[e, x, b if b in links else None] += n
        if not out:
            raise Fault("no vehicle passes a signal with green")
        return out
    def shares(self, use):
        """Turn -> whole parts of the share total. Rare ways on count with the largest stream of the same exit."""
        out = {}
        for e in dict.fromkeys(e for e, _, _ in use):
            ways = {m[1:]: n for m, n in use.items() if m[0] == e}
            total, largest = sum(ways.values()), {}
            for way in sorted(ways, key=ways.get):
                largest[way[0]] = way
            kept = {w: n for w, n in ways.items() if n >= RARE * total or largest[w[0]] == w}
            for w in ways.keys() - kept.keys():
                kept[largest[w[0]]] += ways[w]
                self.notes.append(f"{e} to {w[0]}: {ways[w]:.3g} of {total:.6g} vehicles that go on elsewhere count with the larger stream")
            exact = {w: n / total * SHARES for w, n in kept.items()}
            whole = {w: max(1, int(v)) for w, v in exact.items()}
            while sum(whole.values()) < SHARES:
                whole[max(whole, key=lambda w: exact[w] - whole[w])] += 1
            while sum(whole.values()) > SHARES:
                whole[max((w for w in whole if whole[w] > 1), key=lambda w: whole[w] - exact[w])] -= 1
            out.update({(e, *w): s for w, s in whole.items()})
        return out
    def flows(self, share, lanes, part):
        """Exact flow of each turn of a link: a lane that several turns share is divided among them by use."""
        mine = {m: {i: 1.0 for i in lanes[m]} for m in share}
        for _ in range(60):
            room = {m: max(1e-9, part[m] * sum(mine[m].values())) for m in share}
            for lane in set().union(*lanes.values()):
                want = {m: mine[m][lane] * share[m] / room[m] for m in share if lane in lanes[m]}
                for m in want:
                    mine[m][lane] = want[m] / sum(want.values())
        return {m: part[m] * sum(mine[m].values()) * self.a.sat * (self.a.period - self.a.lost) / 3600 for m in share}
    def groups(self, edge, share):
        """The movements out of an edge, of the shares of its turns."""
        phases, lanes, part = ({m: self.green(*m[:2])[i] for m in share} for i in range(3))
        exact, found = self.flows(share, lanes, part), []
        for sharing in joined(share, lanes):
            alike = defaultdict(list)
            for m in sharing:
                alike[m[2], phases[m]].append(m)
            rows = []
            for ms in alike.values():
                total = sum(share[m] for m in ms)
                rows.append(Group(ms, total, min(exact[m] / share[m] for m in ms) * total, phases[ms[0]]))
            self.round_down(edge, rows)
            found += rows
        for lane in sorted(set().union(*lanes.values())):
            if len({phases[m] for m in share if lane in lanes[m]}) > 1:
                self.notes.append(f"{edge} lane {lane}: its turns are not always green together, so one can block the other")
        return sorted(found, key=lambda g: (-g.share, g.exits, g.next or ""))
    def round_down(self, edge, rows):
        """Flows of turns that share lanes: whole, of at least 1, with their sum rounded down."""
        total = sum(g.exact for g in rows)
        over = lambda: sum(g.flow for g in rows) - int(total + 1e-9)
        while over() < 0:
            min(rows, key=lambda g: g.flow / g.share).flow += 1
        while over() > 0 and any(g.flow > 1 for g in rows):
            max((g for g in rows if g.flow > 1), key=lambda g: g.flow / g.share).flow -= 1
        if over() > 0:
            self.notes.append(f"{edge}: {total:.2f} vehicles a period, rounded up to {sum(g.flow for g in rows)}: take a longer --period")
        for g in rows:
            if g.flow < 0.85 * g.exact:
                self.notes.append(f"{edge} to {', '.join(g.exits)}: {g.exact:.2f} vehicles a period rounded down to {g.flow}, "
                                  f"{100 * (1 - g.flow / g.exact):.0f} % less: another --period loses less")
    def stages(self, light, groups):
        """(numbers of the movements, state) of each stage of a light."""
        own, found = [(k, g.phases) for k, g in enumerate(groups) if self.light_of[g.link] == light], {}
        for state, _ in self.states[light]:
            stage = frozenset(k for k, phases in own if phases is None or state in phases)
            if stage and not set(state) & YELLOW:
                found.setdefault(stage, state)
        return [(sorted(s), state) for s, state in found.items() if not any(s < other for other in found)]

def joined(turns, lanes):
    """The turns in lists that share lanes."""
    lists = []
    for m in turns:
        hit = [s for s in lists if any(lanes[m] & lanes[k] for k in s)]
        lists = [s for s in lists if s not in hit] + [[m] + [k for s in hit for k in s]]
    return lists

class Import:
    """The network, its map and its stream, of roads and vehicles."""
    def __init__(self, roads, vehicles, a):
        self.a, self.roads, self.counted, self.stream = a, roads, vehicles is not None, []
        use, self.first = roads.driven(vehicles) if self.counted else roads.by_lanes()
        share = roads.shares(roads.without_red(use))
        self.edges = [e for e in roads.light_of if any(m[0] == e for m in share)]
        self.link = dict(zip(self.edges, distinct(self.edges)))
        self.groups = [g for e in self.edges for g in roads.groups(e, {m: s for m, s in share.items() if m[0] == e})]
        lights = sorted({roads.light_of[e] for e in self.edges})
        self.light, self.stages = dict(zip(lights, distinct(lights))), {x: roads.stages(x, self.groups) for x in lights}
        directions = ["".join(sorted({roads.turns[g.link][x][0].getDirection() for x in g.exits})) for g in self.groups]
        names = distinct(f"{self.link[g.link]}.{d}" for g, d in zip(self.groups, directions))
        moves = [Movement(n, self.link[g.link], self.link.get(g.next, "out"), g.share, min(1000, g.flow)) for n, g in zip(names, self.groups)]
        junctions = [Junction(self.light[x], [s for s, _ in self.stages[x]]) for x in lights]
        self.net = Net(SHARES, 3600 // a.period, self.links(), moves, junctions)
    def links(self):
        if not self.counted:
            return [Link(n, BURST if self.first.get(e) else 0, math.ceil(self.first.get(e, 0))) for e, n in self.link.items()]
        last = max((t for e in self.edges for t in self.first.get(e, [])), default=0)
        per, out, columns = 3600 // self.a.period, [], []
        for e in self.edges:
            counts = [0] * (int(last // self.a.period) + 1)
            for t in self.first.get(e, []):
                counts[int(t // self.a.period)] += 1
            rate = math.ceil(busiest(counts, 60 * WINDOW // self.a.period) * per)
            out.append(Link(self.link[e], least_burst(counts, rate, per), rate))
            columns += [counts] if rate else []
        self.stream = [",".join(map(str, row)) + "\n" for row in zip(*columns)]
        return out
    def map(self, files):
        roads, edge = self.roads, self.roads.net.getEdge
        signals = lambda g: sorted(c.getTLLinkIndex() for x in g.exits for c in roads.turns[g.link][x] if c.getTLSID())
        nodes = {x: {edge(e).getToNode() for e in self.edges if roads.light_of[e] == x} for x in self.light}
        middle = lambda at: [round(sum(n.getCoord()[i] for n in at) / len(at), 1) for i in (0, 1)]
        links = [{"name": n, "edge": e, "light": roads.light_of[e], "shape": [p[:2] for p in edge(e).getShape()]} for e, n in self.link.items()]
        moves = [{"name": m[0], "edge": g.link, "exits": g.exits, "next": g.next, "signals": signals(g)} for m, g in zip(self.net.moves, self.groups)]
        junctions = [{"name": n, "light": x, "xy": middle(nodes[x]), "states": [s for _, s in self.stages[x]]} for x, n in self.light.items()]
        return {**files, "period": self.a.period, "notes": roads.notes, "links": links, "movements": moves, "junctions": junctions}
    def text(self, source):
        a = self.a
        head = [f"From {os.path.basename(source)} by `mp import`: {self.roads.notes[0]}.", f"Flows: lanes * {a.sat} vehicles an hour of green and "
                f"lane * ({a.period} s a period - {a.lost:g} s lost) / 3600; a turn that only yields counts as {a.permissive:g} of a lane."]
        head += [f"Rates: the busiest {WINDOW} minutes; bursts: the least that admit the stream."] if self.counted else []
        notes = {n: f"SUMO edge {e}, light {self.roads.light_of[e]}" for e, n in self.link.items()}
        return self.net.text(head, {**notes, **{m.name: f"to {', '.join(g.exits)}" for m, g in zip(self.net.moves, self.groups)}})

def arguments(parser):
    add = parser.add_argument
    add("net", metavar="NET", help="X.net.xml, or a .sumocfg that names it and its demand")
    add("-r", "--routes", help="route, trip and flow files, with commas")
    add("-a", "--additional", help="additional files (vehicle types, signal programs), with commas")
    add("-t", "--turns", help="turn ratios for jtrrouter; the routes are then its flows")
    add("-o", "--out", default="net", metavar="N", help="writes N.toml, N.stream and N.map.json (default: net)")
    add("--period", type=int, default=30, metavar="S", help="seconds in a period, a part of 3600 (default 30)")
    add("--periods", metavar="S,S,..", help="print the reserve with each of these periods, and write nothing")
    add("--lost", type=float, default=5, metavar="S", help="seconds of a period in which nobody passes (default 5)")
    add("--sat", type=int, default=1800, help="vehicles an hour of green and lane (default 1800)")
    add("--permissive", type=float, default=0.3, help="part of a lane that a turn which only yields has (default 0.3)")
    add("--inflow", type=int, default=200, help="without vehicles: vehicles an hour and lane at the rim (default 200)")
    add("--tls-program", metavar="ID", help="this signal program, or `all` to join them (default: the one loaded last)")
    add("--junctions", metavar="ID,ID,..", help="these lights alone; the others count as unsignalised")
    add("--scale", type=float, default=1, help="the part of the vehicles that counts (default 1)")
    add("--end", type=float, metavar="S", help="vehicles that depart before this time")
    options(parser, "program")

def build(a):
    """(import, files) with the period of `a`."""
    if not 1 <= a.period <= 3600 or 3600 % a.period or not 0 <= a.lost < a.period:
        raise Fault(f"--period {a.period} must divide 3600 and be above --lost {a.lost:g}")
    net_file, routes, additional = a.net, listed(a.routes), listed(a.additional)
    if a.net.endswith("cfg"):
        net_file, more, others = sumo.configuration(a.net)
        routes, additional = routes or more, additional + others
    must_exist(net_file, *routes, *additional, *listed(a.turns))
    roads = Roads(net_file, additional, a)
    cars = sumo.vehicles(net_file, routes, additional, a.turns, a.end) if routes else None
    cars = cars and (v for i, v in enumerate(cars) if int((i + 1) * a.scale) > int(i * a.scale))
    made = Import(roads, cars, a)
    if over := made.net.over_limit():
        raise Fault(f"{net_file}: {over}: take a part with --junctions ({', '.join(sorted(roads.states)[:6])}, ..)")
    net_file, *files = map(os.path.abspath, [net_file, *routes, *additional])
    return made, {"net": net_file, "routes": files[:len(routes)], "additional": files[len(routes):], "scale": a.scale}

def run(a):
    for period in listed(a.periods):
        if not period.isdigit():
            raise Fault(f"--periods: {period!r} is no whole number of seconds")
        a.period = int(period)
        net, program = build(a)[0].net, Program(a.program)
        with written(net.text()) as file:
            print(f"period {a.period:4} s: {program.verdict(file).kind}, reserve {explain.reserve(program, net)} %")
    if a.periods:
        return
    made, files = build(a)
    put(a.out + ".toml", made.text(files["net"]))
    put(a.out + ".map.json", json.dumps(made.map(files), indent=1))
    put(a.out + ".stream", "".join(made.stream) or "# no vehicles were given\n")
    print("".join(f"note: {words}\n" for words in made.roads.notes), end="")
    print(f"{a.out}.toml: {len(made.net.links)} links ({len(made.net.fed)} fed), {len(made.net.moves)} movements, {len(made.stages)} junctions, "
          f"{sum(map(len, made.stages.values()))} stages; {len(made.stream)} periods of {a.period} s")
