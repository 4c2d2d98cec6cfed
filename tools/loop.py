"""SUMO with the program as its controller, beside SUMO's own programs over the same demand. NET and its map are what `import` wrote.

  program      `control`: the stages of greatest pressure at the queues that stand on the road
  guard        `controlguard` with a guard, and for how many movements SUMO's own queue exceeded its bound
  run          `run` over a pipe. It hears of arrivals alone and moves vehicles of its own: not for a real road
  static, actuated, delay_based    SUMO's programs, with the phases of the network
"""
import contextlib, itertools, multiprocessing, os, statistics, tempfile
import explain, sumo
from common import Fault, aligned, listed, must_exist, options, progress, put, read_map
from network import Net
from program import Program

SUMOS = ("static", "actuated", "delay_based")
MODES = ("program", "guard", "run", *SUMOS)
STANDS = 5                                                         # m/s: a slower vehicle counts as queued
YELLOW, RED = 3, 1                                                 # seconds between stages
COLUMNS = ("mode", "seed", "delay", "waiting", "longest", "queue", "teleports", "vehicles", "remark")

class Control:
    """`control` or `controlguard` over a pipe: the queues in, the stages out."""
    def __init__(self, program, *words):
        self.text, self.process = [], program.start(*words)
    def stages(self, counts, came):
        with contextlib.suppress(BrokenPipeError):                 # what it said is read below
            self.process.stdin.write(",".join(map(str, counts)) + "\n")
            self.process.stdin.flush()
        for line in self.process.stdout:
            self.text.append(line)
            if line.startswith(("p ", "c ")):
                return [int(x) - 1 for x in line.partition(" s ")[2].partition(" q ")[0].split()]
        raise Fault(f"the program ended with {self.process.wait()}: {self.process.stderr.readline().strip()}")
    def end(self):
        self.process.stdin.close()
        self.text += self.process.stdout
        self.process.wait()
        return "over a pipe"

class Run(Control):
    """`run` over a pipe: what came to the rim in, the stages out. Buckets hold back what it would refuse."""
    def __init__(self, net, program, path):
        super().__init__(program, "run", path)
        self.net, self.program, self.path, self.most = net, program, path, 0
        self.level, self.held = [0] * len(net.fed), [0] * len(net.fed)
    def stages(self, queues, came):
        per, admitted = self.net.per, []
        for i, l in enumerate(self.net.fed):
            link, wish = self.net.links[l], came[l] + self.held[i]
            admitted.append(min(wish, (per * link.burst + link.rate - self.level[i]) // per))
            self.level[i] = max(0, self.level[i] + per * admitted[i] - link.rate)
            self.held[i] = wish - admitted[i]
        self.most = max(self.most, sum(self.held))
        return super().stages(admitted, came)
    def end(self):
        super().end()
        answer = self.program.call("audit", self.path, text="".join(self.text))
        return f"it moved vehicles of its own; held back {self.most} at most; audit: {(answer.out + answer.err).strip()}"

class Road:
    """A simulation, and the network's names on it."""
    def __init__(self, a, net, names, mode, seed, folder):
        import libsumo
        self.su, self.a, self.net, self.names, self.folder = libsumo, a, net, names, folder
        self.lights = [j["light"] for j in names["junctions"]]
        self.link = {x["edge"]: i for i, x in enumerate(names["links"])}
        self.turn = {(m["edge"], x, m["next"]): k for k, m in enumerate(names["movements"]) for x in m["exits"]}
        self.any_next = {(e, x): k for (e, x, _), k in reversed(self.turn.items())}
        self.any_exit = {e: k for (e, _, _), k in reversed(self.turn.items())}
        self.routes, self.came, self.greatest, self.teleports = {}, [0] * len(net.links), 0, 0
        files = [*a.additional, *([self.own_programs(mode)] if mode in SUMOS else [])]
        libsumo.start(["sumo", "-n", names["net"], "-r", ",".join(a.routes), *(["-a", ",".join(files)] if files else []), *sumo.VALIDATION,
                       "--no-step-log", "--no-warnings", "--ignore-route-errors", "--seed", str(seed), "--scale", str(a.scale),
                       "--time-to-teleport", "300", "--end", str(a.end + a.drain), "--tripinfo-output", os.path.join(folder, "trips.xml"),
                       "--tripinfo-output.write-unfinished"])
        self.first = [libsumo.trafficlight.getProgram(light) for light in self.lights]
        self.now, self.wanted = ([None] * len(self.lights) for _ in range(2))
    def own_programs(self, kind):
        """An additional file with the phases of the network as a program of SUMO's."""
        programs, out = sumo.signal_programs([self.names["net"], *self.a.additional]), ["<additional>"]
        for light in self.lights:
            out.append(f'<tlLogic id="{light}" type="{kind}" programID="loop" offset="0">')
            for state, seconds in programs[light]:
                green = kind != "static" and "y" not in state and set(state) & set("Gg")
                more = f' minDur="5" maxDur="{max(20, round(1.6 * seconds))}"' if green else ""
                out.append(f'<phase duration="{seconds:g}" state="{state}"{more}/>')
            out.append("</tlLogic>")
        put(os.path.join(self.folder, "own.add.xml"), "\n".join([*out, "</additional>"]))
        return os.path.join(self.folder, "own.add.xml")
    def movement(self, route, at):
        """The movement of a vehicle on route[at], or None where it ends there."""
        if at + 1 >= len(route):
            return None
        edge, to, ahead = *route[at:at + 2], next((e for e in route[at + 1:-1] if e in self.link), None)
        return self.turn.get((edge, to, ahead), self.any_next.get((edge, to), self.any_exit.get(edge)))
    def standing(self):
        """How many vehicles stand on each movement's approach."""
        counts = [0] * len(self.net.moves)
        for edge in self.link:
            for v in self.su.edge.getLastStepVehicleIDs(edge):
                route = self.routes.get(v, ())
                k = self.movement(route, route.index(edge)) if edge in route and self.su.vehicle.getSpeed(v) < STANDS else None
                if k is not None:
                    counts[k] += 1
        return counts
    def show(self, second):
        """The lights, so many seconds into a period: yellow and red on the way from a stage to the wanted one."""
        for j, light in enumerate(self.lights) if second in (0, YELLOW, YELLOW + RED) else ():
            if self.now[j] != self.wanted[j]:
                states = self.names["junctions"][j]["states"]
                new, old = states[self.wanted[j]], states[self.wanted[j] if self.now[j] is None else self.now[j]]
                way = "".join(n if n in "Gg" and o in "Gg" else "y" if o in "Gg" and not second else "r" for o, n in zip(old, new))
                self.su.trafficlight.setRedYellowGreenState(light, new if second == YELLOW + RED else way)
                self.now[j] = self.wanted[j] if second == YELLOW + RED else self.now[j]
    def step(self, second):
        self.su.simulationStep()
        self.teleports += self.su.simulation.getStartingTeleportNumber()
        for v in self.su.simulation.getDepartedIDList():
            self.routes[v] = self.su.vehicle.getRoute(v)
            for e in [e for e in self.routes[v][:-1] if e in self.link][:1]:
                self.came[self.link[e]] += 1
        if second % 5 == 0:
            self.greatest = max(self.greatest, *(self.su.edge.getLastStepHaltingNumber(e) for e in self.link))
    def end(self):
        """The simulation ends; what its trips say, in seconds."""
        self.su.close()
        trips = [e.attrib for e in sumo.events(os.path.join(self.folder, "trips.xml")) if e.tag == "tripinfo"]
        waiting = [float(t["waitingTime"]) for t in trips] or [0]
        delay = [float(t["timeLoss"]) + max(0, float(t["departDelay"])) for t in trips] or [0]
        return [f"{statistics.mean(delay):.1f}", f"{statistics.mean(waiting):.1f}", round(max(waiting)), self.greatest, self.teleports, len(trips)]

def controller(a, net, program, mode):
    """(the controller or None, the guard's bounds or None)"""
    if mode == "guard":
        path, header, left_out = explain.read_guard(a, program)
        if not header:
            raise Fault(left_out[0] if path else "no guard beside the network: `mp guard` makes one")
        return Control(program, "controlguard", a.net, path), header.bounds
    if mode == "program":
        return Control(program, "control", a.net), None
    return Run(net, program, a.net) if mode == "run" else None, None

def drive(a, net, names, program, mode, seed, folder):
    """The row of one mode and seed."""
    control, bounds = controller(a, net, program, mode)
    road, most, remarks = Road(a, net, names, mode, seed, folder), [0] * len(net.moves), []
    for second in progress(f"{mode}, seed {seed}, second", range(a.end + a.drain)):
        if control and second % names["period"] == 0:
            queues = road.standing()
            most = list(map(max, most, queues))
            try:
                road.wanted, road.came = control.stages(queues, road.came), [0] * len(net.links)
            except Fault as fault:
                remarks, control = [f"at {second} s {fault}; the signals' own programs went on"], None
                for light, first in zip(road.lights, road.first):
                    road.su.trafficlight.setProgram(light, first)
        if control:
            road.show(second % names["period"])
        road.step(second)
        if second >= a.end and road.su.simulation.getMinExpectedNumber() == 0:
            break
    remarks += [control.end()] if control else []
    if bounds:
        over = sum(q > bound for q, bound in zip(most, bounds))
        remarks.append(f"{over} of {len(bounds)} queues exceeded their bounds of {min(bounds)} to {max(bounds)}; the greatest was {max(most)}")
    return [mode, seed, *road.end(), "; ".join(remarks)]

def alone(sender, *words):
    """`drive` in a process of its own, since SUMO ends its process where it fails."""
    try:
        with contextlib.suppress(KeyboardInterrupt), tempfile.TemporaryDirectory() as folder:
            sender.send(drive(*words, folder))
    except Exception as fault:                                     # libsumo has several of its own
        sender.send([*words[4:6], *"------", (str(fault).strip().splitlines() or [repr(fault)])[0]])

def arguments(parser):
    options(parser, "net")
    add = parser.add_argument
    add("-r", "--routes", help="route files, with commas (default: those of the import)")
    add("-a", "--additional", help="additional files, with commas (default: those of the import)")
    add("--modes", default="program,static,actuated,delay_based", help=f"of {', '.join(MODES)}")
    add("--seeds", default="1", help="seeds of SUMO, with commas (default 1)")
    add("--end", type=int, default=3600, metavar="S", help="seconds of demand (default 3600)")
    add("--drain", type=int, default=1800, metavar="S", help="seconds more for what is on the road (default 1800)")
    add("--scale", type=float, help="part of the demand that drives (default: that of the import)")
    options(parser, "map", "guard", "program")

def prepared(a):
    """The network and its map; files and scale filled in from the map."""
    net = Net.read(a.net)
    names = read_map(a, net)
    if not names:
        raise Fault(f"{a.net} has no map beside it: `mp import` writes one", 2)
    a.routes, a.scale = listed(a.routes) or names["routes"], a.scale or names["scale"]
    a.additional = names["additional"] if a.additional is None else listed(a.additional)
    wrong = [f"no mode {mode!r}, but {', '.join(MODES)}" for mode in listed(a.modes) if mode not in MODES]
    wrong += [f"no seed {seed!r}, but whole numbers" for seed in listed(a.seeds) if not seed.isdigit()]
    wrong += [] if a.routes else ["no routes: name them with -r"]
    wrong += [] if YELLOW + RED < names["period"] else [f"yellow and red leave no green in a period of {names['period']} s"]
    if wrong:
        raise Fault(wrong[0])
    must_exist(names["net"], *a.routes, *a.additional)
    return net, names

def run(a):
    net, names = prepared(a)
    import libsumo  # noqa: F401  (a missing package is reported before anything runs)
    program, rows, fork = Program(a.program), [], multiprocessing.get_context("fork")
    for mode, seed in itertools.product(listed(a.modes), listed(a.seeds)):
        receiver, sender = fork.Pipe(False)
        child = fork.Process(target=alone, args=(sender, a, net, names, program, mode, seed))
        child.start()
        sender.close()
        try:
            rows.append(receiver.recv())
        except EOFError:
            rows.append([mode, seed, *"------", "SUMO ended the process"])
        child.join()
    print("\n".join(aligned([COLUMNS, *rows])))
    print("means of delay and waiting, and the longest waiting, in seconds; queue: the most that halted on one edge")
    return 3 if any(row[2] == "-" for row in rows) else 0
