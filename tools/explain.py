"""What the program says of a network, or of a line on its error output, in an engineer's words.

Carried: per movement its demand, its capacity in the certificate's green split, and the ratio of both (v/c). Overloaded: which
movements of which junction share too little green. Statuses: 0 carried, 4 overloaded or critical, 5 undecided. With a LINE, as
`explain net.toml network N9 link 1`: what it means at that place of that file, and what to change.
"""
import math, os
from collections import namedtuple
import lines
from common import Fault, aligned, options, progress, read_map, seconds_in_period, time_words, written
from network import Net, table
from program import Program, greens

STATUSES, MOST = {"carried": 0, "overloaded": 4, "critical": 4, "undecided": 5}, 400    # per cent that a reserve tries at most

# A movement in the certificate's green split, or green all the time where there is no certificate. Floats, for reading.
Load = namedtuple("Load", "demand capacity green ratio")

def short_junctions(net, vector):
    """(junction, weights) of each that is short by itself at the vector, the shortest first: where the sum of weight * demand over its
    movements is at least the most that one of its stages serves."""
    weights, flows, found = net.weights(vector), net.flows(), []
    for j, own in enumerate(net.own):
        served = net.per * max(sum(net.moves[k].flow * weights[k] for k in s) for s in net.junctions[j].stages)
        load = sum(weights[k] * flows[k] for k in own)
        if served and load >= served * (1 - 1e-9):
            found.append((load / served, j, {k: weights[k] for k in own if weights[k]}))
    return [(net.junctions[j].name, weights) for _, j, weights in sorted(found, key=lambda x: -x[0])]

def own_vector(net, weights):
    """The vector with these weights at one junction and none elsewhere: upstream what leads to them."""
    p, before = [weights.get(k, 0) for k in range(len(net.moves))], None
    while before is None or max(abs(x - y) for x, y in zip(p, before)) > 1e-12 * max(p):
        before, p = p, [weights.get(k, 0) + sum(net.moves[i].share * p[i] for i in net.downstream[k]) / net.shares for k in range(len(p))]
    return p

class Facts:
    """A network with the program's answers on it, and what is computed from these for reading."""
    def __init__(self, a):
        table(a.net)
        self.path, self.program = a.net, Program(a.program)
        self.verdict = self.program.verdict(a.net)
        if self.verdict.kind == "refused":
            raise Fault(f"{a.net}: {self.verdict.how}: {lines.meaning(self.verdict.how, a.net)}")
        self.net = Net.read(a.net)
        self.map = read_map(a, self.net)
        self.seconds = seconds_in_period(a, self.map)
        self.time = lambda periods: time_words(periods, self.seconds)
        self.factor = 3600 / (self.net.per * self.seconds) if self.seconds else 1        # of flows, as they are printed
        self.unit = "vehicles an hour" if self.seconds else f"vehicles per {self.net.per} periods"
        self.carried, self.log = self.verdict.kind == "carried", None
        split = "in the certificate's green split" if self.carried else "if green all the time, so v/c is the part that it needs"
        self.load_words = f"Demand and capacity in {self.unit}, {split}."
        header = self.program.header(a.net, self.verdict.certificate) if self.carried else None
        self.slack, self.bounds = (header.slack, header.bounds) if header else ("", [])
        green = greens(self.verdict.certificate, self.net) if self.carried else [1] * len(self.net.moves)
        full = [m.flow * self.net.per * g for m, g in zip(self.net.moves, green)]
        self.loads = [Load(f * self.factor, c * self.factor, g, f / c if c else 0.0) for f, c, g in zip(self.net.flows(), full, green)]
        self.guard_path, self.guard, self.notes = read_guard(a, self.program)
        self.short = {}                                            # junction -> the part of its time that it needs, where that is too much
        self.verdict_words = self.verdict_lines()
    def verdict_lines(self):
        if self.carried:
            slack = f" (slack {self.slack} vehicles a period)" if self.slack else ""
            return [f"carried: every movement can pass more than comes to it, all at once{slack}, by {self.verdict.how}"]
        return [f"undecided: {self.verdict.how}"] if self.verdict.kind == "undecided" else self.overload_lines()
    def need_lines(self, numbers):
        for k in sorted(numbers, key=lambda k: -self.loads[k].ratio):
            x = self.loads[k]
            yield f"  {self.net.moves[k].name}: {x.demand:,.0f} of {x.capacity:,.0f} {self.unit} of green, {100 * x.ratio:.1f} % of the time"
    def overload_lines(self):
        """An overloaded or critical network in words. Each limit that is named is confirmed by the program."""
        net, kind, ratio, body = self.net, self.verdict.kind, lambda sums: sums.load / sums.capacity, []
        found = [self.program.refute(self.path, self.verdict.vector)]
        for name, weights in short_junctions(net, self.verdict.vector):
            sums = self.program.confirmed(self.path, own_vector(net, weights))
            own = next((s for s in sums if ratio(s) > 0.9999 * max(map(ratio, sums))), None)   # the shortest numbers
            if kind == "critical":
                self.short[name] = "all"
                body += [f"junction {name} needs all of its time:", *self.need_lines(weights)]
            elif own:
                found.insert(0, own)
                self.short[name] = f"{100 * ratio(own):.1f} %"
                body += [f"junction {name} needs {self.short[name]} of its time (refute: load {own.load} against {own.capacity}):",
                         *self.need_lines(weights)]
        if not body:
            most = sorted(range(len(net.moves)), key=lambda k: -self.verdict.vector[k])[:6]
            body = ["no junction is short by itself; most of the vector lies on", *self.need_lines(most)]
        best = max(filter(None, found), key=ratio, default=None)
        first = "the demand is carried with nothing to spare, so no bound holds" if kind == "critical" else "nothing carries this demand"
        if best:
            first = f"no mix of stages carries more than {100 / ratio(best):.1f} % of this demand (confirmed by refute: load {best.load} " \
                f"against {best.capacity})"
        return [f"{kind}: {first}", *body, f"({self.verdict.how})", "What helps: less demand on the links that feed these movements, "
                "more saturation flow, or a stage that serves two of them together."]
    def movements(self):
        """Rows of the table of movements: what the log has, what the program promises, and loads for reading."""
        log, rows, guard = self.log, self.loads, self.guard
        order = sorted(range(len(rows)), key=lambda k: -log.peak[k] if log else -rows[k].ratio)
        columns = [("movement", lambda k: self.net.moves[k].name)]
        if log:
            columns += [("greatest queue", lambda k: log.peak[k]), ("mean", lambda k: f"{log.mean[k]:.1f}"),
                        ("longest without green", lambda k: self.time(log.longest_red[k]))]
        columns += [("bound", lambda k: f"{self.bounds[k]:,}")] if self.bounds else []
        columns += [("guard's bound", lambda k: f"{guard.bounds[k]:,}"), ("guard's wait", lambda k: self.time(guard.waits[k]))] if guard else []
        columns += [("demand", lambda k: f"{rows[k].demand:,.0f}"), ("capacity", lambda k: f"{rows[k].capacity:,.0f}")]
        columns += [("green", lambda k: f"{100 * rows[k].green:.0f} %")] if self.carried else []
        columns += [("v/c", lambda k: f"{rows[k].ratio:.2f}")]
        return [[title for title, _ in columns], *([of(k) for _, of in columns] for k in order)]

def read_guard(a, program):
    """(path, header) of the guard that is named or lies beside the network, and a line where the program doesn't take it."""
    path = a.guard or a.net.removesuffix(".toml") + ".guard"
    if not a.guard and not os.path.exists(path):
        return None, None, []
    answer = program.call("runguard", a.net, path)
    if answer.status == 0:
        return path, answer.header(), []
    if a.guard:
        raise Fault(f"{path}: the program says {answer.line()}", 2 if answer.status == 2 else 3)
    return path, None, [f"{path} is left out: the program says {answer.line()}"]

def reserve(program, net):
    """The greatest percentage of the declared rates that the program still certifies."""
    low, high = 0, MOST + 1
    for _ in progress("reserve, halving", range((high - low).bit_length())):
        middle = (low + high) // 2
        links = [x._replace(rate=min(1000 * net.per, math.ceil(x.rate * middle / 100))) for x in net.links]
        with written(net.with_demand(links).text()) as file:
            low, high = (middle, high) if middle > low and program.verdict(file).kind == "carried" else (low, max(middle, low + 1))
    return low

def arguments(parser):
    options(parser, "net")
    parser.add_argument("line", nargs="*", metavar="LINE", help="a line that the program printed on its error output")
    parser.add_argument("--reserve", action="store_true", help="the greatest percentage of the demand that is certified")
    options(parser, "map", "period", "guard", "program")

def run(a):
    if a.line:
        return print(lines.meaning(" ".join(a.line), a.net))
    f = Facts(a)
    print("\n".join([*f.verdict_words, *f.notes, *([*aligned(f.movements()), f.load_words] if f.carried else [])]))
    if a.reserve:
        part = reserve(f.program, f.net)
        print(f"reserve: certified up to {part} % of the declared rates" + (" (no more was tried)" if part == MOST else ""))
    return STATUSES[f.verdict.kind]
