"""A log, read once line by line: of `run` or `runwith`, of a guarded run, or of `control`."""
import operator
from common import Fault

FIRST = {"maxpressure 1": "run", "maxpressure control 1": "control", "guard 1": "guarded"}

class Log:
    """What is kept of a log: queues in columns of (least, greatest), however long it is, and totals."""
    def __init__(self, lines, net, columns=1200, window=240):
        self.net, self.most_columns, self.window = net, columns, window
        self.kind, self.slack, self.names, self.bounds, self.end = None, "", [], [], None
        self.periods, self.width, self.low, self.high, self.green = 0, 1, [], [], {}
        self.queues, self.total, self.peak, self.red, self.longest_red = ([0] * len(net.moves) for _ in range(5))
        self.last, self.shown, self.changes = None, [[] for _ in net.junctions], [0] * len(net.junctions)
        self.stage_periods = [[0] * len(j.stages) for j in net.junctions]
        self.arrived, self.level, self.level_top = ([0] * len(net.fed) for _ in range(3))
        for number, line in enumerate(lines, 1):
            try:
                self.line(line.split(), line.rstrip("\r\n"))
            except (Fault, ValueError, IndexError) as fault:
                words = fault if isinstance(fault, Fault) else f"cut short, or no line of a log: {line.strip()[:60]!r}"
                raise Fault(f"line {number}: {words}") from None
        if self.names and self.names != [m.name for m in net.moves]:
            raise Fault("the log is of another network: its bounds name other movements")
        if not self.periods:
            raise Fault("the log has no period")
        self.mean = [x / self.periods for x in self.total]
    def line(self, f, text):
        if not self.kind:
            self.kind = FIRST.get(text)
            if not self.kind:
                raise Fault("not a log (the first line is `maxpressure 1`, `maxpressure control 1` or `guard 1`)")
        elif self.end is not None:
            raise Fault("a line behind the end line")
        elif f[0] == "slack":
            self.slack = f[1]
        elif f[0] == "bound":
            self.names.append(f[2])
            self.bounds.append(int(f[3]))
        elif f[0] == "end":
            self.end = dict(zip(f[2::2], map(int, f[3::2])))
        elif f[0] in ("p", "c"):
            self.period(f)
        elif self.kind != "guarded" or f[0] not in ("cycle", "lost", "d", "h", "green", "wait"):
            raise Fault(f"{f[0]!r} begins no line of a log")
    def period(self, f):
        if int(f[1]) != self.periods + 1:
            raise Fault(f"period {f[1]}, where {self.periods + 1} is next")
        s, q = f.index("s"), f.index("q")
        counts = f[0] == "c"                                       # a line of `control` has its queues before its stages
        self.kind = "guarded control" if counts and self.kind == "guarded" else self.kind
        queues = [int(x) for x in (f[q + 1:s] if counts else f[q + 1:])]
        stages = [int(x) - 1 for x in (f[s + 1:] if counts else f[s + 1:q])]
        arrivals = [] if counts else [int(x) for x in f[3:s]]
        for what, got, want in (("queues", queues, self.net.moves), ("stages", stages, self.net.junctions),
                                ("arrivals", arrivals, [] if counts else self.net.fed)):
            if len(got) != len(want):
                raise Fault(f"{len(got)} {what}, where the network has {len(want)}: cut short, or the log of another network")
        self.count_queues(queues if counts else self.queues, tuple(stages), queues)
        self.count_stages(stages)
        for i, n in enumerate(arrivals):
            self.arrived[i] += n
            self.level[i] = max(0, self.level[i] + self.net.per * n - self.net.links[self.net.fed[i]].rate)
            self.level_top[i] = max(self.level_top[i], self.level[i])
        self.queues = queues
    def count_queues(self, standing, stages, queues):
        """standing: the queues to which the stages were shown; queues: those that are drawn."""
        if self.periods % self.width == 0:
            self.low.append(list(queues))
            self.high.append(list(queues))
            if len(self.high) > self.most_columns:                 # half as many columns, each twice as wide
                pairs = range(0, len(self.high), 2)
                self.low = [[min(x) for x in zip(*self.low[i:i + 2])] for i in pairs]
                self.high = [[max(x) for x in zip(*self.high[i:i + 2])] for i in pairs]
                self.width *= 2
        self.low[-1], self.high[-1] = list(map(min, self.low[-1], queues)), list(map(max, self.high[-1], queues))
        self.total, self.peak = list(map(operator.add, self.total, queues)), list(map(max, self.peak, queues))
        green = self.green.get(stages) or self.greens(stages)
        self.red = [periods + 1 if n and not shown else 0 for periods, n, shown in zip(self.red, standing, green)]
        self.longest_red = list(map(max, self.longest_red, self.red))
    def greens(self, stages):
        """Whether each movement is green in these stages."""
        for junction, s in zip(self.net.junctions, stages):
            if not 0 <= s < len(junction.stages):
                raise Fault(f"junction {junction.name} has no stage {s + 1}")
        self.green = self.green if len(self.green) < 5000 else {}  # of long logs of many junctions
        shown = {k for junction, s in zip(self.net.junctions, stages) for k in junction.stages[s]}
        self.green[stages] = [k in shown for k in range(len(self.net.moves))]
        return self.green[stages]
    def count_stages(self, stages):
        self.periods += 1
        for j, s in enumerate(stages):
            self.stage_periods[j][s] += 1
            if self.last is None or self.last[j] != s:
                self.changes[j] += self.last is not None
                if self.periods <= self.window:
                    self.shown[j].append((self.periods, s))
        self.last = stages
