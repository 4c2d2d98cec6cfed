"""Network files, and what is computed from one for reading."""
import itertools, tomllib
from collections import namedtuple
from common import Fault

LINKS, MOVEMENTS, JUNCTIONS, STAGES, OWN, BURST, RATE, START = 128, 512, 64, 16, 24, 10000, 1000, 10**6   # limits of the network file

Link = namedtuple("Link", "name burst rate")
Movement = namedtuple("Movement", "name origin to share flow start", defaults=(0,))
Junction = namedtuple("Junction", "name stages")                   # a stage is a list of movement numbers from 0

class Net:
    """A network. Links, movements and stages are numbered from 0 here, and from 1 in what the program prints."""
    def __init__(self, shares, per, links, moves, junctions):
        self.shares, self.per, self.links, self.moves, self.junctions = shares, per, links, moves, junctions
        self.link_number = {x.name: i for i, x in enumerate(links)}
        self.fed = [i for i, x in enumerate(links) if x.burst or x.rate]
        self.out_of = [[] for _ in links]
        for k, m in enumerate(moves):
            self.out_of[self.link_number[m.origin]].append(k)
        self.downstream = [self.out_of[self.link_number[m.to]] if m.to != "out" else [] for m in moves]
        self.own = [sorted({k for s in j.stages for k in s}) for j in junctions]
        self.junction_of = {k: j for j, own in zip(junctions, self.own) for k in own}
    @classmethod
    def read(cls, path):
        t = table(path)
        try:
            number = {m["name"]: k for k, m in enumerate(t["movement"])}
            return cls(t["shares"], t["per"], [Link(x["name"], x.get("burst", 0), x.get("rate", 0)) for x in t["link"]],
                       [Movement(m["name"], m["from"], m["to"], m["share"], m["flow"], m.get("start", 0)) for m in t["movement"]],
                       [Junction(j["name"], [[number[k] for k in s] for s in j["stages"]]) for j in t["junction"]])
        except (KeyError, TypeError, AttributeError):
            raise Fault(f"{path}: breaks a rule of network files (`mp explain {path}` names it)") from None
    def with_demand(self, links):
        return Net(self.shares, self.per, links, self.moves, self.junctions)
    def text(self, head=(), notes=()):
        """The file, with comments: lines of the head, and notes by the name of a link or movement."""
        version = 2 if any(m.start for m in self.moves) else 1
        out = [f"# {line}" for line in head] + [f"version = {version}", f"shares = {self.shares}", f"per = {self.per}"]
        for section, things in (("link", self.links), ("movement", self.moves), ("junction", self.junctions)):
            for x in things:
                out += ["", *([f"# {notes[x.name]}"] if x.name in notes else []), f"[[{section}]]", f'name = "{x.name}"']
                if section == "link":
                    out += [f"{key} = {n}" for key, n in (("burst", x.burst), ("rate", x.rate)) if n]
                elif section == "movement":
                    out += [f'from = "{x.origin}"', f'to = "{x.to}"', f"share = {x.share}", f"flow = {x.flow}"]
                    out += [f"start = {x.start}"] if x.start else []
                else:
                    names = (", ".join(f'"{self.moves[k].name}"' for k in stage) for stage in x.stages)
                    out.append("stages = [" + ", ".join(f"[{n}]" for n in names) + "]")
        return "\n".join(out) + "\n"
    def flows(self):
        """Vehicles per rate length through each movement, by the declared rates and shares. Floats, for reading."""
        through, before = [x.rate for x in self.links], None
        while before is None or max(abs(x - y) for x, y in zip(through, before)) > 1e-10 * max(through):
            before, through = through, [x.rate for x in self.links]
            for m in self.moves:
                if m.to != "out":
                    through[self.link_number[m.to]] += before[self.link_number[m.origin]] * m.share / self.shares
        return [through[self.link_number[m.origin]] * m.share / self.shares for m in self.moves]
    def weights(self, p):
        """The positive weight of each movement at the numbers p."""
        return [max(0, self.shares * p[k] - sum(self.moves[i].share * p[i] for i in self.downstream[k])) for k in range(len(p))]
    def over_limit(self):
        """The first limit of the network file that is exceeded, in words, or None."""
        counts = [("the network", what, len(got), most) for what, got, most in (
            ("links", self.links, LINKS), ("movements", self.moves, MOVEMENTS), ("junctions", self.junctions, JUNCTIONS))]
        for j, own in zip(self.junctions, self.own):
            counts += [(f"junction {j.name}", "stages", len(j.stages), STAGES), (f"junction {j.name}", "movements", len(own), OWN)]
        for x in self.links:
            counts += [(f"link {x.name}", "burst", x.burst, BURST), (f"link {x.name}", "rate", x.rate, RATE * self.per)]
        return next((f"{where} has {got} {what}, where {most} fit" for where, what, got, most in counts if got > most), None)

def table(path):
    """The file as tables, without any rule but that it is TOML."""
    with open(path, "rb") as file:
        try:
            return tomllib.load(file)
        except (tomllib.TOMLDecodeError, UnicodeDecodeError) as e:
            raise Fault(f"{path}: not TOML: {e}") from None

def least_burst(counts, rate, per):
    """The least burst with which the counts (one per period) keep to `rate` per `per` periods."""
    level = top = 0
    for a in counts:
        level += per * a - rate
        if level < 0:
            level = 0
        elif level > top:
            top = level
    return -(-top // per)

def busiest(counts, window):
    """The greatest mean of `window` counts in a row (of all, where there are fewer)."""
    window, sums = max(1, min(window, len(counts))), [0, *itertools.accumulate(counts)]
    return max(b - a for a, b in zip(sums, sums[window:])) / window
