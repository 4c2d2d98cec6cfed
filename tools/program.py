"""Calls of the program. Every verdict, slack, bound and sum that the tools print as such comes from here."""
import os, subprocess
from collections import namedtuple
from common import Fault, written
from network import Net

TOP = os.path.dirname(os.path.dirname(os.path.abspath(__file__)))
BUILT = [os.path.join(TOP, path) for path in ("maxpressure", "crates/maxpressure/out/maxpressure")]
DENOMINATORS = (1000, 100000)

# carried (with the text of a certificate), critical or overloaded (with a vector), undecided, or refused (how: the line)
Verdict = namedtuple("Verdict", "kind how certificate vector", defaults=("", ()))
Header = namedtuple("Header", "slack bounds waits")                # of a log; waits of a guard
Sums = namedtuple("Sums", "load capacity")

class Answer(namedtuple("Answer", "status out err")):
    def line(self):
        """The first line of the error output."""
        return self.err.splitlines()[0] if self.err else f"status {self.status}"
    def header(self):
        """Slack, bounds and waits at the head of a log, or None where there are none."""
        rows = [line.split() for line in self.out.splitlines()]
        bounds, waits = ([int(r[3]) for r in rows if r[0] == word] for word in ("bound", "wait"))
        return Header(next((r[1] for r in rows if r[0] == "slack"), ""), bounds, waits) if bounds else None

class Program:
    def __init__(self, path=None):
        named = path or os.environ.get("MAXPRESSURE")
        if named and not os.path.isfile(named):
            raise Fault(f"{named}: no program there (--program, $MAXPRESSURE)", 2)
        self.path = os.path.abspath(named) if named else next((p for p in BUILT if os.path.isfile(p)), None)
        if not self.path:
            raise Fault("the program is not built (make build), nor named by --program or $MAXPRESSURE", 2)
    def call(self, *words, text=""):
        p = subprocess.run([self.path, *map(str, words)], input=text, capture_output=True, text=True)
        return Answer(p.returncode, p.stdout, p.stderr)
    def start(self, *words, pipe=subprocess.PIPE):
        """A process of the program with pipes to it."""
        return subprocess.Popen([self.path, *words], stdin=pipe, stdout=pipe, stderr=pipe, text=True)
    def verdict(self, path):
        """By `certify`; where that ends in an overflow or a limit by `scale`, then by `refute` on a vector of floats."""
        answer = self.call("certify", path)
        if answer.status == 0:
            return Verdict("carried", "certify: the greatest slack", answer.out)
        if answer.status == 4:
            vector = answer.err.splitlines()[2].split()[1:]
            return Verdict(answer.line().split()[1], "by certify", vector=tuple(map(int, vector)))
        if answer.status not in (5, 6):
            return Verdict("refused", answer.line())
        said = [f"certify says {answer.line()}"]
        for d in DENOMINATORS:
            answer = self.call("scale", path, d)
            if answer.status == 0:
                return Verdict("carried", f"scale {d}, since {said[0]}", answer.out)
            said.append(f"scale {d} says {answer.line()}")
        return self.by_vector(path, ", ".join(said))
    def by_vector(self, path, said):
        try:
            slack, floats = linear_program(Net.read(path))
        except ModuleNotFoundError:
            return Verdict("undecided", f"{said}; no vector was sought (apt-get install python3-scipy)")
        for scale in (10, 100, 1000, 10**4, 10**6, 10**9) if slack < 0 else ():
            vector = rounded(floats, scale)
            if self.refute(path, vector):
                return Verdict("overloaded", f"by refute on a vector of a linear program; {said}", vector=vector)
        return Verdict("undecided", f"{said}; a linear program in floats has slack {slack:.3g}, which nothing confirms")
    def refute(self, path, vector):
        """The two sums where the program says that the vector shows an overload, else None."""
        with written("vector 1\np " + " ".join(map(str, vector)) + "\n") as file:
            words = self.call("refute", path, file).out.split()
        return Sums(int(words[2]), int(words[4])) if words[:1] == ["overloaded"] else None
    def confirmed(self, path, floats):
        """The sums of each rounding of a vector that the program confirms as an overload."""
        return [sums for scale in (10, 1000, 10**5, 10**7) if (sums := self.refute(path, rounded(floats, scale)))]
    def header(self, path, certificate):
        """Slack and bounds under a certificate's text, or None where a bound overflows."""
        with written(certificate) as file:
            return self.call("runwith", path, file).header()

def rounded(floats, scale):
    return tuple(round(scale * max(0, x) / max(floats)) for x in floats)

def greens(certificate, net):
    """The part of the time with green of each movement, in the mix of a certificate's text. Floats, for reading."""
    rows = [line.split() for line in certificate.splitlines() if line and not line.startswith("#")]
    out = [0.0] * len(net.moves)
    for junction, row in zip(net.junctions, rows[4:]):
        for stage, part in zip(junction.stages, row[3:]):
            for k in stage:
                out[k] += int(part) / (int(row[2]) * int(rows[1][1]))
    return out

def linear_program(net):
    """The greatest slack in floats, and its vector (python3-scipy): a vector from any solver serves, since `refute` decides it."""
    import numpy
    from scipy.optimize import linprog
    K, stages = len(net.moves), [(j, s) for j, junction in enumerate(net.junctions) for s in junction.stages]
    rows, right = numpy.zeros((2 * K + len(net.junctions), K + 1 + len(stages))), [0] * 2 * K + [1] * len(net.junctions)
    for k, m in enumerate(net.moves):                              # columns: a rate per movement, the slack, the part of each stage
        rows[k, k], rows[k, K], rows[K + k, k] = -1, 1, 1          # a rate carries what comes and the slack; the stages serve it
        right[k] = -m.share / net.shares * net.links[net.link_number[m.origin]].rate / net.per
        for i in net.downstream[k]:
            rows[i, k] += net.moves[i].share / net.shares
    for column, (j, stage) in enumerate(stages, K + 1):
        rows[2 * K + j, column] = 1
        for k in stage:
            rows[K + k, column] = -net.moves[k].flow
    limits = [(0, None)] * K + [(None, None)] + [(0, None)] * len(stages)
    best = linprog([0] * K + [-1] + [0] * len(stages), A_ub=rows, b_ub=right, bounds=limits, method="highs")
    return -best.fun, [-x for x in best.ineqlin.marginals[:K]]
