"""A slow model of signals by events, by frames, by cyclic plans and under guards, written apart from the program.

It takes the definitions word for word, in whole numbers and fractions of any size. Links, movements, junctions and stages
are numbered from 0 here, and from 1 in what the program prints. A log is a list of lines without their line feeds.
"""
import math
from fractions import Fraction
from typing import List, NamedTuple, Optional

SWEEPS = 131_072


class Link(NamedTuple):
    name: str
    burst: int
    rate: int


class Movement(NamedTuple):
    name: str
    origin: int
    target: Optional[int]  # None is the outside
    share: int
    flow: int
    start: int


class Network:
    """Links, movements, for each junction its stages, which are lists of movement numbers, and how many periods old a report
    may be."""

    def __init__(self, shares, per, links, movements, junctions, delay=0):
        self.shares, self.per, self.links, self.movements, self.junctions = shares, per, links, movements, junctions
        self.delay = delay
        self.fed = [l for l, link in enumerate(links) if link.burst or link.rate]
        self.out_of = [[k for k, it in enumerate(movements) if it.origin == l] for l in range(len(links))]
        self.into = [[k for k, it in enumerate(movements) if it.target == l] for l in range(len(links))]
        self.junction_of = [next(j for j, stages in enumerate(junctions) if any(k in it for it in stages)) for k in range(len(movements))]

    def stages_of(self, k):
        """The stages of its junction in which a movement stands."""
        return [s for s, stage in enumerate(self.junctions[self.junction_of[k]]) if k in stage]

    def is_always_green(self, k):
        return len(self.stages_of(k)) == len(self.junctions[self.junction_of[k]])

    def weight(self, counts, k):
        """W times what waits for a movement, less what waits downstream of it by the shares there."""
        target = self.movements[k].target
        after = 0 if target is None else sum(self.movements[i].share * counts[i] for i in self.out_of[target])
        return self.shares * counts[k] - after

    def pressure(self, counts, stage):
        return sum(self.movements[k].flow * max(0, self.weight(counts, k)) for k in stage)

    def targets(self, j):
        """The links that the movements of a junction go to."""
        return sorted({self.movements[k].target for stage in self.junctions[j] for k in stage} - {None})

    def text(self):
        """The network file, of version 3 where reports may be old, else of version 2 where a queue waits at the start."""
        version = 3 if self.delay else 2 if any(it.start for it in self.movements) else 1
        out = [f"version = {version}", *([f"delay = {self.delay}"] if self.delay else []), f"shares = {self.shares}", f"per = {self.per}"]
        for link in self.links:
            out += ["[[link]]", f'name = "{link.name}"', f"burst = {link.burst}", f"rate = {link.rate}"]
        for it in self.movements:
            target = "out" if it.target is None else self.links[it.target].name
            out += ["[[movement]]", f'name = "{it.name}"', f'from = "{self.links[it.origin].name}"', f'to = "{target}"']
            out += [f"share = {it.share}", f"flow = {it.flow}", *([f"start = {it.start}"] if it.start else [])]
        for j, stages in enumerate(self.junctions, 1):
            named = (", ".join(f'"{self.movements[k].name}"' for k in stage) for stage in stages)
            out += ["[[junction]]", f'name = "j{j}"', "stages = [" + ", ".join(f"[{it}]" for it in named) + "]"]
        return "\n".join(out) + "\n"

    def flows(self):
        """What passes through each link in a rate length, by the rates and shares."""
        n = len(self.links)
        rows = [[Fraction(int(l == i)) for i in range(n)] + [Fraction(self.links[l].rate)] for l in range(n)]
        for it in self.movements:
            if it.target is not None:
                rows[it.target][it.origin] -= Fraction(it.share, self.shares)
        for i in range(n):
            pivot = next(r for r in range(i, n) if rows[r][i])
            rows[i], rows[pivot] = rows[pivot], rows[i]
            rows[i] = [x / rows[i][i] for x in rows[i]]
            for r in range(n):
                if r != i and rows[r][i]:
                    rows[r] = [x - rows[r][i] * y for x, y in zip(rows[r], rows[i])]
        return [row[n] for row in rows]

    def link_on_cycle(self):
        """The least link that movements lead from and back to, or None."""
        for start in range(len(self.links)):
            seen, after = set(), [start]
            while after:
                targets = {self.movements[k].target for k in self.out_of[after.pop()]} - {None} - seen
                seen |= targets
                after += targets
            if start in seen:
                return start
        return None


class State:
    """Queues, the credits of the splits, and what the buckets hold, in vehicles times the rate length."""

    def __init__(self, net):
        self.net, self.queues = net, [it.start for it in net.movements]
        self.credits, self.levels = [0] * len(net.movements), [0] * len(net.links)
        self.period, self.entered, self.left = 0, sum(self.queues), 0

    def split(self, link, vehicles):
        """Adds to the queues what joins each movement: each vehicle goes where the credit is greatest, the lowest at a tie."""
        for _ in range(vehicles):
            for k in self.net.out_of[link]:
                self.credits[k] += self.net.movements[k].share
            taken = max(self.net.out_of[link], key=lambda k: (self.credits[k], -k))
            self.credits[taken] -= self.net.shares
            self.queues[taken] += 1

    def most(self, link):
        """The greatest count of arrivals that the bucket of a link accepts now."""
        burst, rate, per = self.net.links[link].burst, self.net.links[link].rate, self.net.per
        return (per * burst + rate - self.levels[link]) // per

    def above(self, arrivals):
        """The least link whose arrivals its bucket doesn't accept, or None."""
        return next((l for l, count in zip(self.net.fed, arrivals) if count > self.most(l)), None)

    def fill(self, arrivals):
        """What the buckets hold after these arrivals."""
        for l, count in zip(self.net.fed, arrivals):
            self.levels[l] = max(0, self.levels[l] + self.net.per * count - self.net.links[l].rate)

    def close(self, arrivals, green):
        """A period: green movements pass what waits, up to their flow; then all that entered a link is split."""
        net = self.net
        passed = [min(it.flow, queue) if shows else 0 for it, queue, shows in zip(net.movements, self.queues, green)]
        entered = [0] * len(net.links)
        self.fill(arrivals)
        self.entered += sum(arrivals)
        for l, count in zip(net.fed, arrivals):
            entered[l] += count
        for k, count in enumerate(passed):
            self.queues[k] -= count
            if net.movements[k].target is None:
                self.left += count
            else:
                entered[net.movements[k].target] += count
        for l, count in enumerate(entered):
            self.split(l, count)
        self.period += 1

    def line(self, arrivals, stages):
        return f"p {self.period} a {spaced(arrivals)} s {spaced(stages)} q {spaced(self.queues)}"

    def end(self):
        return f"end {self.period} in {self.entered} out {self.left} queued {sum(self.queues)}"


class Above(NamedTuple):
    """A refusal of a stream: the period and the link, numbered from 1. Where no line is skipped, the period is the line."""

    period: int
    link: int


def spaced(numbers):
    return " ".join(map(str, numbers))


def run(net, stream, lights):
    """The period lines and the end line, and where the stream is above a bucket. `lights(state)` gives the stages as they
    are printed, and which movements are green."""
    state, lines = State(net), []
    for arrivals in stream:
        link = state.above(arrivals)
        if link is not None:
            return lines, Above(state.period + 1, link + 1)
        stages, green = lights(state)
        state.close(arrivals, green)
        lines.append(state.line(arrivals, stages))
    return lines + [state.end()], None


# Events


class Events:
    """A run whose junctions hear links and decide: by their own queues of now, and by copies of the others."""

    def __init__(self, net):
        self.net, self.state = net, State(net)
        self.copies, self.decided = [{} for _ in net.junctions], [None] * len(net.junctions)

    def stale(self, j):
        """The least link of which a junction has no copy that is young enough, or None."""
        old = lambda l: l not in self.copies[j] or self.copies[j][l][0] + self.net.delay < self.state.period
        return next((l for l in self.net.targets(j) if old(l)), None)

    def hear(self, j, l):
        """Copies the queues of a link, where some movement of the junction goes to it."""
        if l not in self.net.targets(j):
            return False
        self.copies[j][l] = self.state.period, {k: self.state.queues[k] for k in self.net.out_of[l]}
        return True

    def decide(self, j):
        """Fixes the stage of a junction, where it has none and lacks no copy."""
        heard = {k: count for _, counts in self.copies[j].values() for k, count in counts.items()}
        if self.decided[j] is None:
            self.decided[j] = greatest({s: sum(self.press(k, heard) for k in stage) for s, stage in enumerate(self.net.junctions[j])})

    def press(self, k, heard):
        """The flow of a movement times its weight, where that is above 0."""
        net, it = self.net, self.net.movements[k]
        behind = 0 if it.target is None else sum(net.movements[i].share * heard[i] for i in net.out_of[it.target])
        return it.flow * max(0, net.shares * self.state.queues[k] - behind)

    def close(self, arrivals):
        """Does what the period lacks, and closes it: the line of the period, or the link that is above its bucket."""
        for j, stage in enumerate(self.decided):
            while stage is None and self.stale(j) is not None:
                self.hear(j, self.stale(j))
            self.decide(j)
        link = self.state.above(arrivals)
        if link is not None:
            return link
        net, queues = self.net, list(self.state.queues)
        shown = [net.junctions[j][s] for j, s in enumerate(self.decided)]
        self.state.close(arrivals, [k in shown[net.junction_of[k]] and net.weight(queues, k) > 0 for k in range(len(queues))])
        line = self.state.line(arrivals, [s + 1 for s in self.decided])
        self.decided = [None] * len(net.junctions)
        return line


def run_by_events(net, lines):
    """What a run writes of lines of the stream, which are tuples, its status, and the line of its refusal."""
    run, out = Events(net), []
    for number, (kind, *rest) in enumerate(lines, 1):
        if kind == "hear" and not run.hear(*rest):
            return out, 14, f"line {number} event notadjacent junction {rest[0] + 1} link {rest[1] + 1}"
        if kind == "decide":
            lacks = run.stale(rest[0]) if run.decided[rest[0]] is None else None
            if lacks is not None:
                return out, 14, f"line {number} event stale junction {rest[0] + 1} link {lacks + 1}"
            run.decide(rest[0])
        if kind == "close":
            closed = run.close(rest)
            if not isinstance(closed, str):
                return out, 8, f"line {number} above period {run.state.period + 1} link {closed + 1}"
            out.append(closed)
    return out + [run.state.end()], 0, ""


# Frames


def frame_network(net, periods):
    """The network whose rate length is one of the periods that frames serve, or the line that refuses it."""
    per = (periods - 1) * net.per
    if per > 3600:
        return "frames per"
    fast = next((l for l, link in enumerate(net.links, 1) if periods * link.rate > 1000 * per), None)
    if fast:
        return f"frames rate {fast}"
    return Network(net.shares, per, [it._replace(rate=periods * it.rate) for it in net.links], net.movements, net.junctions)


def frame_bounds(net, periods, slack):
    """The bounds by frames, where the frame network has this slack."""
    shares, per, more = net.shares, net.per, periods - 1
    spread, step = [], []
    for it in net.movements:
        link, out = net.links[it.origin], len(net.out_of[it.origin])
        spread.append(per * (out - 1) * (shares - 1) + it.share * per * link.burst)
        joined = per * sum(net.movements[k].flow for k in net.into[it.origin]) + link.rate
        step.append(max(shares * per * it.flow, it.share * joined))
    drift = 2 * (shares * per) ** 2 * sum((more * it.flow) ** 2 // 4 for it in net.movements)
    drift += 2 * periods * sum(a * b for a, b in zip(spread, step)) + periods**2 * sum(b * b for b in step)
    level = slack.denominator * drift // (2 * (shares * per) ** 2 * more * slack.numerator)
    greatest = max((shares * per * level + sum(spread)) ** 2 + drift, sum((shares * per * it.start) ** 2 for it in net.movements))
    return [(math.isqrt(greatest) + a + more * b) // (shares * per) for a, b in zip(spread, step)]


def run_by_frames(net, periods, stream):
    """Stages change at the first period of a frame alone, which is lost where they do."""
    shown = [None] * len(net.junctions)
    first = []

    def lights(state):
        nonlocal shown, first
        before, begins = shown, state.period % periods == 0
        if begins:
            first = list(state.queues)
            shown = [greatest({s: net.pressure(first, stage) for s, stage in enumerate(stages)}) for stages in net.junctions]
        lost = [begins and now != then for now, then in zip(shown, before)]
        green = [shown[j] in net.stages_of(k) and not lost[j] and net.weight(first, k) > 0 for k, j in enumerate(net.junction_of)]
        return [s + 1 for s in shown], green

    return run(net, stream, lights)


def greatest(pressures):
    """The stage of greatest pressure, the lowest at a tie."""
    return max(pressures, key=lambda s: (pressures[s], -s))


# Cyclic plans


class Plan(NamedTuple):
    cycle: int
    greens: List[List[int]]
    bounds: List[int]

    def header(self, net):
        return ["plan 1", f"cycle {self.cycle}", *green_lines(self.greens), *bound_lines(net, self.bounds)]


def green_lines(greens):
    return [f"green {j} {spaced(own)}" for j, own in enumerate(greens, 1)]


def bound_lines(net, bounds):
    return [f"bound {k} {it.name} {bound}" for k, (it, bound) in enumerate(zip(net.movements, bounds), 1)]


def make_plan(net, cycle):
    """The plan of a cycle, or the line that refuses it."""
    looped = net.link_on_cycle()
    if looped is not None:
        return f"plan cycle link {looped + 1}"
    flows = net.flows()
    need = [math.ceil(cycle * it.share * flows[it.origin] / (net.shares * net.per * it.flow)) for it in net.movements]
    greens = []
    for j, stages in enumerate(net.junctions, 1):
        homes = [[k for k in stage if min(net.stages_of(k)) == s] for s, stage in enumerate(stages)]
        greens.append([max([1] + [need[k] for k in own]) if own else 0 for own in homes])
        if sum(greens[-1]) > cycle:
            return f"plan full junction {j}"
    bounds = {}

    def bound(k):
        if k not in bounds:
            it, out = net.movements[k], len(net.out_of[net.movements[k].origin])
            burst = net.links[it.origin].burst + sum(map(bound, net.into[it.origin]))
            joined = it.share * (burst * net.per + flows[it.origin] * cycle) + net.per * out * (net.shares - 1)
            bounds[k] = it.start + math.ceil(Fraction(joined) / (net.shares * net.per))
        return bounds[k]

    return Plan(cycle, greens, [bound(k) for k in range(len(net.movements))])


def run_by_plan(net, plan, stream):
    """In each cycle a junction runs its stages in order for their greens, and is then idle, which is stage 0."""

    def lights(state):
        place = state.period % plan.cycle
        turns = [[s for s, count in enumerate(own, 1) for _ in range(count)] for own in plan.greens]
        stages = [own[place] if place < len(own) else 0 for own in turns]
        return stages, [stages[j] - 1 in net.stages_of(k) for k, j in enumerate(net.junction_of)]

    return run(net, stream, lights)


# Guards


class Guard(NamedTuple):
    """Rates are vehicles a period, times the denominator; greens are periods a cycle of each stage."""

    cycle: int
    lost: int
    denominator: int
    rates: List[int]
    greens: List[List[int]]

    def lines(self):
        head = ["guard 1", f"cycle {self.cycle}", f"lost {self.lost}", f"d {self.denominator}", f"h {spaced(self.rates)}"]
        return head + green_lines(self.greens)

    def given(self, net, k):
        """The greens that a movement gets in a cycle."""
        own = self.greens[net.junction_of[k]]
        return self.cycle if net.is_always_green(k) else sum(own[s] for s in net.stages_of(k))


def read_guard(lines):
    """The guard that a text means which the program has printed."""
    numbers = [list(map(int, line.split()[1:])) for line in lines]
    (cycle,), (lost,), (denominator,), rates = numbers[1:5]
    return Guard(cycle, lost, denominator, rates, [it[1:] for it in numbers[5:]])


def broken_rule(net, guard):
    """The first rule that a guard breaks, or None."""
    cycle, lost, d, rates, greens = guard
    for name, keeps in ("cycle", 1 <= cycle <= 3600), ("lost", lost in (0, 1)), ("d", 1 <= d <= 999_999_999):
        if not keeps:
            return name
    moves = list(enumerate(net.movements))
    broken = [f"h {k + 1}" for k, it in moves if rates[k] > it.flow * d]
    broken += [f"green {j} {s}" for j, own in enumerate(greens, 1) for s, count in enumerate(own, 1) if count > cycle]
    broken += [f"mass {j}" for j, own in enumerate(greens, 1) if sum(own) + lost * sum(count > 0 for count in own) > cycle]
    broken += [f"balance {k + 1}" for k, it in moves if net.shares * net.per * rates[k] < carried(net, d, rates, it)]
    given = [guard.given(net, k) for k, _ in moves]
    broken += [f"serve {k + 1}" for k, it in moves if given[k] < 1 or d * it.flow * given[k] < cycle * rates[k]]
    return broken[0] if broken else None


def carried(net, d, rates, movement):
    """The rate that comes to a movement under these rates, times the denominator, the share total and the rate length."""
    upstream = sum(rates[k] for k in net.into[movement.origin])
    return movement.share * (net.links[movement.origin].rate * d + net.per * upstream)


def surplus(net, k):
    """How much more than its share may join a movement over vehicles in a row, times the share total."""
    link = net.movements[k].origin
    if len(net.out_of[link]) == 1:
        return 0
    state, seen = State(net), [0]
    for _ in range(net.shares):
        state.split(link, 1)
        seen.append(state.credits[k])
    return max(seen) - min(seen)


class Limits(NamedTuple):
    bounds: List[int]
    waits: List[int]


def limits(net, guard):
    """The bound of each queue, and the longest that anybody stands without green; None where the sweeps come to their limit."""
    d, extra = guard.denominator, [surplus(net, k) for k in range(len(net.movements))]
    waits = [2 * (guard.cycle - guard.given(net, k)) for k in range(len(net.movements))]

    def formed(bursts, periods):
        for k, it in enumerate(net.movements):
            burst = net.links[it.origin].burst + sum(bursts[i] for i in net.into[it.origin])
            joined = d * (it.share * burst + extra[k]) + net.shares * guard.rates[k] * (periods + waits[k])
            yield it.start - (-joined // (net.shares * d))

    bursts = fixed(lambda bursts: list(formed(bursts, 0)), len(net.movements))
    return bursts and Limits(list(formed(bursts, 1)), waits)


def fixed(sweep, length, fits=lambda them: True):
    """The list that sweeps from zeros leave as it is; None where it doesn't fit on the way, or they come to their limit."""
    them = [0] * length
    for _ in range(SWEEPS):
        after = sweep(them)
        if after == them or not fits(after):
            return after if fits(after) else None
        them = after
    return None


def guard_header(net, guard):
    """The text, the bounds and the waits."""
    bounds, waits = limits(net, guard)
    return guard.lines() + bound_lines(net, bounds) + [f"wait {k} {it.name} {n}" for k, (it, n) in enumerate(zip(net.movements, waits), 1)]


def find_guard(net, cycle, lost, d):
    """The guard of a cycle, or the line that refuses it."""
    def sweep(rates):
        return [-(-carried(net, d, rates, it) // (net.shares * net.per)) for it in net.movements]

    rates = fixed(sweep, len(net.movements), lambda them: all(h <= it.flow * d for h, it in zip(them, net.movements)))
    if rates is None:
        return "guard none"
    parts = [least_parts(net, j, rates) for j in range(len(net.junctions))]
    if any(sum(own) > d for own in parts):
        return "guard none"
    greens = []
    for j, own in enumerate(parts):
        greens.append(greens_for(net, j, [math.ceil(cycle * it / d) for it in own], cycle, d, rates))
        if sum(greens[-1]) + lost * sum(count > 0 for count in greens[-1]) > cycle:
            return f"guard full {j + 1}"
    return Guard(cycle, lost, d, rates, greens)


def least_parts(net, j, rates):
    """How much of its time a junction gives each stage to serve the rates, with the least sum. It is the dual of the greatest
    sum of rates times prices under which no stage earns more than 1, by the simplex method with the lowest columns first."""
    stages = net.junctions[j]
    own = [k for k, at in enumerate(net.junction_of) if at == j]
    rows = [[Fraction(net.movements[k].flow * (k in stage)) for k in own] + [Fraction(int(s == i)) for i in range(len(stages))] + [Fraction(1)]
            for s, stage in enumerate(stages)]
    top = [Fraction(-rates[k]) for k in own] + [Fraction(0)] * (len(stages) + 1)
    basic = [len(own) + s for s in range(len(stages))]
    while min(top[:-1]) < 0:
        column = next(i for i, it in enumerate(top) if it < 0)
        leaves = min((s for s, row in enumerate(rows) if row[column] > 0), key=lambda s: (rows[s][-1] / rows[s][column], basic[s]))
        pivot = [x / rows[leaves][column] for x in rows[leaves]]
        rows = [pivot if s == leaves else [x - row[column] * y for x, y in zip(row, pivot)] for s, row in enumerate(rows)]
        top = [x - top[column] * y for x, y in zip(top, pivot)]
        basic[leaves] = column
    return top[len(own) : -1]


def greens_for(net, j, greens, cycle, d, rates):
    """The greens of a junction, where each movement gets what it wants and no stage has more than is needed then."""
    stages = net.junctions[j]
    wants = {k: max(1, -(-cycle * rates[k] // (d * net.movements[k].flow)))
             for k, at in enumerate(net.junction_of) if at == j and not net.is_always_green(k)}
    for k in wants:
        if not any(greens[s] for s in net.stages_of(k)):
            greens[min(net.stages_of(k))] = 1
    for s, stage in enumerate(stages):
        lacks = [wants[k] - sum(greens[i] for i in net.stages_of(k) if i != s) for k in stage if k in wants]
        greens[s] = max([0] + lacks)
    return greens


class Account:
    """What the stages of one junction are owed in a cycle, and the stage of the period before."""

    def __init__(self, net, guard, j):
        self.net, self.guard, self.stages, self.greens = net, guard, net.junctions[j], guard.greens[j]
        self.owed, self.shown = list(self.greens), None

    def is_change(self, stage):
        return self.guard.lost == 1 and self.shown is not None and self.shown != stage

    def paid(self, stage, counts):
        """What is owed once a period has shown a stage: it pays for that stage, or else for one that is idle."""
        owed = list(self.owed)
        if owed[stage] and not self.is_change(stage):
            owed[stage] -= 1
            return owed
        for s, movements in enumerate(self.stages):
            if owed[s] and all(counts[k] == 0 or self.net.is_always_green(k) for k in movements):
                owed[s] -= 1
                break
        return owed

    def candidates(self, counts, left):
        """The stages after which what is owed still fits into the periods that are left of the cycle, this one among them."""
        def need(owed, stage):
            return sum(owed) + self.guard.lost * sum(count > 0 for s, count in enumerate(owed) if s != stage)

        return [s for s in range(len(self.stages)) if need(self.paid(s, counts), s) <= left - 1]

    def chosen(self, counts, candidates):
        """The candidate of greatest pressure, or the stage before where it has half of that and a change is lost."""
        pressures = {s: self.net.pressure(counts, self.stages[s]) for s in candidates}
        best = greatest(pressures)
        stays = self.guard.lost == 1 and self.shown in pressures and 2 * pressures[self.shown] >= pressures[best]
        return self.shown if stays else best

    def show(self, stage, counts, is_last):
        """Shows a stage, and says which movements are green: at a change those that stand in both stages."""
        green = set(self.stages[stage])
        if self.is_change(stage):
            green &= set(self.stages[self.shown])
        self.owed = list(self.greens) if is_last else self.paid(stage, counts)
        self.shown = stage
        return green


class Guarded:
    """The signals of a network under a guard."""

    def __init__(self, net, guard):
        self.guard, self.period = guard, 0
        self.accounts = [Account(net, guard, j) for j in range(len(net.junctions))]

    def show(self, counts, choose=Account.chosen):
        """A period at these counts: the stages, and the set of green movements. `choose(account, counts, candidates)`
        takes a candidate at each junction."""
        left = self.guard.cycle - self.period % self.guard.cycle
        self.period += 1
        stages = [choose(it, counts, it.candidates(counts, left)) for it in self.accounts]
        return stages, set().union(*(it.show(s, counts, left == 1) for it, s in zip(self.accounts, stages)))


def run_under_guard(net, guard, stream):
    signals = Guarded(net, guard)

    def lights(state):
        stages, green = signals.show(state.queues)
        return [s + 1 for s in stages], [k in green for k in range(len(net.movements))]

    return run(net, stream, lights)


def control_under_guard(net, guard, lines):
    """The answers to lines of counts, and the end line."""
    signals, out = Guarded(net, guard), []
    for number, counts in enumerate(lines, 1):
        stages, _ = signals.show(counts)
        out.append(f"c {number} q {spaced(counts)} s {spaced(s + 1 for s in stages)}")
    return out + [f"end {len(lines)}"]
