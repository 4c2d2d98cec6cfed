#!/usr/bin/env python3
"""Compares what the program prints with a slow model (model.py) over random networks, byte by byte, and tries the guards
that the program finds against hostile choices, wrong counts and greedy arrivals: no queue may pass its bound and no red its
wait. Over 100 networks and more some bound and some wait must be reached, and a false 0 pass one.

usage: compare.py PROGRAM [NETWORKS [FIRST]]

There are 1000 networks of each part where no number is given. Each has a number of its own from which it is drawn, so
`compare.py PROGRAM 1 17` tries network 17 again, and prints its file; an attack that succeeds prints its network and its
guard. Commands that the program doesn't know are skipped.
"""
import collections
import os
import random
import subprocess
import sys
import tempfile
from fractions import Fraction
from typing import NamedTuple

import model
from model import Account, Guard, Guarded, Link, Movement, Network, State

# The words of each command behind its name, with numbers that it takes.
COMMANDS = {"run": ["NET"], "audit": ["NET"], "frames": ["NET", "2"], "plan": ["NET", "4"], "guard": ["NET", "4", "0", "4"], "runguard": ["NET", "GUARD"],
            "controlguard": ["NET", "GUARD"], "auditguard": ["NET", "GUARD"]}
SECONDS = 60
PERIODS = 40
ATTACKS = 8


class Answer(NamedTuple):
    status: int
    out: str
    err: str


def printed(lines):
    return Answer(0, text_of(lines), "")


def refused(status, line):
    return Answer(status, "", line + "\n")


def text_of(lines):
    return "".join(line + "\n" for line in lines)


def logged(header, ended):
    """The answer of a run, of which the model gives the lines and where the stream is above a bucket."""
    lines, above = ended
    line = above and f"line {above.period} above period {above.period} link {above.link}\n"
    return Answer(8 if above else 0, text_of(header + lines), line or "")


class Program:
    """The program, with a folder for its files."""

    def __init__(self, path, folder):
        self.path, self.folder = os.path.abspath(path), folder
        guard = self.file("GUARD", "guard 1\n")
        net = self.file("NET", Network(1, 1, [Link("a", 1, 0)], [Movement("ao", 0, None, 1, 1, 0)], [[[0]]]).text())
        files = {"NET": net, "GUARD": guard}
        asked = {name: self.ask([name] + [files.get(it, it) for it in words]) for name, words in COMMANDS.items()}
        self.known = [name for name, answer in asked.items() if answer != refused(1, "words")]

    def file(self, name, text):
        path = os.path.join(self.folder, name)
        with open(path, "w") as it:
            it.write(text)
        return path

    def ask(self, words, given=""):
        pipes = {"stdout": subprocess.PIPE, "stderr": subprocess.PIPE, "timeout": SECONDS, "universal_newlines": True}
        ended = subprocess.run([self.path, *map(str, words)], input=given, **pipes)
        return Answer(ended.returncode, ended.stdout, ended.stderr)


# What is drawn


def draw_network(draw):
    """A small network: with loops or without, with stages that share movements, near its capacity, below it or above."""
    shares, per, count = draw.choice([1, 2, 3, 4, 5, 7, 10]), draw.choice([1, 2, 3, 4, 5, 6, 10] * 3 + [900, 3600]), draw.randint(1, 5)
    has_loops, has_starts = draw.random() < 0.5, draw.random() < 0.3
    order = draw.sample(range(count), count)
    movements = []
    for place, l in enumerate(order):
        onward = order[place + 1 :] + [None]
        for i, share in enumerate(draw_shares(draw, shares)):
            # The first movement of each link leads on or out, so that from every link there is a way out.
            target = draw.choice(list(range(count)) + [None] if i and has_loops else onward)
            start = draw.choice([0, 0, draw.randint(1, 15)]) if has_starts else 0
            movements.append(Movement(f"l{l}.{i}", l, target, share, draw.randint(1, 4), start))
    draw.shuffle(movements)
    links = [Link(f"l{l}", draw.choice([0, 0, 1, 2, 4]), draw.choice([0, draw.randint(1, 2 * per)] * 40 + [1000 * per])) for l in range(count)]
    if not any(it.burst or it.rate for it in links):
        links[order[0]] = Link(links[order[0]].name, 1, 1)
    net = Network(shares, per, links, movements, draw_junctions(draw, movements, count))
    return net if draw.random() < 0.2 else with_fitting_flows(draw, net)


def draw_shares(draw, shares):
    cuts = sorted(draw.sample(range(1, shares), draw.randint(1, min(3, shares)) - 1))
    return [b - a for a, b in zip([0] + cuts, cuts + [shares])]


def draw_junctions(draw, movements, links):
    """Junctions that share the links out, with stages of 1 to 4 movements in which each movement stands."""
    at = [draw.randrange(links) for _ in range(links)]
    junctions = []
    for junction in sorted(set(at)):
        own = [k for k, it in enumerate(movements) if at[it.origin] == junction]
        stages, left = [], set(own)
        while left:
            stage = draw.sample(own, draw.randint(1, min(4, len(own))))
            if left & set(stage) and len(stages) < 15:
                stages.append(stage)
                left -= set(stage)
            elif len(stages) == 15:
                return draw_junctions(draw, movements, links)
        junctions.append(stages + [draw.sample(own, 1)] * (draw.random() < 0.2))
    return junctions


def with_fitting_flows(draw, net):
    """The network with flows near what the rates need where each stage gets as much time as another."""
    flows = net.flows()
    def fitting(k, it):
        need = it.share * flows[it.origin] * len(net.junctions[net.junction_of[k]]) / (net.shares * net.per * len(net.stages_of(k)))
        return max(1, min(1000, round(float(need) * draw.choice([0.9, 1.1, 1.5, 2, 3]))))

    movements = [it._replace(flow=fitting(k, it)) for k, it in enumerate(net.movements)]
    return Network(net.shares, net.per, net.links, movements, net.junctions)


def draw_stream(draw, net):
    """Permitted arrivals: drawn, or the most that the buckets accept, in each period or from some period on. One stream in
    ten ends with a period above a bucket."""
    kind, state, stream = draw.choice(["drawn", "greedy", "saved"]), State(net), []
    since, wrong = draw.randrange(PERIODS), draw.randrange(10 * PERIODS)
    for period in range(PERIODS):
        most = [state.most(l) for l in net.fed]
        counts = [draw.randint(0, it) if kind == "drawn" else it if kind == "greedy" or period >= since else 0 for it in most]
        stream.append(counts)
        if period == wrong:
            counts[draw.randrange(len(counts))] += 1 + max(most)
            break
        state.fill(counts)
    return stream


def draw_counts(draw, net):
    return [[draw.choice([0, 0, draw.randint(1, 9)]) for _ in net.movements] for _ in range(PERIODS)]


def changed(draw, net, guard):
    """A guard with some number changed, so that it may break a rule, or a looser one."""
    cycle, lost, d, rates, greens = guard
    rates, greens = list(rates), [list(own) for own in greens]
    for _ in range(draw.choice([0, 1, 1, 2])):
        own, step = draw.choice(greens), draw.choice([-1, 1, 1, 2])
        if draw.random() < 0.5:
            s = draw.randrange(len(own))
            own[s] = max(0, own[s] + step)
        else:
            k = draw.randrange(len(rates))
            rates[k] = max(0, rates[k] + step)
    cycle = draw.choice([cycle] * 8 + [0, cycle + 1, cycle - 1, 3601])
    return Guard(cycle, draw.choice([lost] * 9 + [2]), draw.choice([d] * 9 + [0, d + 1]), rates, greens)


def draw_question(draw):
    """A cycle, the periods that a change loses, and a denominator."""
    return draw.choice([1, 2, 3, 4, 5, 6, 8, 12, 20]), draw.randrange(2), draw.choice([1, 4, 10, 60, 100, 1000])


def draw_events(draw, net):
    """Lines of a stream: in each period junctions hear links and decide, or leave it to the line of arrivals, in any order.
    Most decide on copies that are young enough; a line in some hundreds is refused."""
    run, lines = model.Events(net), []
    for arrivals in draw_stream(draw, net):
        own = []
        for j in range(len(net.junctions)):
            heard = [("hear", j, l) for l in net.targets(j) * 2 if draw.random() < 0.6]
            draw.shuffle(heard)
            own.append(heard + [("decide", j)] * draw.choice([0, 1, 1, 2]))
        order = [j for j, events in enumerate(own) for _ in events]
        draw.shuffle(order)
        for j in order:
            event = own[j].pop(0)
            if event[0] == "hear":
                run.hear(*event[1:])
            elif run.decided[j] is not None or run.stale(j) is None:
                run.decide(j)
            elif draw.random() < 0.99:
                continue
            lines.append(event)
        if draw.random() < 0.005:
            lines.append(("hear", draw.randrange(len(net.junctions)), draw.randrange(len(net.links))))
        lines += [("close", *arrivals)] + [("skip",)] * (draw.random() < 0.1)
        run.close(arrivals)
    return lines


def line_text(kind, *numbers):
    if kind == "skip":
        return "# a comment"
    return ",".join(map(str, numbers)) if kind == "close" else " ".join([kind, *(str(it + 1) for it in numbers)])


# What is compared


def csv(rows):
    return "".join(",".join(map(str, row)) + "\n" for row in rows)


def by_events(program, net, draw):
    """The network with reports that may be some periods old, its file, and the header of its log, if it has one."""
    late = Network(net.shares, net.per, net.links, net.movements, net.junctions, draw.choice([0, 0, 1, 2, 5, 60]))
    file = program.file("late", late.text())
    opened = program.ask(["run", file])
    return late, file, None if opened.status else opened.out.splitlines()[:-1]


def run(program, net, _, draw):
    late, file, header = by_events(program, net, draw)
    if header is None:
        return
    lines = draw_events(draw, late)
    log, status, refusal = model.run_by_events(late, lines)
    yield ["run", file], text_of(line_text(*it) for it in lines), Answer(status, text_of(header + log), refusal and refusal + "\n")


def audit(program, net, _, draw):
    late, file, header = by_events(program, net, draw)
    if header is None:
        return
    lines, status, _ = model.run_by_events(late, [("close", *arrivals) for arrivals in draw_stream(draw, late)])
    if status:
        return
    log = header + lines
    yield ["audit", file], text_of(log), printed([f"log ok {len(lines) - 1}"])
    wrong = draw.randrange(len(log))
    log[wrong] += "1"
    yield ["audit", file], text_of(log), refused(13, f"log differs line {wrong + 1}")


def frames(program, net, file, draw):
    periods, stream = draw.randint(2, 6), draw_stream(draw, net)
    framed = model.frame_network(net, periods)
    words = ["frames", file, periods]
    if isinstance(framed, str):
        yield words, csv(stream), refused(18, framed)
        return
    verdict = program.ask(["certify", program.file("framed", framed.text())])
    if verdict.status:
        yield words, csv(stream), verdict
        return
    _, d, e = [it.split()[-1] for it in verdict.out.splitlines()[:3]]
    slack = Fraction(int(e), int(d))
    header = ["maxpressure 1", f"slack {slack.numerator}/{slack.denominator}"]
    header += model.bound_lines(net, model.frame_bounds(net, periods, slack))
    yield words, csv(stream), logged(header, model.run_by_frames(net, periods, stream))


def plan(_, net, file, draw):
    for _ in range(2):
        cycle, stream = draw.choice([1, 2, 3, 4, 6, 10, 20, 60]), draw_stream(draw, net)
        made = model.make_plan(net, cycle)
        lines = refused(17, made) if isinstance(made, str) else logged(made.header(net), model.run_by_plan(net, made, stream))
        yield ["plan", file, cycle], csv(stream), lines


def guard(_, net, file, draw):
    for _ in range(3):
        asked = draw_question(draw)
        found = model.find_guard(net, *asked)
        yield ["guard", file, *asked], "", refused(19, found) if isinstance(found, str) else printed(found.lines())


def guards(program, net, draw):
    """Guards of the network that the model finds, changed or as they are, each with its file and the refusal of it, if any."""
    for _ in range(2):
        for cycle in 2, 4, 12, 40:
            found = model.find_guard(net, cycle, draw.randrange(2), draw.choice([10, 100, 1000]))
            if not isinstance(found, str):
                break
        else:
            return
        one = changed(draw, net, found) if draw.random() < 0.5 else found
        text = one.lines()
        text.insert(draw.randrange(len(text)), draw.choice(["", "# a comment"]))
        refusal = guard_refusal(net, one)
        if draw.random() < 0.1:
            refusal = refused(3, f"guard text line {len(text)}")
            text.pop()
        yield one, program.file("guard", text_of(text)), refusal


def guard_refusal(net, one):
    rule = model.broken_rule(net, one)
    if rule:
        return refused(4, f"guard fails {rule}")
    return None if model.limits(net, one) else refused(15, "sweeps bound")


def runguard(program, net, file, draw):
    for one, text, refusal in guards(program, net, draw):
        stream = draw_stream(draw, net)
        want = refusal or logged(model.guard_header(net, one), model.run_under_guard(net, one, stream))
        yield ["runguard", file, text], csv(stream), want


def controlguard(program, net, file, draw):
    for one, text, refusal in guards(program, net, draw):
        lines = draw_counts(draw, net)
        want = refusal or printed(model.guard_header(net, one) + model.control_under_guard(net, one, lines))
        yield ["controlguard", file, text], csv(lines), want


def auditguard(program, net, file, draw):
    for one, text, refusal in guards(program, net, draw):
        if refusal:
            yield ["auditguard", file, text], "", refusal
            continue
        lines, above = model.run_under_guard(net, one, draw_stream(draw, net))
        if above:
            continue
        log = model.guard_header(net, one) + lines
        yield ["auditguard", file, text], text_of(log), printed([f"log ok {len(lines) - 1}"])
        wrong = draw.randrange(len(log))
        log[wrong] += "1"
        yield ["auditguard", file, text], text_of(log), refused(13, f"log differs line {wrong + 1}")


# Each yields words, an input and the answer that is wanted.
COMPARED = run, audit, frames, plan, guard, runguard, controlguard, auditguard


def difference(got, want):
    """How an answer differs from the one that is wanted."""
    if got.status != want.status:
        return f"status {got.status} {got.err.strip()!r}, and not {want.status} {want.err.strip()!r}"
    for name, own, other in ("output", got.out, want.out), ("error output", got.err, want.err):
        for number, (one, two) in enumerate(zip(own.split("\n") + ["(no line)"], other.split("\n") + ["(no line)"]), 1):
            if one != two:
                return f"line {number} of the {name} is {one!r}, and not {two!r}"
    return None


def rules(net, words, answer):
    """What is wrong with a guard that was printed for these words, or nothing."""
    found = model.read_guard(answer.out.splitlines())
    if [found.cycle, found.lost, found.denominator] != words[2:]:
        return f"the guard {found.lines()[1:4]} is not one of {words[2:]}"
    rule = model.broken_rule(net, found)
    return rule and f"the guard breaks {rule}"


def compare(program, numbers, tally):
    """Yields what is wrong with the answers over the networks of these numbers."""
    for number in numbers:
        net = draw_network(random.Random(number))
        file = program.file("net", net.text())
        for answers in COMPARED:
            command = answers.__name__
            if command not in program.known:
                continue
            for words, given, want in answers(program, net, file, random.Random(f"{number} {command}")):
                got = program.ask(words, given)
                tally[command, want.status] += 1
                wrong = difference(got, want) or (command == "guard" and got.status == 0 and rules(net, words, got))
                if wrong:
                    yield f"network {number}: {command} {' '.join(map(str, words[2:]))}: {wrong}"


# Hostile choices


class Hostile:
    """One attack: candidates, counts and arrivals that are there to hurt some movement, or drawn."""

    def __init__(self, net, draw):
        self.net, self.draw, self.target = net, draw, draw.randrange(len(net.movements))
        self.way, self.how = draw.choice(["any", "avoid", "avoid", "worst"]), draw.choice(["true", "wrong", "wrong"])
        self.since = [draw.choice([0, draw.randrange(PERIODS)]) for _ in net.fed]

    def counts(self, queues):
        """Wrong counts, of which a 0 alone is true."""
        if self.how == "true":
            return queues
        return [self.draw.randint(1, 999) if queue else self.draw.choice([0, 1, 50]) for queue in queues]

    def chooser(self, state):
        """Takes any candidate, one without the target, or the one that passes the least."""
        def passes(account, stage):
            return sum(min(self.net.movements[k].flow, state.queues[k]) for k in account.stages[stage])

        def choose(account, _, candidates):
            away = [s for s in candidates if self.target not in account.stages[s]]
            if self.way == "worst":
                return min(candidates, key=lambda s: (passes(account, s), not account.is_change(s)))
            return self.draw.choice(away if self.way == "avoid" and away else candidates)

        return choose

    def arrivals(self, state):
        return [state.most(l) if state.period >= since else 0 for l, since in zip(self.net.fed, self.since)]


class FalseZero(Hostile):
    """An attack that the guard doesn't withstand: its target is counted as 0, whoever waits."""

    def counts(self, queues):
        return [0 if k == self.target else queue for k, queue in enumerate(super().counts(queues))]


def attack(one, bounds, waits, hostile):
    """What is wrong under an attack, or nothing; and which of a bound and a wait above 0 were reached."""
    net = hostile.net
    state, signals = State(net), Guarded(net, one)
    red, reached = [0] * len(net.movements), set()
    for _ in range(PERIODS + 3 * one.cycle):
        _, green = signals.show(hostile.counts(state.queues), hostile.chooser(state))
        red = [0 if k in green or not state.queues[k] else n + 1 for k, n in enumerate(red)]
        state.close(hostile.arrivals(state), [k in green for k in range(len(red))])
        for k, (queue, bound, n, wait) in enumerate(zip(state.queues, bounds, red, waits), 1):
            if queue > bound:
                return f"movement {k} has a queue of {queue}, above its bound of {bound}", reached
            if n > wait:
                return f"movement {k} waits {n} periods without green, and not {wait} at most", reached
            reached |= {it for it, has in (("bound", queue == bound > 0), ("wait", n == wait > 0)) if has}
    return None, reached


def found(program, number):
    """A network drawn from this number for which the program finds a guard; that guard, or one with other numbers that
    keeps the rules too; and its bounds and its waits. None where the program finds none for many networks."""
    draw = random.Random(f"hostile {number}")
    for _ in range(100):
        net = draw_network(draw)
        file = program.file("net", net.text())
        text = program.ask(["guard", file, *draw_question(draw)])
        if text.status == 0:
            one = model.read_guard(text.out.splitlines())
            other = changed(draw, net, one)
            one = one if draw.random() < 0.5 or model.broken_rule(net, other) else other
            header = program.ask(["runguard", file, program.file("guard", text_of(one.lines()))]).out.splitlines()
            numbers = [[int(it.split()[3]) for it in header if it.startswith(word)] for word in ("bound ", "wait ")]
            return net, one, numbers
    return None


def attacks(program, numbers, tally):
    """Yields what is wrong under attacks on guards that the program finds, and counts what they reach."""
    for number in numbers:
        drawn = found(program, number)
        if not drawn or any(len(it) != len(drawn[0].movements) for it in drawn[2]):
            yield f"hostile network {number}: guard finds no guard, or runguard has no bound or wait of some movement"
            continue
        (net, one, limits), draw, reached = drawn, random.Random(number), set()
        for _ in range(ATTACKS):
            wrong, more = attack(one, *limits, Hostile(net, draw))
            reached |= more
            if wrong:
                yield f"hostile network {number}: {wrong}\n{net.text()}{text_of(one.lines())}"
                break
        tally.update(reached)
        tally["passed"] += any(attack(one, *limits, FalseZero(net, draw))[0] for _ in range(2))


def blunt(tally):
    """What no attack came to, where that is no chance: then a bound or a wait that is one too low would not be seen."""
    names = {"bound": "reached a bound", "wait": "reached a wait", "passed": "passed a limit with a false 0"}
    return [f"no attack {name}" for it, name in names.items() if not tally[it]]


def main():
    if not 2 <= len(sys.argv) <= 4:
        sys.exit(__doc__)
    count, first = [int(it) for it in sys.argv[2:]] + [1000, 1][len(sys.argv) - 2 :]
    numbers, faults, tally = range(first, first + count), 0, collections.Counter()
    with tempfile.TemporaryDirectory() as folder:
        program = Program(sys.argv[1], folder)
        unknown = [it for it in COMMANDS if it not in program.known]
        if count == 1:
            print(draw_network(random.Random(first)).text())
        for wrong in compare(program, numbers, tally):
            print(f"compare: {wrong}")
            faults += 1
        for command in program.known:
            by_status = ", ".join(f"{n} of status {status}" for (name, status), n in sorted(tally.items()) if name == command)
            print(f"compare: {command}: {by_status}")
        if unknown:
            print(f"compare: skipped, since the program doesn't know them: {', '.join(unknown)}")
        if {"guard", "runguard"} <= set(program.known):
            for wrong in attacks(program, numbers, tally):
                print(f"compare: {wrong}")
                faults += 1
            told = f"a bound was reached on {tally['bound']} of them, a wait on {tally['wait']}, and with a false 0 one was passed on {tally['passed']}"
            print(f"compare: {count * ATTACKS} attacks on {count} guards: {told}")
            for wrong in blunt(tally) if count >= 100 else []:
                print(f"compare: {wrong}")
                faults += 1
        else:
            print("compare: no guard is attacked, since the program doesn't know guard or runguard")
    print(f"compare: {count} networks, {faults} wrong")
    return faults > 0


if __name__ == "__main__":
    sys.exit(main())
