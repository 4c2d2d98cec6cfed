"""Counts or arrivals become the rate and burst of each link, and a stream.

INPUT is a CSV of counts (`time,LINK,LINK,..` or `link,time,count`; times as HH:MM, HH:MM:SS or seconds), the output of SUMO's E1
detectors (.xml, with --detectors), or a stream (.stream). Counts of intervals are drawn within them at random, 200 times; the burst
admits every draw, and the stream is the first. Of the rates of the busiest 5, 15, 30, 60 minutes and the mean, the one with which
the program's greatest bound is smallest is taken.
"""
import json, math, random
import xml.etree.ElementTree as ET
from common import Fault, aligned, near, options, progress, put, read_map, seconds_in_period, written
from network import Link, Net, busiest, least_burst
from program import Program

WINDOWS, DRAWS, OTHER_DRAWS = ("5", "15", "30", "60", "mean"), 200, 100

def time_of(text, where):
    try:
        parts = [float(x) for x in text.split(":")]
    except ValueError:
        raise Fault(f"{where}: {text!r} is no time (HH:MM, HH:MM:SS or seconds)") from None
    return parts[0] if len(parts) == 1 else sum(x * m for x, m in zip(parts, (3600, 60, 1)))

def rows_of(path):
    """(number, fields) of each row of a CSV that isn't blank or a comment."""
    with open(path, encoding="utf-8-sig", errors="replace") as file:
        rows = [[x.strip().strip('"') for x in line.split(",")] for line in file]
    return [(i, row) for i, row in enumerate(rows, 1) if any(row) and not row[0].startswith("#")]

def known(net, link, where):
    if link not in net.link_number:
        raise Fault(f"{where}: the network has no link {link!r} (it has {near(link, net.link_number)})")
    return link

def read_csv(path, net):
    """link -> time -> count"""
    rows, got = rows_of(path), {}
    head = rows[0][1] if rows else [""]
    if head != ["link", "time", "count"] and (head[0] != "time" or len(head) < 2):
        raise Fault(f"{path}: the header is `time,LINK,..` or `link,time,count`, not {','.join(head)[:60]!r}")
    for number, row in rows[1:]:
        where = f"{path} row {number}"
        if len(row) != len(head):
            raise Fault(f"{where}: {len(row)} fields, where the header has {len(head)}")
        for link, time, count in [row] if head[0] == "link" else [(n, row[0], x) for n, x in zip(head[1:], row[1:])]:
            counts, begin = got.setdefault(known(net, link, where), {}), time_of(time, where)
            if begin in counts:
                raise Fault(f"{where}: link {link} has two counts for {time}")
            if not count.isdigit():
                raise Fault(f"{where}: {count!r} is no count of link {link} (a whole number, 0 or more)")
            counts[begin] = int(count)
    return got

def read_detectors(path, table, net):
    """link -> time -> count, of a SUMO detector output; several detectors of one link are added up."""
    if not table:
        raise Fault("--detectors is needed with a detector output: a CSV `detector,link`")
    link_of = {row[0]: known(net, row[-1], f"{table} row {i}") for i, row in rows_of(table) if row != ["detector", "link"]}
    got = {}
    try:
        for _, e in ET.iterparse(path):
            if e.tag == "interval" and e.get("id") in link_of:
                counts, begin = got.setdefault(link_of[e.get("id")], {}), float(e.get("begin"))
                counts[begin] = counts.get(begin, 0) + int(float(e.get("nVehContrib")))
    except (ET.ParseError, TypeError, ValueError) as fault:
        raise Fault(f"{path}: not the output of E1 detectors: {fault}") from None
    return got

def read_stream(path, net, seconds):
    """link -> time -> count, an interval a period"""
    got = {net.links[l].name: {} for l in net.fed}
    for period, (number, row) in enumerate(rows_of(path)):
        if len(row) != len(got) or not all(x.isdigit() for x in row):
            raise Fault(f"{path} line {number}: not {len(got)} counts, one for each fed link")
        for link, x in zip(got, row):
            got[link][period * seconds] = int(x)
    return got

class Counts:
    """Counts of intervals, and the arrivals per period that are drawn from them."""
    def __init__(self, path, got, seconds):
        times = sorted({t for counts in got.values() for t in counts})
        if not times:
            raise Fault(f"{path}: no counts")
        self.got, self.seconds, self.first = got, seconds, times[0]
        self.step = min((b - a for a, b in zip(times, times[1:])), default=seconds if path.endswith(".stream") else 900)
        for a, b in zip(times, times[1:]):
            if b - a > self.step * 1.001:
                raise Fault(f"{path}: counts come every {self.step:g} s, but none between {a:g} s and {b:g} s: a gap in times")
        for link, counts in got.items():
            if len(counts) < len(times):
                raise Fault(f"{path}: link {link} has no count for {min(set(times) - counts.keys()):g} s, where others have one")
        if self.step < seconds:
            raise Fault(f"{path}: counts every {self.step:g} s are finer than a period of {seconds:g} s: add them up")
        self.periods = math.ceil((times[-1] + self.step - times[0]) / seconds)
    def draws(self, link, n=DRAWS, seed="first"):
        """n lists of counts per period. Each vehicle comes at a moment of its interval that is as likely as any other."""
        chance, counts = random.Random(f"{seed} {link}"), self.got[link]
        for _ in range(n if self.step > self.seconds else 1):
            out = [0] * self.periods
            for begin, count in counts.items():
                first = (begin - self.first) / self.seconds
                if self.step == self.seconds:
                    out[round(first)] += count
                else:
                    for _ in range(count):
                        out[int(first + chance.random() * self.step / self.seconds)] += 1
            yield out

def candidates(counts, net):
    """window -> its links, and the first draw of each link."""
    out, first = {w: [] for w in WINDOWS}, {}
    for link in progress("draws of link", counts.got):
        series = list(counts.draws(link))
        first[link] = series[0]
        for w in out:
            length = counts.periods if w == "mean" else round(60 * float(w) / counts.seconds)
            rate = max(1, math.ceil(max(busiest(c, length) for c in series) * net.per))
            out[w].append(Link(link, max(least_burst(c, rate, net.per) for c in series), rate))
    return out, first

def judged(program, net, links):
    """(greatest bound or None, slack or verdict, network) with this demand."""
    new = net.with_demand([next((x for x in links if x.name == old.name), Link(old.name, 0, 0)) for old in net.links])
    if new.over_limit():
        return None, new.over_limit(), new
    with written(new.text()) as file:
        verdict = program.verdict(file)
        header = program.header(file, verdict.certificate) if verdict.kind == "carried" else None
    return (max(header.bounds), header.slack, new) if header else (None, verdict.kind, new)

def curve_rows(counts, net, link):
    if link not in counts.got:
        raise Fault(f"no counts for link {link!r} (there are some for {near(link, counts.got)})")
    series = list(counts.draws(link))
    mean = max(map(sum, series)) / counts.periods * net.per
    yield ["of the mean", "vehicles an hour", "least burst"]
    for part in (80, 90, 100, 105, 110, 120, 135, 150, 200):
        rate = max(1, math.ceil(mean * part / 100))
        yield [f"{part} %", f"{rate * 3600 / net.per / counts.seconds:,.0f}", max(least_burst(c, rate, net.per) for c in series)]

def refused(counts, links, per):
    """How many of other draws this demand refuses."""
    over = [False] * OTHER_DRAWS
    for x in progress("other draws", links, lambda x: x.name):
        for i, c in enumerate(counts.draws(x.name, OTHER_DRAWS, "other")):
            over[i] = over[i] or least_burst(c, x.rate, per) > x.burst
    return sum(over)

def arguments(parser):
    options(parser, "net")
    parser.add_argument("input", metavar="INPUT", help="counts (.csv), detector output (.xml) or arrivals (.stream)")
    parser.add_argument("--detectors", metavar="CSV", help="rows `detector,link`")
    parser.add_argument("--curve", metavar="LINK", help="print the least burst for each rate of one link, and no more")
    parser.add_argument("-o", "--out", default="demand", metavar="N", help="writes N.toml and N.stream")
    options(parser, "period", "map", "program")

def run(a):
    net = Net.read(a.net)
    names = read_map(a, net)
    seconds = seconds_in_period(a, names, needed=True)
    got = read_stream(a.input, net, seconds) if a.input.endswith(".stream") else \
        read_detectors(a.input, a.detectors, net) if a.input.endswith(".xml") else read_csv(a.input, net)
    counts, hourly = Counts(a.input, got, seconds), 3600 / net.per / seconds
    if a.curve:
        return print("\n".join(aligned(curve_rows(counts, net, a.curve))))
    program, (found, first) = Program(a.program), candidates(counts, net)
    answers = {w: judged(program, net, links) for w, links in found.items()}
    best = min(answers, key=lambda w: answers[w][0] or math.inf)
    print("\n".join(aligned([["busiest minutes", "vehicles an hour", "bursts", "greatest bound", "slack", ""], *(
        [w, f"{sum(x.rate for x in found[w]) * hourly:,.0f}", sum(x.burst for x in found[w]), f"{bound:,}" if bound else "-", slack,
         "taken" if w == best else ""] for w, (bound, slack, _) in answers.items())])))
    bound, _, new = answers[best]
    if new.over_limit():
        raise Fault(f"{a.input}: {new.over_limit()}")
    put(a.out + ".toml", new.text([f"Demand from {a.input}: rates of the busiest minutes ({best})"]))
    if names:                                                      # so that the other commands find it beside the new network
        put(a.out + ".map.json", json.dumps(names, indent=1))
    order = [new.links[l] for l in new.fed]
    put(a.out + ".stream", "".join(",".join(map(str, row)) + "\n" for row in zip(*(first[x.name] for x in order))))
    print("\n".join(aligned([["link", "vehicles an hour", "burst"], *([x.name, f"{x.rate * hourly:,.0f}", x.burst] for x in order)])))
    print(f"{a.out}.toml, {a.out}.stream: {counts.periods} periods; of {OTHER_DRAWS} other draws of these counts this demand refuses "
          f"{refused(counts, order, net.per)}" + ("" if bound else f"\nno candidate is certified: `mp explain {a.out}.toml` says where it is short"))
