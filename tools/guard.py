"""Guards by cycle: greens that every stage is owed, with a bound and a longest wait for each movement.

The program's `guard` is asked for cycles up to 60 periods and two denominators; of the guards whose longest wait keeps to --most-wait
the one with the least greatest bound is written. Lost periods: 1 where a change of stage costs about one.
"""
import itertools, statistics
from collections import namedtuple
from common import Fault, aligned, options, progress, put, read_map, seconds_in_period, time_words, written
from network import Net
from program import DENOMINATORS, Program

CYCLES = 60
Guard = namedtuple("Guard", "cycle denominator text bound median wait")     # the greatest and median bound, the longest wait

def guards(program, path, lost):
    """(the guards that the program finds, the last line with which it refuses one)"""
    found, line = [], ""
    for cycle, denominator in progress("cycle, denominator", itertools.product(range(1, CYCLES + 1), DENOMINATORS)):
        answer = program.call("guard", path, cycle, lost, denominator)
        if answer.status == 0:
            with written(answer.out) as file:
                header = program.call("runguard", path, file).header()
            found.append(Guard(cycle, denominator, answer.out, max(header.bounds), statistics.median(header.bounds), max(header.waits)))
        line = answer.line() if answer.status else line
    return found, line

def arguments(parser):
    options(parser, "net")
    parser.add_argument("--most-wait", type=float, metavar="S", help="the longest that anybody may stand without green")
    parser.add_argument("--lost", choices=("0", "1"), default="0", help="periods lost by a change of stage (default 0)")
    parser.add_argument("-o", "--out", metavar="X.guard", help="where the guard goes (default: NET with .guard)")
    options(parser, "map", "period", "program")

def run(a):
    net, program = Net.read(a.net), Program(a.program)
    seconds = seconds_in_period(a, read_map(a, net), needed=a.most_wait is not None)
    found, line = guards(program, a.net, a.lost)
    best = min((g for g in found if a.most_wait is None or g.wait * seconds <= a.most_wait), key=lambda g: g.bound, default=None)
    if found:
        shown = [g for last, g in zip([None, *found], found) if not last or last[:1] + last[3:] != g[:1] + g[3:]]
        print("\n".join(aligned([["cycle", "denominator", "greatest bound", "median", "longest wait", ""], *(
            [g.cycle, g.denominator, g.bound, f"{g.median:g}", f"{g.wait * (seconds or 1):g} {'s' if seconds else 'periods'}",
             "taken" if g is best else ""] for g in shown)])))
    if not best:
        raise Fault(f"no guard waits {a.most_wait:g} s or less" if found else f"no guard with a cycle of up to {CYCLES} periods: {line}", 4)
    out = a.out or a.net.removesuffix(".toml") + ".guard"
    put(out, best.text)
    print(f"{out}: no queue exceeds {best.bound}, and nobody stands longer than {time_words(best.wait, seconds)} without green")
