#!/usr/bin/env python3
"""measure.py PROGRAM [--quick]: the tables that bench/run.sh prints.

A time is the processor time, user and system, of a whole run: the least of several, which are made in turn.
"""
import itertools
import os
import pathlib
import re
import random
import resource
import shutil
import subprocess
import sys
import time

HERE = pathlib.Path(__file__).resolve().parent
OUT = HERE / "out"
PLAIN = OUT / "plain"
# What to run: a network, its periods, and its periods where the runs are to be quick.
RUNS = [
    ("links 2", 200_000, 20_000),
    ("corridor 3", 100_000, 10_000),
    ("corridor 10", 50_000, 5_000),
    ("city 3", 50_000, 5_000),
    ("grid 8", 20_000, 2_000),
    ("largest 0", 10_000, 1_000),
]
# The greatest network of each kind that certifies, and the next where 128 links allow one.
CERTIFIED = ["corridor 3", "corridor 16", "corridor 17", "grid 8", "blocks 6", "blocks 7", "city 3", "city 4", "largest 0"]
SCALED = ["corridor 32", "grid 8", "blocks 8", "city 4", "city 5", "largest 0"]
# What is overloaded, where its rates are so many times as high.
OVERLOADED = [("corridor 3", 5), ("largest 0", 50)]
# What is run by frames and by a plan, and with which number.
REGULAR = [("frames", "corridor 3", "3", 100_000, 10_000), ("plan", "corridor 3", "40", 100_000, 10_000)]
# What is run under a guard, with its cycle, lost periods and denominator.
GUARDED = [
    ("corridor 3", ("20", "1", "1000"), 100_000, 10_000),
    ("largest 0", ("60", "0", "1000"), 10_000, 1_000),
    ("ring 40", ("20", "0", "1000"), 20_000, 2_000),
]


def made(network, periods=None):
    """The file of a network, or of a stream for it, which is kept for the next time."""
    file = OUT / (network.replace(" ", "-") + (".toml" if periods is None else f".{periods}.stream"))
    if not file.exists() or file.stat().st_mtime < (HERE / "networks.py").stat().st_mtime:
        words = [sys.executable, HERE / "networks.py", *network.split(), *([] if periods is None else [str(periods)])]
        with open(OUT / "making", "wb") as it:
            subprocess.run(words, stdout=it, check=True)
        os.replace(OUT / "making", file)
    return file


def heavier(network, factor):
    """The file of a network with rates that many times as high."""
    file = OUT / f"{network.replace(' ', '-')}.{factor}.toml"
    file.write_text(re.sub(r"rate = (\d+)", lambda it: f"rate = {factor * int(it[1])}", made(network).read_text()))
    return file


def run(words, given=os.devnull, to=os.devnull):
    """The seconds of processor time that a command takes. The measurement ends where its status is not 0,
    but for the verdict on an overloaded network."""
    with open(given, "rb") as source, open(to, "wb") as sink:
        before = resource.getrusage(resource.RUSAGE_CHILDREN)
        ended = subprocess.run(words, stdin=source, stdout=sink, stderr=subprocess.PIPE)
        after = resource.getrusage(resource.RUSAGE_CHILDREN)
    spent = after.ru_utime - before.ru_utime + after.ru_stime - before.ru_stime
    if ended.returncode and not ended.stderr.startswith(b"network overloaded"):
        sys.exit(f"bench: {' '.join(map(str, words))} ended with status {ended.returncode}: {ended.stderr.decode()[:200]}")
    return spent


def least(times, *runs):
    """The least time of each of some runs, which are made in turn."""
    return [min(it) for it in zip(*([run(*one) for one in runs] for _ in range(times)))]


def overflow(words):
    """What a command says of its calculation where that exceeds 128 bits, and nothing otherwise."""
    ended = subprocess.run(words, stdin=subprocess.DEVNULL, stdout=subprocess.DEVNULL, stderr=subprocess.PIPE)
    return ended.stderr.decode().strip() if ended.returncode == 5 else ""


def peak(words, given):
    """The most memory that a command held, in MB, where GNU time is there to say it."""
    if not shutil.which("/usr/bin/time"):
        return "-"
    with open(given, "rb") as source:
        ended = subprocess.run(["/usr/bin/time", "-f", "%M", *words], stdin=source, stdout=subprocess.DEVNULL, stderr=subprocess.PIPE)
    return f"{int(ended.stderr.split()[-1]) / 1024:.1f}"


def compare(words, given, log):
    """Stops where the log of plain Rust is not the program's behind its header, byte by byte."""
    run([PLAIN, words[-1]], given, OUT / "plain.log")
    header = (b"maxpressure ", b"slack ", b"bound ")
    with open(log, "rb") as lines, open(OUT / "plain.log", "rb") as others:
        behind = itertools.dropwhile(lambda line: line.startswith(header), lines)
        for number, (line, other) in enumerate(itertools.zip_longest(behind, others), 1):
            if line != other:
                sys.exit(f"bench: the log of plain Rust differs from the program's over {words[-1]}, in line {number} behind the header")


def runs(program, times, is_quick):
    print("| network | periods | maxpressure, ms | plain Rust, ms | ratio | a period, µs | peak, MB |")
    print("|---|---:|---:|---:|---:|---:|---:|")
    for network, *periods in RUNS:
        count = periods[is_quick]
        words, stream = [program, "run", made(network)], made(network, count)
        own = words, stream
        plain = [([PLAIN, made(network)], stream)] if PLAIN.exists() else []
        if plain:
            run(words, stream, OUT / "run.log")
            compare(words, stream, OUT / "run.log")
        start, spent, *other = least(times, (words,), own, *plain)
        yardstick = f"{1000 * other[0]:.0f} | {spent / other[0]:.2f}" if other else "- | -"
        print(f"| {network} | {count} | {1000 * spent:.0f} | {yardstick} | {(spent - start) / count * 1e6:.2f} | {peak(*own)} |", flush=True)
    if not PLAIN.exists():
        print("\nPlain Rust was left out: there is no rustc.")


def commands(program, times, is_quick):
    network, *periods = RUNS[1]
    count = periods[is_quick]
    run([program, "run", made(network)], made(network, count), OUT / "run.log")
    asked = [(f"certify ({it})", [program, "certify", made(it)]) for it in CERTIFIED]
    asked += [(f"scale ({it}) 1000", [program, "scale", made(it), "1000"]) for it in SCALED]
    asked += [(f"{word} ({it}), rates times {factor}", [program, word, heavier(it, factor)]) for it, factor in OVERLOADED for word in ("certify", "overload")]
    asked += [(f"audit ({network}), {count} periods", [program, "audit", made(network)], OUT / "run.log"), ("demo 7", [program, "demo", "7"])]
    print("\n| command | ms |\n|---|---:|")
    for name, words, *given in asked:
        why = overflow(words) if words[1] == "certify" else ""
        print(f"| {name} | {why or f'{1000 * least(times, (words, *given))[0]:.1f}'} |", flush=True)


def counted(network, lines):
    """A file of lines with a count for each movement of a network, drawn with a fixed seed."""
    file = OUT / f"{network.replace(' ', '-')}.{lines}.counts"
    if not file.exists():
        movements, drawn = made(network).read_text().count("from ="), random.Random(7)
        file.write_text("".join(",".join(str(drawn.randrange(40)) for _ in range(movements)) + "\n" for _ in range(lines)))
    return file


def piped(words, lines):
    """The seconds in which a controller answers these lines over a pipe, where each waits for the answer before it."""
    with subprocess.Popen(words, stdin=subprocess.PIPE, stdout=subprocess.PIPE) as controller:
        controller.stdout.readline()
        start = time.perf_counter()
        for line in lines:
            controller.stdin.write(line)
            controller.stdin.flush()
            controller.stdout.readline()
        spent = time.perf_counter() - start
        controller.stdin.close()
        controller.stdout.read()
    return spent


def controls(program, times, is_quick):
    print("\n| control | lines | from a file, µs a line | over a pipe, µs a line |\n|---|---:|---:|---:|")
    for network, *counts in [("corridor 3", 50_000, 5_000), ("largest 0", 5_000, 500)]:
        count = counts[is_quick]
        words, file = [program, "control", made(network)], counted(network, count)
        start, spent = least(times, (words,), (words, file))
        lines = file.read_bytes().splitlines(keepends=True)
        answered = min(piped(words, lines) for _ in range(3))
        print(f"| {network} | {count} | {(spent - start) / count * 1e6:.2f} | {answered / count * 1e6:.2f} |", flush=True)


def knows(program, word, *files):
    """Whether the program has a command."""
    ended = subprocess.run([program, word, *files], stdin=subprocess.DEVNULL, stdout=subprocess.DEVNULL, stderr=subprocess.PIPE)
    return (ended.returncode, ended.stderr) != (1, b"words\n")


def free(program, network):
    """The words of a run by pressure alone: under a certificate of `scale` where 128 bits don't hold the greatest slack."""
    if not overflow([program, "certify", made(network)]):
        return [program, "run", made(network)]
    certificate = OUT / f"{network.replace(' ', '-')}.cert"
    run([program, "scale", made(network), "1000"], to=certificate)
    return [program, "runwith", made(network), certificate]


def beside(program, words, network, count, times):
    """What a period takes under these words and in a run by pressure alone, and the most memory of the first."""
    stream, other = made(network, count), free(program, network)
    start, spent, other_start, other_spent = least(times, (words,), (words, stream), (other,), (other, stream))
    ours, others = ((to - at) / count * 1e6 for at, to in ((start, spent), (other_start, other_spent)))
    return f"{count} | {1000 * spent:.0f} | {ours:.2f} | {others:.2f} | {peak(words, stream)}"


def once(words, times):
    return f"- | {1000 * least(times, (words,))[0]:.1f} | - | - | {peak(words, os.devnull)}"


def regulated(program, times, is_quick):
    print("\n| by | network | periods | ms | a period, µs | by pressure alone, µs | peak, MB |\n|---|---|---:|---:|---:|---:|---:|")
    row = lambda name, network, cells: print(f"| {name} | {network} | {cells} |", flush=True)
    unknown = set()
    for word, network, number, *periods in REGULAR:
        words = [program, word, made(network), number]
        if knows(*words):
            row(f"{word} {number}", network, beside(program, words, network, periods[is_quick], times))
        else:
            unknown.add(word)
    for network, asked, *periods in GUARDED:
        words, file = [program, "guard", made(network), *asked], OUT / f"{network.replace(' ', '-')}.guard"
        if not knows(*words):
            unknown.add("guard")
            continue
        row(f"guard {' '.join(asked)}", network, once(words, times))
        run(words, to=file)
        words = [program, "runguard", made(network), file]
        if knows(*words):
            row("runguard, no periods", network, once(words, times))
            row("runguard", network, beside(program, words, network, periods[is_quick], times))
        else:
            unknown.add("runguard")
    if unknown:
        print(f"\nLeft out, since the program doesn't know them: {', '.join(sorted(unknown))}.")


if __name__ == "__main__":
    program, *words = sys.argv[1:]
    if words not in ([], ["--quick"]):
        sys.exit("bench/run.sh [--quick]")
    times = 3 if words else 9
    model = next((it.split(":")[1].strip() for it in open("/proc/cpuinfo") if it.startswith("model name")), "unknown")
    print(f"{os.cpu_count()} processors, {model}; load {os.getloadavg()[0]:.1f}; {time.strftime('%Y-%m-%d')}; least of {times}\n")
    runs(program, times, bool(words))
    commands(program, times, bool(words))
    controls(program, times, bool(words))
    regulated(program, times, bool(words))
