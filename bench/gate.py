#!/usr/bin/env python3
"""Where the time of the gate goes.

  bench/gate.py run [NAME..]    runs `rt ci --anew`, or that of these crates and those below them; writes what it prints
                                and what each check took to bench/out/gate.log, and prints the tables of that log
  bench/gate.py LOG             prints the tables of such a log
  bench/gate.py kept NAME..     the slowest functions, by what the last `rt check` of these crates left in out/

`rt ci` reports no times of its own. So `run` looks at the processes of the prover below it, five times a second: crate,
tests and edit stand in their arguments, the processor time in /proc. `rt` is not changed, and of each process at most
the last fifth of a second is lost.

The time of a function is from the check on which the edits of its crate stand. That check leaves a file for each module
that it proved, and the processor time from one file to the next is the later one's. So there are no such times for
tests, nor for crates without edits. Where `rt ci` gave that check several jobs, functions that end side by side share
their time and are marked `~`; RT_JOBS=4 gives each check one job. `kept` has only the clock to go by, and so it counts
what else the machine did.
"""
import bisect
import collections
import contextlib
import itertools
import os
import pathlib
import re
import subprocess
import sys
import threading
import time

TOP = pathlib.Path(__file__).resolve().parent.parent
LOG = TOP / "bench/out/gate.log"
TICK = os.sysconf("SC_CLK_TCK")
BETWEEN = 0.2


def processes():
    """The parent, the name and the processor time, with that of ended children, of each process."""
    found = {}
    for pid in filter(str.isdigit, os.listdir("/proc")):
        try:
            text = pathlib.Path(f"/proc/{pid}/stat").read_text()
        except OSError:
            continue
        name, rest = text[text.index("(") + 1 : text.rindex(")")], text[text.rindex(")") + 2 :].split()
        found[int(pid)] = int(rest[1]), name, sum(map(int, rest[11:15])) / TICK
    return found


def edits_of(crate):
    """The names of a crate's edits, in the order in which `rt ci` numbers them."""
    return [it.stem for it in sorted((TOP / "crates" / crate / "must-fail").glob("*.edit"))]


class Check:
    """A process of the prover: what it checks, and its processor time at the moments when it was looked at."""

    def __init__(self, pid):
        words = pathlib.Path(f"/proc/{pid}/cmdline").read_text().split("\0")
        after = lambda flag: words[words.index(flag) + 1] if flag in words else ""
        self.crate, self.jobs, self.kept = after("--crate-name"), after("--jobs") or "1", after("--incremental")
        self.kind, self.edit = "tests" if "--test" in words else "proof", ""
        if "/rt-edit-" in os.readlink(f"/proc/{pid}/cwd"):
            number, names = os.path.basename(self.kept), edits_of(self.crate)
            self.kind = "ground" if number == "seed" else "edit"
            self.edit = names[int(number)] if number.isdigit() else names[0] if len(names) == 1 else "again"
        self.moments, self.spent = [time.time()], [0.0]

    def at(self, moment):
        """The processor time at a moment, between the two at which the process was looked at."""
        i = min(max(bisect.bisect_left(self.moments, moment), 1), len(self.moments) - 1)
        (a, b), (x, y) = self.moments[i - 1 : i + 1], self.spent[i - 1 : i + 1]
        return min(max(x + (y - x) * (moment - a) / max(b - a, 1e-6), x), y)


class Recorder(threading.Thread):
    """Looks at the provers below a process until it is stopped."""

    def __init__(self, top):
        super().__init__(daemon=True)
        self.top, self.live, self.ended, self.functions = top, {}, [], []
        self.stopped = threading.Event()

    def run(self):
        while not self.stopped.wait(BETWEEN):
            self.look()
        self.end(list(self.live))

    def look(self):
        found, moment = processes(), time.time()
        provers = {pid: it for pid, it in found.items() if it[1] == "rattle"}
        first = {pid for pid, it in provers.items() if it[0] not in provers and self.is_below(pid, found)}
        self.end([pid for pid in self.live if pid not in first])
        for pid in first:
            try:
                check = self.live.get(pid) or self.live.setdefault(pid, Check(pid))
            except (OSError, ValueError, IndexError):
                continue
            check.moments.append(moment)
            # A check with several jobs works in copies of itself.
            check.spent.append(provers[pid][2] + sum(it[2] for it in provers.values() if it[0] == pid))

    def is_below(self, pid, found):
        while pid in found and pid != self.top:
            pid = found[pid][0]
        return pid == self.top

    def end(self, pids):
        for check in map(self.live.pop, pids):
            check.spent = list(itertools.accumulate(check.spent, max))
            self.ended.append(check)
            if check.kind == "ground":
                mark = "~" if check.jobs != "1" else ""
                # The folder may go at any moment.
                with contextlib.suppress(OSError):
                    self.functions += [(check.crate, mark + name, seconds) for name, seconds in steps(check.crate, check.kept, check.at)]


def steps(crate, folder, at=lambda moment: moment):
    """What was spent up to each file that a check left, since the one before it, by the module."""
    files = sorted((it.stat().st_mtime, it.name) for it in pathlib.Path(folder).glob("antt-checked-*/*.oantt"))
    for (before, _), (moment, name) in zip(files, files[1:]):
        yield re.sub(rf"^Rattle-{crate}[-.]?", "", name.removesuffix(".oantt")), at(moment) - at(before)


def run(names):
    LOG.parent.mkdir(exist_ok=True)
    began = time.time()
    how = {"cwd": TOP, "stdin": subprocess.DEVNULL, "stdout": subprocess.PIPE, "stderr": subprocess.STDOUT, "errors": "replace"}
    ran = subprocess.Popen(["rt", "ci", "--anew", *names], **how)
    recorder = Recorder(ran.pid)
    recorder.start()
    with open(LOG, "w", buffering=1) as log:
        for line in ran.stdout:
            log.write(line)
            print(line, end="", flush=True)
        _, status, used = os.wait4(ran.pid, 0)
        recorder.stopped.set()
        recorder.join()
        for it in filter(lambda it: it.crate, recorder.ended):
            print("spent", it.crate, it.kind, it.edit or "-", f"{it.spent[-1]:.2f}", sep="\t", file=log)
        for crate, name, seconds in recorder.functions:
            print("module", crate, name, f"{seconds:.3f}", sep="\t", file=log)
        whole = time.time() - began, used.ru_utime, used.ru_stime, used.ru_maxrss / 1024
        print("whole", *(f"{it:.0f}" for it in whole), sep="\t", file=log)
    tables(LOG)
    return os.waitstatus_to_exitcode(status)


def functions_in(text):
    """The functions of each crate that a log of checks names, as modules of the prover name them, and how many of each crate's own it counts."""
    names, counts = collections.defaultdict(set), collections.Counter()
    for crate, name in re.findall(r"^fn (\w+)::(\S+): \w", text, re.M):
        names[crate].add(name.replace("::", "."))
    for crate, count in re.findall(r"^== (\w+)\n(?:(?!== ).*\n)*?logic=proved.* functions=(\d+)", text, re.M):
        counts[crate] = int(count)
    return names, counts


def function_of(module, names):
    """The function that a module belongs to, or the module itself, as a file of lemmas."""
    path = re.sub(r"^~?(specs\.contracts|specs|proofs)\.?", "", module).split(".")
    ends = [it for it in range(len(path), 0, -1) if ".".join(path[:it]) in names]
    return "~" * module.startswith("~") + ("::".join(path[: ends[0]]) if ends else ".".join(path) + " (lemmas)")


def slowest(title, rows, count):
    print(f"\n| {title} | seconds |\n|---|---:|")
    for name, seconds in sorted(rows.items(), key=lambda it: -it[1])[:count]:
        print(f"| {name} | {seconds:.1f} |")


def tables(file):
    text = pathlib.Path(file).read_text()
    names, counts = functions_in(text)
    spent, edits, functions, tried = collections.Counter(), collections.Counter(), collections.Counter(), collections.Counter()
    for crate, kind, edit, seconds in re.findall(r"^spent\t(.*)\t(.*)\t(.*)\t(.*)$", text, re.M):
        spent[crate, kind] += float(seconds)
        if kind == "edit":
            edits[f"{crate}/{edit}"] += float(seconds)
    for edit in edits:
        tried[edit.split("/")[0]] += 1
    for crate, module, seconds in re.findall(r"^module\t(.*)\t(.*)\t(.*)$", text, re.M):
        functions[f"{crate}::{function_of(module, names[crate])}"] += float(seconds)
    kinds = "proof", "tests", "ground", "edit"
    print("\nSeconds of processor time. `ground` is the check on which a crate's edits stand, with the one that it still holds.\n")
    print("| crate | functions | proof | tests | ground | edits | tried | whole |\n|---|---:|---:|---:|---:|---:|---:|---:|")
    row = lambda name, parts: print(f"| {name} | " + " | ".join(it if isinstance(it, str) else f"{it:.0f}" for it in parts) + " |")
    for crate in sorted({it for it, _ in spent}, key=lambda it: -sum(spent[it, kind] for kind in kinds)):
        own = [spent[crate, kind] for kind in kinds]
        row(crate, [counts[crate], *own, tried[crate], sum(own)])
    sums = [sum(spent[it] for it in spent if it[1] == kind) for kind in kinds]
    row("all", [sum(counts.values()), *sums, len(edits), sum(sums)])
    slowest("function", functions, 20)
    slowest("edit", edits, 10)
    for clock, user, system, peak in re.findall(r"^whole\t(\d+)\t(\d+)\t(\d+)\t(\d+)$", text, re.M):
        user, system, rest = int(user), int(system), int(user) + int(system) - sum(sums)
        print(f"\nThe whole run: {int(clock) / 60:.1f} minutes by the clock, {(user + system) / 60:.1f} processor minutes")
        print(f"({user / 60:.1f} user, {system / 60:.1f} system), of which {rest / 60:.1f} outside the prover, and {peak} MB in the largest process.")


def kept(crates):
    """Prints the slowest functions by the files in out/incremental, whose times are those of the clock."""
    rows = collections.Counter()
    for crate in crates:
        modules = list(steps(crate, TOP / "crates" / crate / "out/incremental"))
        ends = r"\.(Proof|Code|Lts|Met|Statement)$"
        names = {re.sub(r"^proofs\.|" + ends, "", it) for it, _ in modules if re.search(ends, it)}
        for module, seconds in modules:
            rows[f"{crate}::{function_of(module, names)}"] += seconds
    slowest("function", rows, 40)


if __name__ == "__main__":
    words = sys.argv[1:]
    if not words:
        sys.exit(__doc__)
    if words[0] == "run":
        sys.exit(run(words[1:]))
    kept(words[1:]) if words[0] == "kept" else tables(words[0])
