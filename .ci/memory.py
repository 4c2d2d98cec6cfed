#!/usr/bin/env python3
"""Refuses each request of memory that the program makes: each alone, and each with all behind it.

usage: memory.py PROGRAM [--only COMMAND] [--every N]

A run must then be as with memory, or end with status 12, the line `memory`, nothing on the output and nothing read; with
every request refused it must end so. With `--every N` each N-th request is refused, from the first on.
"""
import argparse
import mmap
import shutil
import struct
import subprocess
import sys
import tempfile
from pathlib import Path

from spawn import EXAMPLES, TOP, Spawner

ALL = 2**64 - 1
WANT = (12, b"", b"memory\n")
COMPILERS = "cc", "gcc", "clang"
# What is typed, and the file on the standard input. The files of the commands are made by the program itself.
RUNS = [
    (["run", "corridor.toml"], "corridor.stream"),
    (["run", "delayed-merge.toml"], "delayed-merge.stream"),
    (["runwith", "two-links.toml", "two-links.cert"], "two-links.stream"),
    (["show", "corridor.toml"], None),
    (["certify", "corridor.toml"], None),
    (["certify", "overloaded.toml"], None),
    (["check", "two-links.toml", "two-links.cert"], None),
    (["refute", "two-links.toml", "two-links.vector"], None),
    (["audit", "corridor.toml"], "corridor.log"),
    (["auditwith", "two-links.toml", "two-links.cert"], "two-links.log"),
    (["control", "corridor.toml"], "corridor.counts"),
    (["demo", "7"], None),
    (["scale", "corridor.toml", "1000"], None),
    (["overload", "overloaded.toml"], None),
    (["frames", "corridor.toml", "3"], "corridor.stream"),
    (["plan", "corridor.toml", "40"], "corridor.stream"),
    (["guard", "corridor.toml", "20", "1", "1000"], None),
    (["runguard", "corridor.toml", "corridor.guard"], "corridor.stream"),
    (["auditguard", "corridor.toml", "corridor.guard"], "guarded.log"),
    (["controlguard", "corridor.toml", "corridor.guard"], "corridor.counts"),
    (["fly", "corridor.toml"], None),
]
# Files that the program makes: the name, what is typed, and the file on the standard input.
MADE = [
    ("corridor.guard", ["guard", "corridor.toml", "20", "1", "1000"], None),
    ("corridor.log", ["run", "corridor.toml"], "corridor.stream"),
    ("two-links.log", ["runwith", "two-links.toml", "two-links.cert"], "two-links.stream"),
    ("guarded.log", ["runguard", "corridor.toml", "corridor.guard"], "corridor.stream"),
]


def data(name):
    return Path(name).read_bytes() if name else b""


def fill(spawner):
    """Puts the examples, and the files that the program makes of them, into the folder."""
    for file in EXAMPLES.iterdir():
        if file.suffix in (".toml", ".stream", ".cert", ".vector"):
            shutil.copy(file, file.name)
    Path("corridor.counts").write_text("\n".join([",".join(map(str, range(36))), "# x", ",".join("0" * 36)]) + "\n")
    for name, words, feed in MADE:
        ran = spawner.run(words, data(feed))
        if ran.status:
            sys.exit(f"memory: {' '.join(words)}: {ran.err.decode()}")
        spawner.write(name, ran.out)


def build(folder):
    """The shim, made by the first compiler that is there."""
    compiler = next(filter(None, map(shutil.which, COMPILERS)), None) or sys.exit(f"memory: none of {', '.join(COMPILERS)} is there")
    shim = Path(folder, "refuse.so")
    subprocess.run([compiler, "-O2", "-fPIC", "-shared", "-o", shim, TOP / ".ci/refuse.c"], check=True)
    return shim


def refuse(spawner, page, words, feed, every):
    """How many requests a run makes, in how many runs they are refused, how many of these end with status 12, and what is
    wrong."""
    def refused(first, last):
        struct.pack_into("<QQQ", page, 0, 0, first, last)
        return spawner.run(words, feed)

    whole, runs, ended, wrong = refused(0, 0), 0, 0, []
    asked = struct.unpack_from("<Q", page)[0]
    if not asked:
        wrong.append("no request is seen: is the program linked with another allocator?")
    for first in range(1, asked + 1, every):
        for last in (first, ALL):
            ran = refused(first, last)
            wants = (ran.said(), ran.read) == (WANT, 0)
            runs, ended = runs + 1, ended + wants
            if not wants and (ran.said() != whole.said() or (first, last) == (1, ALL)):
                wrong.append(f"requests {first} to {last}: {ran.said()}, read {ran.read}"[:500])
    refused(0, 0)
    return asked, runs, ended, wrong


def main():
    parser = argparse.ArgumentParser()
    parser.add_argument("program")
    parser.add_argument("--only", metavar="COMMAND", choices=sorted({words[0] for words, _ in RUNS}))
    parser.add_argument("--every", metavar="N", type=int, default=1)
    options = parser.parse_args()
    requests, tried, faults = 0, 0, 0
    with tempfile.TemporaryDirectory() as folder, Spawner(options.program, build(folder)) as spawner:
        page = mmap.mmap(spawner.ports[3], 4096)
        fill(spawner)
        for words, name in RUNS:
            if options.only in (None, words[0]):
                asked, runs, ended, wrong = refuse(spawner, page, words, data(name), options.every)
                print(f"memory: {' '.join(words)}: {asked} requests, {runs} runs, {ended} with status 12, {len(wrong)} wrong", flush=True)
                print(*wrong[:5], sep="\n", end="\n" if wrong else "")
                requests, tried, faults = requests + asked, tried + runs, faults + len(wrong)
    print(f"memory: {requests} requests, refused in {tried} runs, {faults} wrong")
    return faults > 0


if __name__ == "__main__":
    sys.exit(main())
