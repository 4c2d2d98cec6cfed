#!/usr/bin/env python3
"""Drives `maxpressure control` over a pipe, line by line, and sees that each answer comes before the next line is sent.

usage: drive.py PROGRAM
"""
import select
import subprocess
import sys
from pathlib import Path

EXAMPLES = Path(__file__).resolve().parent.parent / "examples"
SECONDS = 20
FIRST = "maxpressure control 1"
# What is sent, and the line that must come back before anything else is sent, where one must.
TURNS = {
    "two-links.toml": [("", FIRST), ("3,0", "c 1 q 3 0 s 1"), ("0,3", "c 2 q 0 3 s 2"), ("# x", None), ("1,2", "c 3 q 1 2 s 2"), ("", None), ("2,2", "c 4 q 2 2 s 1")],
    "overloaded.toml": [("", FIRST), ("999999999,0", "c 1 q 999999999 0 s 1"), ("0,1", "c 2 q 0 1 s 2")],
    "tandem.toml": [("", FIRST), ("3,0", "c 1 q 3 0 s 1 1"), (" 0 , 3 ", "c 2 q 0 3 s 1 1"), ("1,2", "c 3 q 1 2 s 1 1")],
}
# How the input may go on, and what ends the output, the error output and the program then.
ENDS = [("", "end {}\n", "", 0), ("1\n", "", "line {} grammar\n", 7)]


class Late(Exception):
    """An answer that did not come in time."""


def answer(controller):
    """The next line of the output, which must come within some seconds."""
    line = b""
    while not line.endswith(b"\n"):
        if not select.select([controller.stdout], [], [], SECONDS)[0]:
            raise Late(f"no answer within {SECONDS} seconds behind {line!r}")
        byte = controller.stdout.read(1)
        if not byte:
            raise Late(f"the output ended behind {line!r}")
        line += byte
    return line.decode().rstrip("\n")


def drive(program, name, turns, more, rest, said, status):
    """What is wrong with a control on the network of this name, or nothing."""
    pipes = {"stdin": subprocess.PIPE, "stdout": subprocess.PIPE, "stderr": subprocess.PIPE}
    with subprocess.Popen([program, "control", EXAMPLES / name], bufsize=0, **pipes) as controller:
        try:
            for number, (sent, wanted) in enumerate(turns):
                if number:
                    controller.stdin.write(f"{sent}\n".encode())
                if wanted is not None and (came := answer(controller)) != wanted:
                    return f"{sent!r} is answered {came!r}, and not {wanted!r}"
            answers = sum(wanted is not None for _, wanted in turns) - 1
            out, err = controller.communicate(more.encode(), SECONDS)
            got = out.decode(), err.decode(), controller.returncode
            want = rest.format(answers), said.format(len(turns)), status
            return None if got == want else f"ends as {got}, and not {want}"
        except (Late, BrokenPipeError, subprocess.TimeoutExpired) as wrong:
            return str(wrong)
        finally:
            controller.kill()


def main():
    program = Path(sys.argv[1]).resolve()
    faults = 0
    for name, turns in TURNS.items():
        for end in ENDS:
            if wrong := drive(program, name, turns, *end):
                print(f"drive: {name}: {wrong}")
                faults += 1
    print(f"drive: {len(TURNS) * len(ENDS)} controls over a pipe, {faults} wrong")
    return faults > 0


if __name__ == "__main__":
    sys.exit(main())
