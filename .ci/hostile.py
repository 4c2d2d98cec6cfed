#!/usr/bin/env python3
"""Hands the program hostile texts: files and streams of every kind, drawn, mutated, cut and made long.

usage: hostile.py PROGRAM [--seed N] [--count N] [--long N] [--workers N] [--one N]

Each text must end in a status that its command has, with the line of that status, the output that belongs to it and
nothing else, and in time linear in its length: a long text may take eight times what one of a quarter of its length takes.
A text is drawn from the seed and its number alone; `--one N` hands over the text of that number, shows the answer on the
error output and prints the text. One text in 1,000 is long, and with `--long N` there are N more.
"""
import argparse
import collections
import multiprocessing
import os
import random
import re
import sys

import compare
from model import Network
from spawn import EXAMPLES, TOP, Spawner, read

LONGEST = 1_048_576
SECONDS = 0.01  # what a quarter may take at least before a ratio is looked at
DRAWN = 40
# The lines of each status; # is a number. Behind the first line of a critical or overloaded network stands a vector.
LINES = {
    0: "",
    3: "network N#( top|( link| movement| junction) #)|(certificate|vector|guard) text (long|line #)",
    4: "network (admitted|(critical|overloaded)\nvector 1\np( #)+)|(certificate|guard) fails [a-z]+( #){0,2}|vector fails (zero|weak)|scale none",
    5: "overflow (flow|adjoint|vector|certificate|bound|room|growth|plan|(game|mix) #)",
    6: "pivots #",
    7: "line # (long|grammar)",
    8: "line # above period # link #",
    13: "log differs line #",
    14: "line # event (stale|notadjacent) junction # link #",
    15: "sweeps (#|bound)",
    16: "uneven link #",
    17: "plan (cycle link|full junction) #",
    18: "frames (per|rate #)",
    19: "guard (none|full #)",
}
LINES = {status: re.compile(f"({line.replace('#', '(0|[1-9][0-9]*)')})\n" if status else line) for status, line in LINES.items()}
# The statuses of each command beside 0 and 3, and how its output begins.
ENDS = {
    "show": ([], "(delay = #\n)?per = #\n"),
    "certify": ([4, 5, 6], "certificate 1\nd #\n"),
    "scale": ([4, 5, 6, 15], "certificate 1\nd #\n"),
    "overload": ([4, 5, 6, 16], "growth # constant #\n"),
    "guard": ([5, 6, 15, 19], "guard 1\ncycle #\n"),
    "check": ([4, 5], "certificate ok slack #/#\n"),
    "refute": ([4, 5], "(overloaded|tight) load # cap #\n"),
    "run": ([4, 5, 6, 7, 8, 14], "maxpressure 1\nslack #/#\n"),
    "runwith": ([4, 5, 7, 8, 14], "maxpressure 1\nslack #/#\n"),
    "frames": ([4, 5, 6, 7, 8, 18], "maxpressure 1\nslack #/#\n"),
    "plan": ([5, 7, 8, 17], "plan 1\ncycle #\n"),
    "runguard": ([4, 7, 8, 15], "guard 1\ncycle #\n"),
    "audit": ([4, 5, 6, 13], "log ok #\n"),
    "auditwith": ([4, 5, 13], "log ok #\n"),
    "auditguard": ([4, 13, 15], "log ok #\n"),
    "control": ([7], "maxpressure control 1\n"),
    "controlguard": ([4, 7, 15], "guard 1\ncycle #\n"),
}
ENDS = {command: ({0, 3, *more}, re.compile(head.replace("#", "(0|[1-9][0-9]*)").encode())) for command, (more, head) in ENDS.items()}
WITH_OUTPUT, UNREAD = {0, 7, 8, 14}, {3, 4, 5, 6, 15, 16, 17, 18, 19}
STREAMED = {"run", "runwith", "frames", "plan", "runguard", "control", "controlguard"}
# Of each kind how often it is drawn, the files that its texts are made of, and the commands that read it, with what goes to
# the standard input behind <; `@` is the text, and `$` the ground, a network with all that belongs to it.
KINDS = {
    "network": (45, "toml", "show @; certify @; scale @ 12; scale @ 1000; scale @ 999999999; overload @; guard @ 1 0 1; guard @ 4 0 100; guard @ 60 1 1000; "
        "guard @ 3600 0 999999999; run @ < $.stream; run @ < $.events; plan @ 3 < $.stream; plan @ 60 < $.stream; frames @ 2 < $.stream; frames @ 60 < $.stream; "
        "control @ < $.counts; audit @ < $.log; check @ $.cert; refute @ $.vector; runwith @ $.cert < $.stream; auditwith @ $.cert < $.with; "
        "runguard @ $.guard < $.stream; controlguard @ $.guard < $.counts; auditguard @ $.guard < $.guarded"),
    "stream": (16, "stream events", "run $.toml < @; runwith $.toml $.cert < @; runguard $.toml $.guard < @; frames $.toml 3 < @; plan $.toml 40 < @"),
    "counts": (7, "counts", "control $.toml < @; controlguard $.toml $.guard < @"),
    "certificate": (10, "cert", "check $.toml @; runwith $.toml @ < $.stream; auditwith $.toml @ < $.with"),
    "vector": (3, "vector", "refute $.toml @"),
    "guard": (10, "guard", "runguard $.toml @ < $.stream; controlguard $.toml @ < $.counts; auditguard $.toml @ < $.guarded"),
    "log": (6, "log with", "audit $.toml < @; auditwith $.toml $.cert < @"),
    "guarded log": (3, "guarded", "auditguard $.toml $.guard < @"),
}
KINDS = {kind: (share, bases.split(), commands.split("; ")) for kind, (share, bases, commands) in KINDS.items()}
# The commands that write logs, and what makes the files of a ground, where the command before made none.
LOGS = {"log": "run $.toml < $.stream", "with": "runwith $.toml $.cert < $.stream", "guarded": "runguard $.toml $.guard < $.stream"}
MADE = [("log", LOGS["log"]), ("cert", "certify $.toml"), ("cert", "scale $.toml 1000"), ("with", LOGS["with"])]
MADE += [*(("guard", f"guard $.toml {asked}") for asked in ("4 0 100", "20 1 1000", "240 1 1000")), ("guarded", LOGS["guarded"])]
GREAT = [b"0", b"1", b"00", b"-1", b"1.5", b"1e3", b"1000", b"999999999", b"1000000000", b"9" * 40, *(b"%d" % 2**n for n in (62, 63, 64, 127))]
STRAY = [b"\0", b"\n", b"\r\n", b"\t", b",", b" ", b"#", b'"', b"\xff", b"\xe2\x82", b"=", b"[", b"]", b"-", b"hear 1 2\n", b"decide 1\n"]
HARD = [*STRAY, b"{", b"{a=", b"[[", b'"""\n', b"'", b"\\", b"\\u00e9", b"0", b"9", b"a.", b"a = 1\n", b"[[link]]\n", b"# x\n", b"1,", b"1 ", b'"a",', b"[],"]


def grounds():
    """The name, the network, a stream and one with events of each ground: examples, cases and drawn networks."""
    for file in sorted([*EXAMPLES.glob("*.toml"), *TOP.glob("crates/mp_cases/data/*.toml")]):
        stream = file.with_suffix(".stream")
        text = stream.read_bytes() if stream.exists() else b"1,1\n0,0\n"
        yield ("" if file.parent == EXAMPLES else "case-") + file.stem, file.read_bytes(), text, text
    for number in range(DRAWN):
        draw = random.Random(number)
        net = compare.draw_network(draw)
        late = Network(net.shares, net.per, net.links, net.movements, net.junctions, draw.choice([0, 0, 1, 5, 60]))
        events = compare.text_of(compare.line_text(*it) for it in compare.draw_events(draw, late))
        yield f"drawn-{number}", late.text().encode(), compare.csv(compare.draw_stream(draw, late)).encode(), events.encode()


def usable(command, ground):
    """Says whether the files of the ground that a command names are there."""
    return all(os.path.exists(word) for word in command.split() if word.startswith(f"{ground}."))


def fill(spawner):
    """Puts the grounds, and what the program makes of them, into the folder, and says which have a file of each kind."""
    there = collections.defaultdict(list)
    for name, net, stream, events in grounds():
        files = {"toml": net, "stream": stream, "events": events}
        for kind, data in files.items():
            spawner.write(f"{name}.{kind}", data)
        for kind, command in MADE:
            command = command.replace("$", name)
            if kind not in files and usable(command, name) and not (ran := spawner.ask(command)).status:
                files[kind] = ran.out
                spawner.write(f"{name}.{kind}", ran.out)
        periods = [row.split(b" q ")[1].replace(b" ", b",") for row in files.get("log", b"").split(b"\n") if row.startswith(b"p ")]
        against = spawner.ask(f"certify {name}.toml").err.partition(b"\n")[2]
        files["counts"] = b"\n".join([*periods, b""])
        files["vector"] = against or b"vector 1\np" + b" 1" * net.count(b"flow") + b"\n"
        for kind in files:
            spawner.write(f"{name}.{kind}", files[kind])
            there[kind].append(name)
    if lost := [kind for kind, _ in MADE for name in ("two-links", "corridor") if name not in there[kind]]:
        raise RuntimeError(f"the program makes no {lost[0]} of two-links or corridor")
    return there


def number(draw, text):
    """Another number in the place of one: a great or odd one, or one that is near."""
    a, b = draw.choice([it.span() for it in re.finditer(rb"\d+", text)] or [(0, 0)])
    near = str(max(0, int(text[a:b][:40] or b"0") + draw.choice((-2, -1, 1, 2)))).encode()
    return text[:a] + (near if draw.random() < 0.6 else draw.choice(GREAT)) + text[b:]


def cut(draw, text):
    a, b = sorted(draw.randint(0, len(text)) for _ in range(2))
    return draw.choice((text[:a], text[b:], text[:a] + text[b:]))


def stray(draw, text):
    """Another byte in the place of one, or something between two."""
    at, flips = draw.randint(0, len(text)), draw.random() < 0.5
    return text[:at] + (bytes([draw.randrange(256)]) if flips else draw.choice(STRAY)) + text[at + flips :]


def lines(draw, text):
    """A line left out, doubled or put elsewhere."""
    rows = text.split(b"\n")
    row = rows.pop(draw.randrange(len(rows)))
    for _ in range(draw.randrange(3)):
        rows.insert(draw.randint(0, len(rows)), row)
    return b"\n".join(rows)


def shuffled(draw, text):
    """The lines, or the words of a line, in another order."""
    rows = text.split(b"\n")
    at, gap = draw.randrange(len(rows)), draw.choice((b" ", b","))
    words = rows[at].split(gap)
    draw.shuffle(words)
    rows[at] = gap.join(words)
    if draw.random() < 0.5:
        draw.shuffle(rows)
    return b"\n".join(rows)


def noise(draw, text):
    a, b = sorted(draw.randint(0, len(text)) for _ in range(2))
    return text[:a] + draw.randbytes(draw.randrange(200)) + text[b:]


def stretched(draw, text):
    """How the text is made as long as wanted: one of its lines or a piece that may be hard, over and over at some place."""
    rows = text.split(b"\n")
    piece = draw.choice((text, draw.choice(rows) + b"\n", draw.choice(rows) + b"\n", draw.choice(rows), draw.choice(HARD), draw.choice(HARD), draw.randbytes(50))) or b"x"
    at = len(b"\n".join(rows[: draw.randint(1, len(rows))])) + 1 if draw.random() < 0.7 else draw.randint(0, len(text))

    def made(length):
        return (text[:at] + piece * ((length - len(text)) // len(piece)) + text[at:]).ljust(length, b"\n")

    return made


MUTATIONS = [number] * 5 + [stray, stray, cut, lines, shuffled, noise]
MUTATIONS.append(lambda draw, text: stretched(draw, text)(len(text) + draw.choice((20, 200, 2000, 20000))))


def harmless(draw, spawner, ground, base):
    """How a text is made about as long as wanted and stays right: by comments, or by periods in which nobody comes."""
    text, still = read(f"{ground}.{base}"), re.sub(rb"\d+", b"0", read(f"{ground}.stream").splitlines()[-1]) + b"\n"
    if base in LOGS:
        return lambda length: spawner.ask(LOGS[base].replace("$", ground), still * (length // 40)).out
    piece = draw.choice((b"# x\n", b"\n", b"#" * 1000 + b"\n", *{"stream": [still] * 3, "counts": text.splitlines(True)[:1] * 3}.get(base, [])))
    return lambda length: text + piece * ((length - len(text)) // len(piece))


def drawn(seed, n, spawner, there, long):
    """The text of this number: its kind, the command that it is handed to, and where it is long one of a quarter too."""
    draw = random.Random(f"{seed} {n}")
    kind = draw.choices(list(KINDS), [it[0] for it in KINDS.values()])[0]
    _, bases, commands = KINDS[kind]
    base = draw.choice(bases)
    ground = draw.choice(there[base])
    command = draw.choice([it for it in (own.replace("$", ground) for own in commands) if usable(it, ground)])
    text = read(f"{ground}.{base}")
    for _ in range(draw.choice((0, 1, 1, 1, 2, 3, 8))):
        text = draw.choice(MUTATIONS)(draw, text)
    if not long and draw.randrange(1000):
        return kind, command, text, None
    length = draw.choice((LONGEST, LONGEST, LONGEST + 1, LONGEST // 3))
    made = harmless(draw, spawner, ground, base) if draw.random() < 0.4 else stretched(draw, text)
    return kind, command, made(length), made(length // 4)


def hand(spawner, command, text):
    spawner.write("@", text)
    return spawner.ask(command)


def wrong_with(spawner, command, text, quarter, ran):
    """What is wrong with an answer, or nothing."""
    name, said = command.split()[0], f"status {ran.status} with the line {ran.err[:100]}"
    statuses, head = ENDS[name]
    if ran.status not in statuses or not LINES[ran.status].fullmatch(ran.err.decode("latin-1")):
        return said
    if ran.out and ran.status not in WITH_OUTPUT or ran.read and ran.status in UNREAD:
        return f"{said}, {len(ran.out)} bytes written and {ran.read} read"
    ends = name not in STREAMED or (b"\nend " in ran.out[-200:]) == (ran.status == 0)
    if ran.status in WITH_OUTPUT and not (ends and head.match(ran.out) and ran.out.endswith(b"\n")):
        return f"{said} and the output {ran.out[:50]} .. {ran.out[-50:]}"
    if quarter is not None and ran.seconds > 8 * SECONDS:
        # The least of three, since others use the machine.
        whole, part = (min(hand(spawner, command, it).seconds for _ in range(3)) for it in (text, quarter))
        if whole > 8 * max(part, SECONDS):
            return f"{whole:.3f} s, and {part:.3f} s for a quarter of the length"
    return None


def work(job):
    """Texts of a range of numbers: the statuses of each kind, the slowest text, and what is wrong."""
    program, seed, first, last, plain = job
    statuses, slowest, faults = collections.Counter(), {}, []
    with Spawner(program) as spawner:
        there = fill(spawner)
        for n in range(first, last):
            kind, command, text, quarter = drawn(seed, n, spawner, there, n >= plain)
            ran = hand(spawner, command, text)
            statuses[kind, ran.status] += 1
            slowest[kind] = max(slowest.get(kind, (0,)), (ran.seconds, len(text), command, n))
            if fault := wrong_with(spawner, command, text, quarter, ran):
                faults.append(f"text {n}, {command}: {fault}")
    return statuses, slowest, faults


def show(options):
    """The text of one number, and what is answered."""
    with Spawner(options.program) as spawner:
        kind, command, text, quarter = drawn(options.seed, options.one, spawner, fill(spawner), options.one >= options.count)
        ran = hand(spawner, command, text)
        fault = wrong_with(spawner, command, text, quarter, ran)
    print(f"{kind}, {len(text)} bytes, {command}: {fault or 'right'}; {ran}"[:3000], file=sys.stderr)
    sys.stdout.buffer.write(text)
    return fault is not None


def main():
    parser = argparse.ArgumentParser()
    parser.add_argument("program")
    for name, standard in (("seed", 1), ("count", 1_000_000), ("long", 0), ("workers", 1), ("one", None)):
        parser.add_argument(f"--{name}", type=int, default=standard)
    options = parser.parse_args()
    if options.one is not None:
        return show(options)
    whole, step = options.count + options.long, 5000
    jobs = [(options.program, options.seed, n, min(n + step, whole), options.count) for n in range(0, whole, step)]
    statuses, slowest, faults = collections.Counter(), {}, []
    with multiprocessing.Pool(options.workers) as pool:
        for seen, slow, wrong in pool.imap_unordered(work, jobs):
            statuses, faults = statuses + seen, faults + wrong
            for kind, one in slow.items():
                slowest[kind] = max(slowest.get(kind, (0,)), one)
    for kind, (seconds, size, command, n) in slowest.items():
        own = {status: many for (of, status), many in sorted(statuses.items()) if of == kind}
        print(f"hostile: {kind}: {sum(own.values())} texts, statuses", *(f"{status}: {many}" for status, many in own.items()))
        print(f"hostile: {kind}: the slowest {seconds * 1000:.0f} ms, {size} bytes, {command}, text {n}")
    print(*faults[:20], sep="\n", end="\n" if faults else "")
    print(f"hostile: {whole} texts, {len(faults)} wrong")
    return len(faults) > 0


if __name__ == "__main__":
    sys.exit(main())
