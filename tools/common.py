"""What all tools share: faults, progress, files, tables on the screen, and the options that more than one has."""
import contextlib, json, os, sys, tempfile, time

class Fault(Exception):
    """Bad input: one line for the user, and the status."""
    def __init__(self, words, status=3):
        super().__init__(words)
        self.status = status

def progress(what, items, words=str):
    """The items, with a line on a terminal once they take longer than a second."""
    due, clear = time.monotonic() + 1, ""
    try:
        for item in items:
            if time.monotonic() >= due and sys.stderr.isatty():
                due, clear = time.monotonic() + 0.5, "\r\033[K"
                print(f"{clear}{what}: {words(item)}", end="", file=sys.stderr, flush=True)
            yield item
    finally:
        print(clear, end="", file=sys.stderr, flush=True)

def time_words(periods, seconds):
    if not seconds:
        return f"{periods} period" + "s" * (periods != 1)
    return f"{periods * seconds:g} s" if periods * seconds < 300 else f"{periods * seconds / 60:.1f} min"

def put(path, text):
    with open(path, "w") as file:
        file.write(text)

@contextlib.contextmanager
def written(text):
    """The path of a file with this text, for as long as the block lasts."""
    with tempfile.TemporaryDirectory() as folder:
        put(os.path.join(folder, "file"), text)
        yield os.path.join(folder, "file")

def listed(names):
    """The names in a text with commas."""
    return [x for x in (names or "").split(",") if x]

def must_exist(*paths):
    for path in paths:
        if not os.path.exists(path):
            raise Fault(f"{path}: not there", 2)

def near(name, names):
    """A few names like this one, for a message."""
    like = sorted(names, key=lambda n: (-len(os.path.commonprefix([n.lower(), name.lower()])), n))[:3]
    return ", ".join(like) + (", .." if len(names) > 3 else "")

def aligned(rows):
    """Lines of a table whose first column (and remarks) are words and whose other columns are numbers."""
    rows = [[str(x) for x in row] for row in rows]
    widths = [max(map(len, column)) for column in zip(*rows)]
    left = [i == 0 or title == "remark" for i, title in enumerate(rows[0])]
    return ["  ".join(x.ljust(w) if l else x.rjust(w) for x, w, l in zip(row, widths, left)).rstrip() for row in rows]

OPTIONS = {"net": ("net", {"metavar": "NET", "help": "network file"}), "map": ("--map", {"help": "the map of `import` (default: beside NET)"}),
           "period": ("--period", {"type": float, "metavar": "S", "help": "seconds in a period (default: the map's)"}),
           "guard": ("--guard", {"help": "a guard's file (default: NET with .guard, where it is there)"}),
           "program": ("--program", {"help": "the program (default: $MAXPRESSURE, else the built one)"})}

def options(parser, *names):
    """Options that several commands have."""
    for name in names:
        parser.add_argument(OPTIONS[name][0], **OPTIONS[name][1])

def read_map(a, net):
    """The map of the network, or None where there is none and none was asked for."""
    path = a.map or a.net.removesuffix(".toml") + ".map.json"
    if not a.map and not os.path.exists(path):
        return None
    try:
        with open(path) as file:
            names = json.load(file)
        if [m["name"] for m in names["movements"]] != [m.name for m in net.moves]:
            raise Fault(f"{path}: the map of another network; import again, or name the map with --map")
        return {key: names[key] for key in ("net", "routes", "additional", "scale", "period", "notes", "links", "movements", "junctions")}
    except (ValueError, KeyError, TypeError):
        raise Fault(f"{path}: not a map that `import` wrote") from None

def seconds_in_period(a, names, needed=False):
    """From --period, else from the map, else None."""
    if a.period is None and names is None and needed or a.period is not None and a.period <= 0:
        raise Fault("--period is needed: seconds in a period, above 0 (there is no map beside the network)")
    return a.period or (names["period"] if names else None)
