"""What a line on the program's error output means for a network file, and what to change."""
import os, re
from common import Fault, near
from network import BURST, JUNCTIONS, LINKS, MOVEMENTS, OWN, RATE, STAGES, START, Net, table

KEYS = {"top": {"version": (int, 1, 2), "shares": (int, 1, 1000), "per": (int, 1, 3600), "link": (list, 1, LINKS),
                "movement": (list, 1, MOVEMENTS), "junction": (list, 1, JUNCTIONS)},
        "link": {"name": (str, 0, 0), "burst": (int, 0, BURST), "rate": (int, 0, RATE)},
        "movement": {"name": (str, 0, 0), "from": (str, 0, 0), "to": (str, 0, 0), "share": (int, 1, 1), "flow": (int, 1, 1000),
                     "start": (int, 0, START)},
        "junction": {"name": (str, 0, 0), "stages": (list, 1, STAGES)}}
NAME = re.compile(r"[A-Za-z0-9_.-]{1,32}")

class Spot:
    """A place in a network file: the file's tables, the section, and the table there with its number."""
    def __init__(self, path, section, number):
        self.path, self.file, self.section, self.number = path, table(path), section, number
        self.here = self.file if section == "top" else self.file[section][number - 1]
        self.words = "the file" if section == "top" else f"{section} {self.here.get('name', number)!s}"
    def out_of(self, link):
        return [m for m in self.file["movement"] if m["from"] == link]
    def names(self, section):
        return [x["name"] for x in self.file[section]]

def wrong_value(s):
    """The first of: a key that isn't listed, an absent one, another type, a number or a count out of its range."""
    keys = {key: x for key, x in KEYS[s.section].items() if key != "start" or s.file.get("version") == 2}
    for key in s.here:
        if key not in keys:
            return f"{s.words} has the key {key!r}, which is none of {', '.join(keys)}: take it out"
    for key, (kind, least, most) in keys.items():
        value = s.here.get(key, 0 if key in ("burst", "rate", "start") else None)
        if value is None or not isinstance(value, kind) or isinstance(value, bool):
            return f"{s.words} has no {key}: add it" if value is None else f"{s.words}: {key} is {value!r}, where {kind.__name__} is wanted"
        most *= {"rate": s.file.get("per"), "share": s.file.get("shares")}.get(key, 1)
        if kind is not str and not least <= (len(value) if kind is list else value) <= most:
            return f"{s.words}: {key} is {len(value) if kind is list else value}, where {least} to {most} fit"
    return f"{s.words}: a stage is no list of movement names" if s.section == "junction" else None

def no_name(s):
    bad = [(key, s.here[key]) for key in ("name", "from", "to") if key in s.here and not NAME.fullmatch(s.here[key])]
    bad += [(key, "out") for key in ("name", "from") if s.here.get(key) == "out" and (s.section, key) != ("movement", "name")]
    bad += [("a stage", k) for stage in s.here.get("stages", []) for k in stage if not NAME.fullmatch(k)]
    return f"{s.section} {s.number}: {bad[0][0]} is {bad[0][1]!r}; a name has 1 to 32 letters, digits, `_`, `-` or `.`, and no link is named `out`"

def same_name(s):
    if s.here["name"] in s.names(s.section)[:s.number - 1]:
        first = s.names(s.section).index(s.here["name"]) + 1
        return f"{s.section} {s.number} has the name {s.here['name']}, as {s.section} {first} has: rename one"
    twice = [k for stage in s.here.get("stages", []) for k in stage if stage.count(k) > 1]
    return f"{s.words}: a stage lists {twice[0]} twice: take one out"

def no_link(s):
    key = "from" if s.here["from"] not in s.names("link") else "to"
    if s.here[key] in [*s.names("link"), "out"]:
        return None
    return f"{s.words} goes {key} {s.here[key]!r}, which is no link: take {near(s.here[key], s.names('link'))}"

def wrong_sum(s):
    out, total = s.out_of(s.here["name"]), s.file["shares"]
    if sum(m["share"] for m in out) == total:
        return None
    return f"shares out of {s.words} sum to {sum(m['share'] for m in out)}, not {total}: movements " + \
        ", ".join(f"{m['name']} {m['share']}" for m in out)

def wrong_junction(s):
    link = {m["name"]: m["from"] for m in s.file["movement"]}
    earlier = {link[k]: j["name"] for j in s.file["junction"][:s.number - 1] for stage in j["stages"] for k in stage if k in link}
    own = sorted({k for stage in s.here["stages"] for k in stage})
    for k in own:
        if k not in link:
            return f"{s.words} names the movement {k!r}, which is not there: take {near(k, link)}"
        if link[k] in earlier:
            return f"{s.words} has the movement {k}, whose link {link[k]} belongs to junction {earlier[link[k]]}: all movements " \
                   "of a link stand at one junction"
    return f"{s.words} has {len(own)} movements, where {OWN} fit" if len(own) > OWN else None

def no_way_out(s):
    seen, todo = set(), [s.here["name"]]
    while todo:
        link = todo.pop()
        todo += [m["to"] for m in s.out_of(link) if m["to"] not in seen] if link not in seen else []
        seen.add(link)
    return None if "out" in seen else f"from {s.words} no way leads out: give one of {', '.join(sorted(seen))} a movement to `out`"

RULES = [
    lambda s: f"the file has {os.path.getsize(s.path)} bytes, where 1048576 fit",
    lambda s: "the file isn't TOML for the program: is some byte no UTF-8, or a number too great?",
    wrong_value, wrong_value, wrong_value, wrong_value, no_name, same_name, no_link, wrong_sum, wrong_junction,
    lambda s: f"{s.words}, out of link {s.here['from']}, stands in no stage and would never be green: add it to one",
    lambda s: f"{s.words} has no movement, so what enters it never leaves: add one with from = \"{s.here['name']}\"",
    lambda s: "no link has a burst or a rate above 0, so nothing would come: `mp demand` declares them from counts",
    no_way_out]

# In braces: {link}, {junction} a number of one; {n} a number; {w} words; {place} the place that {w} names.
OTHERS = {
    "words": "the program has no such command, or not with so many words (docs/formats.md lists them)",
    "store {w}": "the file {w} couldn't be read: is it there?",
    "{w} text long": "the {w}'s file has more than 1048576 bytes",
    "{w} text line {n}": "line {n} of the {w}'s file isn't what its grammar has there (docs/formats.md)",
    "network critical": "the demand is carried with nothing to spare, so no bound holds: `mp explain NET` says where",
    "network overloaded": "nothing carries the demand: `mp explain NET` says where, and how much of it is carried",
    "network admitted": "the demand is carried, so `overload` has nothing to show: `mp explain NET` says how much is to spare",
    "uneven link {link}": "link {link} has no burst and a rate of {rate}, which is no multiple of {per}: give it a burst of 1",
    "plan cycle link {link}": "from link {link} movements lead back to it, where a plan has no bounds: take `run` or `frames`",
    "plan full {junction}": "the greens of junction {junction} don't fit: take a longer cycle (`mp explain NET` says if any is long enough)",
    "frames per": "a rate length of {per} periods is too long for frames of so many: divide it and the rates by a common divisor",
    "frames rate {link}": "the rate of link {link} is above what a frame can carry: look for a wrong `per`, which is {per}",
    "certificate fails {w}": "the certificate doesn't hold for this network, by its rule `{w}` ({place}): make it again",
    "guard fails {w}": "the guard doesn't hold for this network, by its rule `{w}` ({place}): `mp guard` makes one",
    "guard none": "no rates at this denominator carry the demand: overloaded (`mp explain NET`), or take a greater denominator",
    "guard full {junction}": "the greens of junction {junction} don't fit: take a longer cycle, or a greater denominator",
    "vector fails zero": "all numbers of the vector are 0, so it shows nothing",
    "vector fails weak": "the stages serve more than the load of this vector, so it shows nothing",
    "scale none": "no certificate over this denominator holds: take a greater one, or ask `mp explain NET`",
    "overflow bound": "a bound exceeds 128 bits: smaller bursts or shares give smaller bounds",
    "overflow room": "a bound is above 2^62: smaller bursts or shares give smaller bounds",
    "overflow growth": "nothing carries the demand; how fast the queues grow exceeds 128 bits: round the flows",
    "overflow plan": "the greens or bounds of the plan exceed 128 bits: round the shares, or the rates and the rate length",
    "overflow {w}": "the exact numbers of `{w}` ({place}) exceed 128 bits, and nothing is said of the demand: `mp explain NET` goes on",
    "pivots {junction}": "the linear program of junction {junction} came to its limit of turns, and nothing is said of the demand",
    "sweeps {w}": "a search doesn't come to rest ({w}): take a smaller denominator",
    "line {n} long": "line {n} of the input has too many bytes",
    "line {n} grammar": "line {n} isn't in the grammar; a stream has {fed} counts here, with commas, one for each of {links}",
    "line {n} above period {w} link {link}": "in period {w} (line {n}) more come to link {link} than its burst of {burst} and its rate of "
    "{rate} per {per} periods allow: declare more (`mp demand` finds the least burst), or hold some back",
    "line {n} event stale {junction} link {link}": "in line {n} junction {junction} is to decide, and has no report of link {link} that is "
    "young enough: let it hear that link first",
    "line {n} event notadjacent {junction} link {link}": "in line {n} junction {junction} is to hear of link {link}, to which none of its "
    "movements leads",
    "lines": "the input has more than 2^48 lines",
    "read": "the input broke off by a fault of the system",
    "write": "the output couldn't be written (a full disk, a closed pipe); what is there is a part",
    "memory": "there was not enough memory, and nothing was written",
    "log differs line {n}": "line {n} isn't what the program would have written behind those before: a log of another network, cut or changed"}
GROUPS = {"w": r"(?P<w>.+)", "junction": r"(?:junction )?(?P<junction>\d+)", **{key: rf"(?P<{key}>\d+)" for key in ("n", "link")}}

def numbered(things, number):
    if not 1 <= int(number) <= len(things):
        raise Fault(f"the network has no number {number} there: is the line about another file?")
    return things[int(number) - 1]

def place_of(net, words):
    """Where a rule or a calculation is, as `serve 3`, in names."""
    rule, *numbers = words.split()
    kind = "movement" if rule in ("h", "serve", "balance") else "junction"
    if not numbers:
        return "as a whole"
    name = numbered(net.moves if kind == "movement" else net.junctions, numbers[0]).name
    return f"{kind} {name}" + (f", stage {numbers[1]}" if len(numbers) > 1 else "")

def other(line, path):
    for pattern, words in OTHERS.items():
        got = re.fullmatch(re.sub(r"\{(\w+)\}", lambda name: GROUPS[name[1]], pattern), line)
        if got:
            values, net = got.groupdict(), Net.read(path) if re.search(r"\{(place|link|junction|fed|per)\}", words) else None
            if net:
                link = numbered(net.links, values.get("link", 1))
                values.update(link=link.name, burst=link.burst, rate=link.rate, per=net.per, fed=len(net.fed),
                              links=", ".join(net.links[i].name for i in net.fed), place=place_of(net, values.get("w", "none")),
                              junction=numbered(net.junctions, values.get("junction", 1)).name)
            return words.format(**values)
    raise Fault(f"{line!r} is no line of the program")

def meaning(line, path):
    """The line in words, for this network file."""
    got = re.fullmatch(r"network N(\d|1[0-4]) (top|link|movement|junction)(?: (\d+))?", line.strip())
    if not got:
        return other(line.strip(), path)
    try:
        words = RULES[int(got[1])](Spot(path, got[2], int(got[3] or 0)))
    except Fault as fault:
        words = str(fault) if got[1] in "01" else None
    except (KeyError, IndexError, TypeError, AttributeError):
        words = None
    if not words:
        raise Fault(f"{path} doesn't break rule N{got[1]} there: is the line about another file?")
    return words
