#!/usr/bin/env python3
"""Counts the definitions that stand under the clauses of `top`, for docs/theorem.md.

    python3 docs/count-definitions.py                      how many under each clause, and for each command
    python3 docs/count-definitions.py CLAUSE..             the definitions under these clauses, file by file
    python3 docs/count-definitions.py CLAUSE.. --command Run      those that matter for one command
    python3 docs/count-definitions.py --write              puts the counts into docs/theorem.md

A definition is an abbreviation, a function, a record or a data type below crates/*/specs, and a type of the
code that a definition names. Those of the standard library are not counted. One stands under a clause where
the clause cites it, or a definition under the clause does.
"""
import re
import sys
import textwrap
from pathlib import Path

PAGE = Path(__file__).resolve().parent / "theorem.md"
CRATES = PAGE.parent.parent / "crates"
TOP = CRATES / "mp_cli/src/program.rt"
COMMANDS = CRATES / "mp_cli/src/command.rt"
# What is read in each step of the page: modules, or one definition of a module.
STEPS = [
    "mp_cli.specs.Headline mp_cli.specs.Opening mp_cli.specs.Ports mp_cli.specs.Sessions mp_model.specs.declared.limits",
    "mp_cli.specs.Commands",
    "mp_edge.specs.Outside",
    "mp_netfile mp_net mp_tree mp_model.specs.Names",
    "mp_model.specs.Network",
    "mp_model.specs.Slack mp_model.specs.Certificate mp_model.specs.Load mp_model.specs.Sums",
    "mp_model.specs.Bounds",
    "mp_model.specs.Arrivals",
    "mp_model.specs.Run mp_model.specs.Split mp_model.specs.Pressure mp_model.specs.Step mp_model.specs.Reports",
    "mp_run.specs.Running.StaysWithin mp_event_run.specs.Running.StaysWithin",
    "mp_stream.specs.Course mp_model.specs.Stream mp_text.specs.Cutting",
    "mp_model.specs.EventCore mp_model.specs.EventPeriods mp_model.specs.StreamEnd mp_model.specs.StreamPeriods",
    "mp_stream mp_cli.specs.Running mp_event_run mp_model.specs.Log mp_model.specs.ReportedLog mp_laws",
]

USE = re.compile(r"^(?:ghost )?use Rattle\.(?!std\.)([\w.]+?)(?:\.\{(.*)\}| as (\w+))?;?$")
START = re.compile(r"^(?:abbrev pub|unfoldable pub|abbrev|unfoldable|pub record|pub data|record|data|pub)? ?([^\s:({]+)")
SIGNATURE = re.compile(r"^(?:abbrev|unfoldable|pub|record|data)\b|^\S+ :")
WORD = re.compile(r"[A-Za-z_][\w'.]*")


def scope(lines):
    """What the `use` lines bring in: names as (module, name there), and modules by their short names."""
    names, modules = {}, {}
    for found in filter(None, map(USE.match, lines)):
        module, items, alias = found.groups()
        if items is None:
            modules[alias or module.split(".")[-1]] = module
        for item in items.split(",") if items else []:
            there, _, here = (part.strip() for part in item.partition(" as "))
            names[here or there] = (module, there)
    return names, modules


def pieces(lines):
    """The definitions of a file: name -> its signature and clauses, each with the lines indented below it."""
    found, name = {}, None
    for line in lines:
        line = re.sub(r'"[^"]*"', "", line)
        if not line.strip() or line.startswith(("--", "use ", "pub mod ", "mod ")):
            continue
        if line[0].isspace():
            found[name][-1] += "\n" + line
        else:
            if SIGNATURE.match(line):
                name = START.match(line)[1]
                found[name] = []
            found[name].append(line)
    return found


class Definitions:
    """Every definition of the repository: (module, name) -> (its pieces, the names and modules in scope)."""

    def __init__(self):
        self.every, self.variants = {}, {}
        for path in sorted(CRATES.glob("*/specs/**/*.antt")):
            lines = path.read_text().splitlines()
            module = ".".join(path.relative_to(CRATES).with_suffix("").parts)
            names, modules = scope(lines)
            for name, parts in pieces(lines).items():
                names[name] = (module, name)
                self.every[(module, name)] = (parts, names, modules)
                for variant in re.findall(r"^  (\w+) :", parts[0], re.M) if "data " in parts[0].split(name)[0] else []:
                    names[variant] = (module, variant)
                    self.variants[(module, variant)] = (module, name)

    def owner(self, module, name):
        """The definition behind a name: itself, the data type of a variant, or a type of the code."""
        if (module, name) in self.every:
            return (module, name)
        if (module, name) in self.variants:
            return self.variants[(module, name)]
        parts = module.split(".")
        if "declared" in parts:
            types = [part for part in parts if part != "TheVariants"]
            return (".".join(types[:-1]), types[-1])
        above = (".".join(parts[:-1]), parts[-1])
        return above if above in self.every else None

    def is_command(self, place):
        """A name stands for a variant of the type of commands."""
        owner = self.owner(*place)
        return owner is not None and owner[1] == "Command" and place[1] != "Command"

    def cited(self, text, names, modules):
        """The definitions that a text cites. A name that it binds hides one that was brought in."""
        bound = set(re.findall(r"^\s+pub (\w+) :", text, re.M)) | set(re.findall(r"\blet (\w+)", text))
        for group in re.findall(r"[({]([\w' ]+) : ", text) + re.findall(r"λ ([\w' ]+)\.", text):
            bound.update(group.split())
        words = WORD.findall(text)
        if not text[0].isspace() and not SIGNATURE.match(text):
            head = WORD.findall(text.partition(" =")[0])
            bound.update(word for word in head if word not in names or self.owner(*names[word]) == names[word])
            words = words[1:]
        for word in words:
            first, _, rest = word.partition(".")
            if first in modules and rest:
                found = self.owner(modules[first], rest.split(".")[0])
            elif first in names and first not in bound:
                found = self.owner(*names[first])
            else:
                continue
            if found:
                yield found

    def for_command(self, item, command):
        """The pieces that matter for one command: of clauses that split by commands, its own or the others' rest."""
        parts, names, _ = self.every.get(item, ([], {}, {}))

        def commands(part):
            head = WORD.findall(part.partition(" =")[0])[1:]
            return {names[word][1] for word in head if word in names and self.is_command(names[word])}

        clauses = [part for part in parts if not SIGNATURE.match(part)]
        if not command or not any(map(commands, clauses)):
            return parts
        own = [part for part in clauses if command in commands(part)] or [part for part in clauses if not commands(part)]
        return [part for part in parts if SIGNATURE.match(part)] + own

    def under(self, text, names, modules, command=None):
        seen, waiting = set(), list(self.cited(" " + text, names, modules))
        while waiting:
            item = waiting.pop()
            if item not in seen:
                seen.add(item)
                for part in self.for_command(item, command):
                    waiting += self.cited(part, *self.every[item][1:])
        return seen


def clauses_of_top():
    """The clauses of `top`, and what the `use` lines above it bring in."""
    lines = TOP.read_text().splitlines()
    text = "\n".join(lines)
    text = text[text.index("pub fn top") :]
    text = text[: text.index("\n{\n")] + "\n"
    return dict(re.findall(r"ensures (\w+) \{(.*?)\}\n(?=\s*(?:ensures|//|$))", text, re.S)), scope(lines)


def commands():
    """The variants of the type of commands, in its order."""
    text = COMMANDS.read_text()
    text = text[text.index("pub enum Command") :]
    return [it for it in re.findall(r"^    (\w+)[ ,({]", text[: text.index("\n}")], re.M) if it != "Unknown"]


def steps(items):
    """How many of the definitions are read in each step. Each is in one step alone, that which names it most closely."""
    counts = [0] * len(STEPS)
    for module, name in items:
        path = f"{module}.{name}."
        near = [(len(it), step) for step, names in enumerate(STEPS) for it in names.split() if path.startswith(it + ".")]
        if not near:
            sys.exit(f"{module}.{name} is read in no step of docs/theorem.md")
        counts[max(near)[1]] += 1
    return counts


def page(count):
    """docs/theorem.md with its counts. `count(clauses, command)` gives the definitions under some clauses."""
    text = PAGE.read_text()
    path = count(["done", "promised"], "Run")
    text = re.sub(r"(The clauses are `done` and `promised`, at the command `run`: )\d+", rf"\g<1>{len(path)}", text)
    for step, number in enumerate(steps(path), 1):
        text = re.sub(rf"^(\| {step} \| .* \| )\d+( \|)$", rf"\g<1>{number}\2", text, flags=re.M)
    every = commands()
    done = sorted((len(count(["done"], it)), it.lower()) for it in every)
    told = f"For all {len(every)} commands `done` stands on {len(count(['done']))} definitions, and with `promised` on {len(count(['done', 'promised']))}. "
    told += "One command needs fewer: under `done` " + ", ".join(f"`{name}` {number}" for number, name in done) + ". "
    told += f"`ends` says what every status means, and stands on {len(count(['ends']))} (`run` {len(count(['ends'], 'Run'))}); "
    told += "it begins at `Means` in `mp_cli/specs/Ends`, and each command has a file of its own beside it. "
    told += "`python3 docs/count-definitions.py` counts them, and lists them by file; with `--write` it puts the counts here."
    told = "\n".join(textwrap.wrap(told, 118, break_on_hyphens=False))
    return re.sub(r"^For all \w+ commands `done`.*?\n(?=\n)", lambda _: told + "\n", text, flags=re.M | re.S)


def main(arguments):
    command = None
    if "--command" in arguments:
        at = arguments.index("--command")
        command = arguments[at + 1]
        arguments = arguments[:at]
    definitions = Definitions()
    clauses, (names, modules) = clauses_of_top()

    def count(wanted, command=None):
        return set().union(*(definitions.under(clauses[name], names, modules, command) for name in wanted))

    if arguments == ["--write"]:
        PAGE.write_text(page(count))
        return
    if arguments:
        items = count(arguments, command)
        for module in sorted({item[0] for item in items}):
            print(f"{module}: " + ", ".join(sorted(name for there, name in items if there == module)))
        print(len(items))
        return
    for name in clauses:
        items = count([name])
        crates = sorted({item[0].split(".")[0] for item in items})
        counts = [f"{crate} {sum(item[0].startswith(crate + '.') for item in items)}" for crate in crates]
        print(f"{name} {len(items)}: " + ", ".join(counts))
    for variant in commands():
        counts = {name: len(count([name], variant)) for name in clauses}
        print(f"{variant}: " + ", ".join(f"{name} {number}" for name, number in counts.items() if number > 20))


main(sys.argv[1:])
