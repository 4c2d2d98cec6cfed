#!/usr/bin/env python3
"""Compares each output that stands in a document with what the program prints.

usage: documents.py PROGRAM [DOCUMENT ..]

In a fence ```console each line `$ COMMAND` is typed as it stands, in a copy of the repository that has the program as
./maxpressure; the lines up to the next command are its output, standard output and error output together. A line `...`
stands for one or more lines. The commands of one document share one copy, and follow each other. A command of tools/ is
left out where /usr/bin/python3 is older than 3.11.
"""
import difflib
import re
import shutil
import subprocess
import sys
import tempfile
from pathlib import Path

TOP = Path(__file__).resolve().parent.parent
SECONDS = 120


def text_of(file):
    return file.read_text(encoding="utf-8")


def commands_of(text):
    """Yields the line number, the command and the expected lines of each command in the console fences of a document."""
    fence, found = None, None
    for number, line in enumerate(text.splitlines(), 1):
        if line.startswith("```"):
            if found:
                yield found
            fence, found = (line[3:].strip() if fence is None else None), None
        elif fence == "console" and line.startswith("$ "):
            if found:
                yield found
            found = (number, line[2:], [])
        elif found:
            found[2].append(line)
        elif fence is not None and line.startswith("$ "):
            raise ValueError(f"line {number}: a command stands in a fence that is not ```console, so nothing tries it")


def agrees(wanted, printed):
    """Says whether the lines are as wanted, where a wanted line `...` stands for one or more lines."""
    if "..." not in wanted:
        return wanted == printed
    at = wanted.index("...")
    if wanted[:at] != printed[:at]:
        return False
    rest = wanted[at + 1 :]
    return any(agrees(rest, printed[start:]) for start in range(at + 1, len(printed) + 1))


def run(command, folder):
    """Types a command in the folder and returns the lines that it prints."""
    both = {"stdout": subprocess.PIPE, "stderr": subprocess.STDOUT}
    ran = subprocess.run(["bash", "-c", command], cwd=folder, stdin=subprocess.DEVNULL, timeout=SECONDS, **both)
    return ran.stdout.decode(errors="replace").splitlines()


def tools_run():
    """Says whether the commands of tools/ run here: they read TOML, as Python 3.11 does."""
    return subprocess.run(["bash", "-c", "/usr/bin/python3 -c 'import tomllib' 2> /dev/null"]).returncode == 0


def copy_to(folder, program):
    """Makes a copy of the repository, with the program as ./maxpressure and a link in the place of the many files of crates/."""
    shutil.copytree(TOP, folder, ignore=lambda at, names: {".git", "out"} | ({"crates", "maxpressure"} if Path(at) == TOP else set()))
    (folder / "crates").symlink_to(TOP / "crates")
    shutil.copyfile(program, folder / "maxpressure")
    (folder / "maxpressure").chmod(0o755)


def check(document, program):
    """Returns the commands of a document and how many of them print something else."""
    try:
        commands, typed, wrong = list(commands_of(text_of(document))), [], 0
    except ValueError as error:
        print(f"{document.relative_to(TOP)}, {error}")
        return [], 1
    if any(command.startswith("tools/") for _, command, _ in commands) and not tools_run():
        print(f"{document.relative_to(TOP)}: the commands of tools/ are left out, since /usr/bin/python3 is older than 3.11")
        commands = [it for it in commands if not it[1].startswith("tools/")]
    with tempfile.TemporaryDirectory(prefix="documents-") as room:
        folder = Path(room) / "copy"
        if commands:
            copy_to(folder, program)
        for number, command, wanted in commands:
            printed = run(command, folder)
            typed.append(command)
            if not agrees(wanted, printed):
                wrong += 1
                print(f"{document.relative_to(TOP)}, line {number}: `{command}` prints something else")
                print("\n".join(difflib.unified_diff(wanted, printed, "the document", "the program", lineterm="")))
    return typed, wrong


def lines_without_entry():
    """Returns the lines of the error output in docs/formats.md that have no entry in docs/answers.md; numbers are alike."""
    rows = [row for row in text_of(TOP / "docs/formats.md").splitlines() if re.match(r"\| \d+ \|", row)]
    entries = re.sub(r"\d+", "1", text_of(TOP / "docs/answers.md"))
    lines = [line for row in rows for line in re.findall(r"`([^`]+)`", row.split("|")[3])]
    return [line for line in lines if "`" + re.sub(r"\d+", "1", line) + "`" not in entries]


def dead_links():
    """Returns the links of all pages to files that are not there."""
    pages = sorted(it for place in ("*.md", "docs/*.md", "examples/*.md", "crates/*/README.md") for it in TOP.glob(place))
    return [
        f"{document.relative_to(TOP)}: {link} is not there"
        for document in pages
        for link in re.findall(r"\]\(([^)#:\s]+)(?:#[^)]*)?\)", text_of(document))
        if not (document.parent / link).exists()
    ]


def main(program, *names):
    every = [TOP / "README.md", TOP / "examples/README.md", *sorted((TOP / "docs").glob("*.md"))]
    documents = [Path(name).resolve() for name in names] or every
    typed, wrong = [], 0
    for document in documents:
        commands, differ = check(document, program)
        typed, wrong = typed + commands, wrong + differ
    if not names:
        examples = sorted(it.name for it in (TOP / "examples").iterdir() if it.name != "README.md")
        lost = [f"examples/{name}: no document runs it" for name in examples if not any(name in it for it in typed)]
        lost += [f"docs/answers.md: no entry for `{line}`" for line in lines_without_entry()] + dead_links()
        print("".join(f"{line}\n" for line in lost), end="")
        wrong += len(lost)
    print(f"documents: {len(typed)} commands in {len(documents)} documents, {wrong} faults")
    return 1 if wrong else 0


if __name__ == "__main__":
    if len(sys.argv) < 2 or not Path(sys.argv[1]).is_file():
        sys.exit("usage: documents.py PROGRAM [DOCUMENT ..]")
    sys.exit(main(*sys.argv[1:]))
