#!/usr/bin/env python3
"""Tries three clients of the trays: one spends its note, one lets it lapse, one spends it twice.

The first has to be proved, and each of the others turned away for just that, at the line that is marked `here`.
It works on a copy of the crates that a client needs.
"""
import pathlib
import re
import shutil
import subprocess
import sys
import tempfile

ROOT = pathlib.Path(__file__).resolve().parent.parent
TEXTS = ROOT / "trials" / "notes"
DEPENDS = ["kinds", "trays"]
# The client's text, and the error that it has to give.
CASES = [("lapses", "linear-value-let-go"), ("twice", "borrow-e0382"), ("right", None)]
ERROR = re.compile(r"^(?P<file>\S+?):(?P<line>\d+):\d+: error(?:\[(?P<name>[^]]*)\])?", re.MULTILINE)


def table(path):
    """The lines NAME: DEP DEP of a file, as lists by name."""
    lines = [line.split("#")[0] for line in path.read_text().splitlines()]
    return {name.split()[0]: rest.split() for name, _, rest in (line.partition(":") for line in lines) if name.strip()}


def reached(crates, names):
    """The crates of the repository that some crates reach, with those that they depend on first."""
    found = []
    for name in names:
        if name in crates:
            found += [other for other in reached(crates, crates[name]) + [name] if other not in found]
    return found


def copied(folder):
    """Copies what a client needs, and lists the client with it."""
    crates = table(ROOT / "crates.txt")
    needed = reached(crates, DEPENDS)
    for name in needed:
        shutil.copytree(ROOT / "crates" / name, folder / "crates" / name, ignore=shutil.ignore_patterns("out", "must-fail"))
    lines = [f"{name}: {' '.join(crates[name])}\n" for name in needed]
    (folder / "crates.txt").write_text("".join(lines) + f"client: {' '.join(DEPENDS)}\n")
    (folder / "crates" / "client" / "src").mkdir(parents=True)


def marked(text):
    """The line that is marked, if there is one."""
    numbers = [number for number, line in enumerate(text.splitlines(), 1) if line.endswith("// here")]
    return numbers[0] if len(numbers) == 1 else None


def fault(folder, name, wanted):
    """What is wrong with what the check says of a client, or None."""
    text = (TEXTS / f"{name}.txt").read_text()
    client = folder / "crates" / "client"
    (client / "src" / "lib.rt").write_text(text)
    run = subprocess.run(["rt", "check"], cwd=client, capture_output=True, text=True)
    said = run.stdout + run.stderr
    if wanted is None:
        proved = run.returncode == 0 and re.search(r"^logic=proved ", said, re.MULTILINE)
        return None if proved else f"{name}: not proved: {said[-2000:]}"
    if marked(text) is None:
        return f"{name}: no line, or more than one, is marked"
    errors = [(found["file"], found["name"], int(found["line"])) for found in ERROR.finditer(said)]
    if run.returncode == 0 or errors != [("src/lib.rt", wanted, marked(text))]:
        return f"{name}: not turned away with {wanted} at line {marked(text)}, and that alone: {said[-2000:]}"
    return None


def main():
    with tempfile.TemporaryDirectory() as place:
        folder = pathlib.Path(place)
        copied(folder)
        faults = [found for name, wanted in CASES if (found := fault(folder, name, wanted))]
    for found in faults:
        print(found)
    if not faults:
        print("notes: as expected")
    return 1 if faults else 0


if __name__ == "__main__":
    sys.exit(main())
