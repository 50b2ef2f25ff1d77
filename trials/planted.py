#!/usr/bin/env python3
"""Tries the planted bugs under trials/planted, which are more than the gate tries, on a copy of the repository.

Without an argument it tries those of every crate, with names of crates only theirs. The prover has to refuse each.
"""
import pathlib
import shutil
import subprocess
import sys
import tempfile

ROOT = pathlib.Path(__file__).resolve().parent.parent
PLANTED = ROOT / "trials" / "planted"


def main():
    wanted = sys.argv[1:] or sorted(folder.name for folder in PLANTED.iterdir())
    with tempfile.TemporaryDirectory() as place:
        copy = pathlib.Path(place)
        shutil.copytree(ROOT / "crates", copy / "crates", ignore=shutil.ignore_patterns("must-fail", "out"))
        shutil.copy(ROOT / "crates.txt", copy)
        failed = 0
        for crate in wanted:
            edits = copy / "crates" / crate / "must-fail"
            shutil.copytree(PLANTED / crate, edits)
            failed += subprocess.run(["rt", "must-fail", crate], cwd=copy).returncode != 0
            shutil.rmtree(edits)
    print("planted: every bug refused" if failed == 0 else f"planted: see the crates above, {failed} of them failed")
    return 1 if failed else 0


if __name__ == "__main__":
    sys.exit(main())
