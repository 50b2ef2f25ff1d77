#!/usr/bin/env python3
"""Lists the places in src/ that may be written in a plainer form, point by point, as they stood at a commit.

Usage: tools/places.py [COMMIT] [--list]. Without a commit it reads the files as they are. Each line of a list is a
candidate: whether it is such a place is for a reader to say, and docs/DESIGN-PASS.md says it.
"""
import re
import subprocess
import sys

# Each point, and what a candidate's line looks like. Comments do not count.
POINTS = [
    ("1a enums", r"^\s*(pub(\(crate\))? )?enum \w+"),
    ("1b flags beside a value", r"^\s*(pub(\(crate\))? )?\w+: bool,|[(,] ?\w+: bool[,)]"),
    ("1c numbers for kinds, signs or refusals",
     r"fn \w*(kind|sign|refusal|number|judged?|checked|answer)\w*(<[^>]*>)?\([^)]*\) -> *(u8|u16|u32|i8|usize|\(usize, i8\))"
     r"|\b(kind|sign): (u8|i8)|match kind|: u8 = [0-9]+;|^\s+[0-9_]+ => "),
    ("2 functions of one shape", r"^\s*(pub(\(crate\))? )?(unsafe )?(extern \"C\" )?fn \w+"),
    ("3a loops over a range", r"\bfor \w+ in [^{]*\.\."),
    ("3b other loops", r"^\s*(while\b|loop\b)"),
    ("3c counters kept by hand", r"^\s*(self\.)?\w+ \+= 1;|saturating_add\(1\)|^\s*\w+\[\d+\] = |\[\w+(\.\w+)? \+ \d\] ="),
    ("4a impls by hand", r"^impl.*\b(Display|Debug|PartialEq|Eq|PartialOrd|Ord|Clone|From|TryFrom|Default)\b.* for "),
    ("4b meanings, names, comparisons and conversions by hand",
     r"fn (meaning|mark|kind_name|of_\w+|all_same|same_codes|is_still|same|placed_at|digit|answer|from_code)\b"),
    ("5a functions of five parameters or more", None),
    ("5b clauses of one shape", r"^\s*(requires|ensures).*(MatchResult result \(λ _\.|OfSize|length \w+\.(now|old) ≡)"),
    ("6 buffers with an index or a length beside", r"\bat: usize,|\bcount: usize,|: \[[^\]]*; ?\w+\],|\bpart: usize"),
    ("7 switches on a step", r"\bfirst: bool|match kind|if first\b|sign == 1"),
]


def files(commit):
    if commit is None:
        names = subprocess.run(["git", "ls-files", "-co", "--exclude-standard", "crates/*/src/*.rt"], capture_output=True, text=True, check=True).stdout.split()
        return [(n, open(n, encoding="utf-8").read()) for n in sorted(set(names)) if exists(n)]
    names = subprocess.run(["git", "ls-tree", "-r", "--name-only", commit, "crates"], capture_output=True, text=True, check=True).stdout.split()
    return [(n, subprocess.run(["git", "show", f"{commit}:{n}"], capture_output=True, text=True, check=True).stdout)
            for n in names if re.match(r"crates/\w+/src/.*\.rt$", n)]


def exists(name):
    try:
        open(name, encoding="utf-8").close()
        return True
    except FileNotFoundError:
        return False


def long_heads(text):
    """The lines of functions whose head has five parameters or more."""
    for m in re.finditer(r"^\s*(?:pub(?:\(crate\))? )?(?:extern \"C\" )?fn (\w+)(?:<[^(]*>)?\(([^)]*)\)", text, re.MULTILINE):
        if len([p for p in m.group(2).split(",") if p.strip()]) >= 5:
            yield text[:m.start(1)].count("\n") + 1, "fn " + m.group(1)


def main(args):
    listed = "--list" in args
    commits = [a for a in args if a != "--list"]
    texts = files(commits[0] if commits else None)
    for point, pattern in POINTS:
        found = []
        for name, text in texts:
            if pattern is None:
                found += [f"{name}:{n}: {t}" for n, t in long_heads(text)]
                continue
            for n, line in enumerate(text.splitlines(), 1):
                if not line.lstrip().startswith("//") and not line.startswith("ghost use") and re.search(pattern, line):
                    found.append(f"{name}:{n}: {line.strip()}")
        print(f"{point}: {len(found)}")
        if listed:
            for line in found:
                print("    " + line)


if __name__ == "__main__":
    main(sys.argv[1:])
