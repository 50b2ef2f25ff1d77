#!/usr/bin/env python3
"""Brings the definitions and lemmas of this repository to one spelling.

usage: tools/respell.py          at the top of the repository, once, after the toolchain's own port script
       tools/respell.py --map    prints the names that change, old and new, and changes nothing

Words and lemmas are in snake case, facts and types in upper camel case, a prime is an apostrophe. Names of the library,
names that the checker makes (goals, steps, clauses) and names of src/ stay as they are. Each file is judged by itself:
a name that the file imports from the library, or answers as a goal, is not this repository's.
"""

import pathlib
import re
import sys

NAME = re.compile(r"""[^\s(){}\[\];,."'`λ⌜⌝|:@∙⟨⟩\\/&!?]+(?:'+)?""")
STRING = re.compile(r'"(?:[^"\\\n]|\\.)*"')
OWN = re.compile(r"Rattle\.(\w+)\.(specs|proofs)\b")
MADE = re.compile(r"\.(Goals|Given|declared)\b")
# Where the plain rule would make a lemma's name that of the function it is about: the lemma gets an ending.
SPECIAL = {"column-named": "column_named_lem", "key-only": "key_only_lem", "in-block": "in_block_lem"}
# The same, where the lemma's name was in snake case already.
ENDINGS = {
    "crates/matrix/proofs/Entries.antt": {"row_named": "row_named_lem"},
    "crates/matrix/proofs/Small.antt": {"in_blocks": "in_blocks_lem"},
}


def crates(top):
    return sorted(p.name for p in (top / "crates").iterdir() if p.is_dir())


def texts(top, ending):
    for p in sorted((top / "crates").glob("*/**/*" + ending)):
        if "out" not in p.relative_to(top).parts:
            yield p


def wants(name):
    """Whether a name is not in this repository's spelling."""
    if re.fullmatch(r"[^\w]*", name) or "◌" in name or "·" in name:
        return False
    return bool(re.search(r"[-′]|[a-z][A-Z]", name))


def turned(name):
    if name in SPECIAL:
        return SPECIAL[name]
    name = name.replace("′", "'")
    if name[0].isupper():
        return "".join(part[0].upper() + part[1:] for part in name.split("-") if part)
    name = name.replace("getD", "get_or").replace("-", "_")
    return re.sub(r"(?<=[a-z0-9])([A-Z])", lambda m: "_" + m.group(1).lower(), name)


def header(text):
    """The names that a file imports from the library or from what the checker makes."""
    foreign = set()
    for m in re.finditer(r"^\s*(?:ghost )?use ([^\s{;]+?)\.\{([^}]*)\}", text, re.M):
        path, names = m.group(1), m.group(2)
        if path.startswith("Rattle."):
            own = OWN.match(path)
            if own and own.group(1) in header.crates and not MADE.search(path):
                continue
        for n in names.split(","):
            n = n.strip()
            foreign.add(n.split(" as ")[0].strip())
    return foreign


def own_names(top):
    """What specs/ and proofs/ define: signatures, records, fields; but no goals."""
    found = set()
    for p in texts(top, ".antt"):
        text = p.read_text()
        foreign = header(text)
        for line in text.split("\n"):
            if line.lstrip().startswith(("--", "use ")):
                continue
            m = re.match(r"\s*(?:pub |abbrev |unfoldable |record |data )*((?:%s)(?: (?:%s))*)\s*(?:[({].*)?:\s*(.*)" % (NAME.pattern, NAME.pattern), line)
            if not m or m.group(2).startswith(("goal.", "need.")):
                continue
            for n in m.group(1).split():
                if n not in foreign and wants(n):
                    found.add(n)
    return found


def locals_of(text):
    """Variables that a file binds: in binders, λs, clauses and lets."""
    found = set()
    for m in re.finditer(r"λ ((?:%s ?)+)\." % NAME.pattern, text):
        found.update(m.group(1).split())
    for m in re.finditer(r"[({]((?:%s )+):" % NAME.pattern, text):
        found.update(m.group(1).split())
    for m in re.finditer(r"\blet (%s) [:=]" % NAME.pattern, text):
        found.add(m.group(1))
    for m in re.finditer(r"^\s*(?:pub )?(%s(?: [^=\n:→]*)?) =(?: |$)" % NAME.pattern, text, re.M):
        found.update(NAME.findall(m.group(1))[1:])
    return {n for n in found if wants(n)}


def rewrite(text, own, foreign, local):
    out, last = [], 0
    strings = [m.span() for m in STRING.finditer(text)]

    def inside(i):
        return any(a <= i < b for a, b in strings)

    changed = {}
    for m in NAME.finditer(text):
        n = m.group(0)
        if not wants(n) or inside(m.start()):
            continue
        before = text[m.start() - 1] if m.start() else " "
        line_start = text.rfind("\n", 0, m.start()) + 1
        line_end = text.find("\n", m.start())
        line = text[line_start:line_end if line_end >= 0 else len(text)]
        if line.lstrip().startswith(("--", "//")):
            continue
        if before == ".":
            if n not in own or re.search(r"(goal|need)$", text[: m.start() - 1]):
                continue
        elif n in foreign or not (n in own or n in local):
            continue
        elif re.match(r"\s*(?:abbrev )?(?:pub )?%s : (goal|need)\." % re.escape(n), line):
            continue
        new = turned(n)
        if new != n:
            changed[n] = new
            out.append(text[last : m.start()] + new)
            last = m.end()
    out.append(text[last:])
    return "".join(out), changed


def goals_of(text):
    return set(re.findall(r"^\s*(?:abbrev )?(?:pub )?(%s) : (?:goal|need)\." % NAME.pattern, text, re.M))


def main():
    top = pathlib.Path(__file__).resolve().parent.parent
    header.crates = crates(top)
    own = own_names(top)
    show = "--map" in sys.argv
    every = {}
    for ending in (".antt", ".rt"):
        for p in texts(top, ending):
            text = was = p.read_text()
            for old, name in ENDINGS.get(str(p.relative_to(top)), {}).items():
                text = re.sub(r"(?<![\w.'-])%s(?![\w'-])" % old, name, text)
            foreign = header(text) | goals_of(text)
            local = locals_of(text) if ending == ".antt" else set()
            new, changed = rewrite(text, own, foreign, local)
            there = set(NAME.findall(text))
            for old, name in changed.items():
                if name in there:
                    print(f"together: {p.relative_to(top)}: {old} and {name}")
                others = [o for o, t in changed.items() if t == name and o != old]
                if others:
                    print(f"together: {p.relative_to(top)}: {old} and {others}")
                if every.setdefault(old, name) != name:
                    print(f"two ways: {old}: {name}, {every[old]}")
            if not show and new != was:
                p.write_text(new)
    # In the documents, names stand between backticks.
    for p in [top / "README.md", *sorted((top / "docs").glob("*.md"))]:
        text = p.read_text()
        new = re.sub(r"`[^`\n]+`", lambda m: NAME.sub(lambda n: every.get(n.group(0), n.group(0)), m.group(0)), text)
        if not show and new != text:
            p.write_text(new)
    if show:
        for old in sorted(every):
            print(old, every[old])


main()
