#!/usr/bin/env python3
"""Makes what the planner is run on, and what it must print, from the rules alone.

Without an argument it writes both files; with --check it compares them with the stored ones.
"""
import itertools
import pathlib
import re
import sys

FOLDER = pathlib.Path(__file__).resolve().parent.parent / "crates" / "planner"
SHOWN_ROWS = 24
REFUSALS = {
    1: "the number of harbours is not 1 to 10",
    2: "the threshold is not 1 to the number of harbours",
    3: "the number of components is not 1 to 8",
}
UNCLEAR = "three numbers are wanted: harbours, threshold, components"


def input_lines():
    """Every case, one a line."""
    lines = ["# Every plan with a key of one component."]
    lines += [f"{total} {size} 1" for total in range(1, 11) for size in range(1, total + 1)]
    lines += ["", "# Longer keys."]
    lines += ["1 1 2", "2 1 2", "2 2 2", "3 2 2", "4 3 2", "5 5 2"]
    lines += ["2 2 3", "3 1 3", "3 3 3", "4 2 3", "4 4 3", "6 3 3"]
    lines += ["1 1 8", "2 2 8", "3 3 8", "7 4 8", "10 1 8", "10 5 8", "10 10 8"]
    lines += ["3 3 1", "4 2 1", "  3   2\t1  ", "03 2 +1", "", "# Refused."]
    lines += ["0 0 0", "11 1 1", "3 4 1", "3 0 1", "3 2 0", "3 2 9", "0 1 1", "10 11 9", "11 0 9"]
    lines += ["18446744073709551615 1 1", "3 2 18446744073709551615", "# Not three numbers."]
    lines += ["3 2", "a b c", "3 2 1 0", "-1 2 3", "7", " ", " # 3 2 1", "3,2,1", "3 2 1.0", "3 2 +", "18446744073709551616 1 1"]
    lines += ["#", "2 1 1"]
    return lines


def three_numbers(line):
    """The numbers of a line, or None where they are not three that 64 bits hold."""
    words = line.split()
    if len(words) != 3 or not all(re.fullmatch(r"\+?[0-9]+", word) for word in words):
        return None
    numbers = [int(word) for word in words]
    return numbers if max(numbers) < 2**64 else None


def refusal(total, size, key):
    """The number of the refusal, or 0."""
    if total not in range(1, 11):
        return 1
    if size not in range(1, total + 1):
        return 2
    return 0 if key in range(1, 9) else 3


def groups_of(total, size):
    """The groups as tuples of rising harbours, in the order of their masks."""
    return sorted(itertools.combinations(range(1, total + 1), size), key=mask_of)


def mask_of(group):
    return sum(1 << (harbour - 1) for harbour in group)


def cards_of(total, groups, key):
    """The cards, each a list of (harbour, group, component)."""
    return [
        [
            (harbour, number, component)
            for number, group in enumerate(groups)
            if harbour in group
            for component in range(key)
        ]
        for harbour in range(1, total + 1)
    ]


def eye(count):
    return [[int(row == column) for column in range(count)] for row in range(count)]


def zeros(rows, columns):
    return [[0] * columns for _ in range(rows)]


def beside(blocks):
    """Blocks of as many rows, side by side."""
    return [sum(rows, []) for rows in zip(*blocks)]


def above(blocks):
    """Blocks of as many columns, one above the other."""
    return sum(blocks, [])


def key_part(size, key):
    return above([eye(key), zeros(key * (size - 1), key)])


def random_part(size, key):
    """The first rows have the identity in every block, those of position i at block size - i alone."""
    if size == 1:
        return zeros(key, 0)
    top = beside([eye(key)] * (size - 1))
    below = [
        beside([eye(key) if block == size - position else zeros(key, key) for block in range(size - 1)])
        for position in range(2, size + 1)
    ]
    return above([top] + below)


def matrix_of(count, size, key):
    """Each group's rows: the key part, and the random part in the group's own columns."""
    wide = key * (size - 1)
    return above(
        [
            beside(
                [
                    key_part(size, key),
                    zeros(key * size, number * wide),
                    random_part(size, key),
                    zeros(key * size, (count - 1 - number) * wide),
                ]
            )
            for number in range(count)
        ]
    )


def card_line(harbour, card, groups, places):
    parts = [
        f"group {number} at {places[harbour, number, 0]} {'+' if groups[number][0] == harbour else '-'}"
        for _, number, component in card
        if component == 0
    ]
    return f"card {harbour}: " + ", ".join(parts)


def matrix_lines(matrix):
    rows, columns = len(matrix), len(matrix[0])
    if rows > SHOWN_ROWS:
        return [f"matrix: {rows} rows, {columns} columns (not shown)"]
    return [f"matrix: {rows} rows, {columns} columns"] + ["  " + "".join(map(str, row)) for row in matrix]


def sheet(total, size, key):
    """What is printed of a plan."""
    groups = groups_of(total, size)
    cards = cards_of(total, groups, key)
    tray = sum(cards, [])
    places = {slip: place for place, slip in enumerate(tray)}
    matrix = matrix_of(len(groups), size, key)
    lines = [f"plan: {total} harbours, threshold {size}, key of {key}", f"groups: {len(groups)}"]
    for number, group in enumerate(groups):
        lines.append(f"  {number} mask {mask_of(group)} harbours {' '.join(map(str, group))}")
    lines.append(f"random elements: {len(matrix[0]) - key}")
    lines.append(f"card length: {len(cards[0])}, tray length: {len(tray)}")
    lines += [card_line(harbour, card, groups, places) for harbour, card in enumerate(cards, 1)]
    return lines + matrix_lines(matrix) + [""]


def answer(number, line):
    """What is printed of a line of the input."""
    if line == "" or line.startswith("#"):
        return []
    numbers = three_numbers(line)
    if numbers is None:
        return [f"line {number}: {UNCLEAR}"]
    refused = refusal(*numbers)
    if refused:
        return [f"line {number}: refused {refused}: {REFUSALS[refused]}"]
    return sheet(*numbers)


def made():
    """Both files, by name."""
    lines = input_lines()
    printed = [text for number, line in enumerate(lines, 1) for text in answer(number, line)]
    return {name: "".join(line + "\n" for line in part) for name, part in (("stdin", lines), ("stdout", printed))}


def difference(name, text):
    """The first line at which a stored file differs, in words, or None."""
    path = FOLDER / name
    if not path.exists():
        return f"{name}: there is no such file"
    stored = path.read_bytes()
    if stored == text.encode():
        return None
    pairs = itertools.zip_longest(stored.decode(errors="replace").split("\n"), text.split("\n"))
    for number, (old, new) in enumerate(pairs, 1):
        if old != new:
            return f"{name}: line {number} is {old!r} and not {new!r}"
    return f"{name}: the bytes differ"


def main(arguments):
    if arguments not in ([], ["--check"]):
        print("usage: planner.py [--check]")
        return 2
    files = made()
    if not arguments:
        for name, text in files.items():
            (FOLDER / name).write_bytes(text.encode())
        print("written: " + ", ".join(f"{name} {text.count(chr(10))} lines" for name, text in files.items()))
        return 0
    differences = [found for name, text in files.items() if (found := difference(name, text))]
    for found in differences:
        print(found)
    if not differences:
        print("stdin and stdout are as the rules make them")
    return 1 if differences else 0


if __name__ == "__main__":
    sys.exit(main(sys.argv[1:]))
