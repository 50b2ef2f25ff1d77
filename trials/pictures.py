#!/usr/bin/env python3
"""Makes what cardcheck is run on, and what it must print, from the rules of pictures alone.

Without an argument it writes both files; with --check it compares them with the stored ones; with
--for-c it prints every picture as a line of the number that a C program must get and the bytes.
"""
import itertools
import math
import pathlib
import random
import re
import sys

FOLDER = pathlib.Path(__file__).resolve().parent.parent / "crates" / "cardcheck"
# By kind code: the name, the bits of a code, and how many elements there are.
KINDS = {1: ("word", 32, 2**32), 2: ("mask", 8, 2**8), 3: ("dial", 14, 10_000)}
START = 20_011


def slip_count(total, size, key):
    """How many slips the card of a plan has."""
    return key * math.comb(total - 1, size - 1)


def drawn(fields):
    """The bytes of (value, bits) pairs, most significant bit first, with 0 bits to the end of the last byte."""
    bits = "".join(format(value, f"0{width}b") for value, width in fields)
    bits += "0" * (-len(bits) % 8)
    return bytes(int(bits[at : at + 8], 2) for at in range(0, len(bits), 8))


def head_of(kind, total, size, harbour, key, issue, round_):
    return [(1, 4), (kind, 4), (total, 4), (size, 4), (harbour, 4), (key, 4), (issue, 32), (round_, 16)]


def picture(kind, total, size, harbour, key, issue, round_, codes):
    """The picture of a card."""
    width = KINDS[kind][1]
    return drawn(head_of(kind, total, size, harbour, key, issue, round_) + [(code, width) for code in codes])


def fields_of(data):
    """What the first nine bytes say."""
    bits = "".join(format(byte, "08b") for byte in data[:9])
    ends = itertools.accumulate((4, 4, 4, 4, 4, 4, 32, 16))
    return [int(bits[start:end], 2) for start, end in itertools.pairwise([0, *ends])]


def refusal(data):
    """The number of the refusal, or 0, with the place of the first wrong code or the codes."""
    if len(data) < 9:
        return 20, None
    form, kind, total, size, harbour, key, _, _ = fields_of(data)
    if form != 1:
        return 21, None
    if kind not in KINDS:
        return 22, None
    if not (1 <= total <= 10 and 1 <= size <= total and 1 <= key <= 8 and 1 <= harbour <= total):
        return 23, None
    _, width, limit = KINDS[kind]
    count = slip_count(total, size, key)
    if len(data) != 9 + -(-count * width // 8):
        return 24, None
    bits = "".join(format(byte, "08b") for byte in data[9:])
    codes = [int(bits[at * width : (at + 1) * width], 2) for at in range(count)]
    for place, code in enumerate(codes):
        if code >= limit:
            return 25, place
    return (26, None) if "1" in bits[count * width :] else (0, codes)


def told(data):
    """The line that is printed of a picture."""
    number, found = refusal(data)
    if number:
        return f"refused {number}" + (f" slip {found}" if number == 25 else "")
    _, kind, total, size, harbour, key, issue, round_ = fields_of(data)
    return (
        f"sound {KINDS[kind][0]} harbours {total} threshold {size} harbour {harbour} components {key}"
        f" issue {issue} round {round_} slips {' '.join(map(str, found))}"
    )


class Chooser:
    """Random cards, the same on every run."""

    def __init__(self, start):
        self.random = random.Random(start)

    def codes(self, kind, count):
        """Codes of a kind, now and then the least or the greatest."""
        limit = KINDS[kind][2]
        return [self.random.choice((0, limit - 1)) if self.random.random() < 0.1 else self.random.randrange(limit) for _ in range(count)]

    def card(self, kind, total, size, key):
        """The picture of some card of a plan."""
        harbour = self.random.randint(1, total)
        issue = self.random.choice((0, 7, 2**32 - 1, self.random.randrange(2**32)))
        round_ = self.random.choice((0, 1, 2**16 - 1, self.random.randrange(2**16)))
        return picture(kind, total, size, harbour, key, issue, round_, self.codes(kind, slip_count(total, size, key)))

    def plan(self, most=10):
        total = self.random.randint(1, most)
        return total, self.random.randint(1, total), self.random.randint(1, 8)


def flipped(data, bit):
    """The bytes with one bit turned, counted from the first byte's highest."""
    out = bytearray(data)
    out[bit // 8] ^= 0x80 >> bit % 8
    return bytes(out)


def damaged(data):
    """Every shorter picture, and every picture with one bit turned."""
    return [data[:length] for length in range(len(data))] + [flipped(data, bit) for bit in range(8 * len(data))]


def sound_pictures(chooser):
    """Pictures of many plans for each kind; the first is the worked example."""
    found = [picture(3, 3, 2, 1, 1, 7, 1, [235, 1736])]
    for kind in KINDS:
        plans = [(1, 1, 1), (1, 1, 8), (2, 1, 1), (2, 2, 3), (3, 2, 2), (4, 2, 1), (5, 3, 3), (7, 4, 2), (10, 1, 1), (10, 10, 8), (10, 2, 5)]
        found += [chooser.card(kind, *plan) for plan in plans]
        found += [chooser.card(kind, *chooser.plan(6)) for _ in range(25)]
        found.append(chooser.card(kind, 10, 5, 8))
    # Each harbour of a plan, and the greatest issue and round.
    found += [picture(2, 10, 1, harbour, 2, 2**32 - 1, 2**16 - 1, [harbour, 255]) for harbour in range(1, 11)]
    return found


def harmed_pictures(chooser):
    """Short pictures of each kind and a longer one, each with every length and every bit changed."""
    bases = [picture(3, 3, 2, 1, 1, 7, 1, [235, 1736]), picture(1, 3, 2, 2, 1, 7, 1, [0, 2**32 - 1])]
    bases += [picture(2, 4, 3, 4, 1, 513, 2, [1, 0, 255]), picture(3, 5, 3, 5, 2, 99, 65_535, chooser.codes(3, 12))]
    return [harmed for base in bases for harmed in damaged(base)]


def code_pictures():
    """The greatest dial number, the first number past it, and where faults meet."""
    found = []
    for place in range(6):
        for code in (9_999, 10_000, 16_383):
            codes = [5] * 6
            codes[place] = code
            found.append(picture(3, 4, 2, 3, 2, 1, 1, codes))
    found.append(picture(3, 4, 2, 3, 2, 1, 1, [5, 10_000, 5, 16_383, 10_000, 5]))
    # One code has 14 bits, so that two bits are left: they alone, and with a wrong code.
    for code in (0, 9_999, 10_000, 16_383):
        base = picture(3, 2, 1, 1, 1, 1, 1, [code])
        found += [base[:-1] + bytes([base[-1] | rest]) for rest in range(4)]
    for code in (9_999, 10_000):
        base = picture(3, 3, 2, 3, 1, 1, 1, [1, code])
        found += [flipped(base, bit) for bit in range(8 * len(base) - 4, 8 * len(base))]
    return found


def head_pictures():
    """Heads whose numbers are in and out of their ranges, with a body of the right length where there is one."""
    found = []
    for kind in range(16):
        data = drawn(head_of(kind, 1, 1, 1, 1, 1, 1))
        found += [data, data + b"\0", data + bytes(4), data[:8]]
    for form in range(16):
        data = picture(2, 1, 1, 1, 1, 1, 1, [9])
        found.append(bytes([form * 16 + 2]) + data[1:])
        found.append(bytes([form * 16 + 9]) + data[1:])
    for total, size in itertools.product(range(16), range(16)):
        count = math.comb(total - 1, size - 1) if total and size else 0
        found.append(drawn(head_of(2, total, size, 1, 1, 1, 1)) + bytes(count % 300))
    for harbour, key in itertools.product(range(16), range(16)):
        found.append(drawn(head_of(2, 4, 2, harbour, key, 1, 1)) + bytes(3 * key))
    return found


def long_pictures(chooser):
    """A byte or more too many or too few."""
    found = []
    for kind in KINDS:
        for _ in range(4):
            base = chooser.card(kind, *chooser.plan(5))
            found += [base + b"\0", base + b"\xff", base + bytes(4), base + base, base[:-1]]
    return found


def changed_pictures(chooser):
    """Pictures with a few random bytes changed, and random bytes behind a head."""
    found = []
    for kind in KINDS:
        for _ in range(60):
            base = bytearray(chooser.card(kind, *chooser.plan(5)))
            for _ in range(chooser.random.randint(1, 3)):
                base[chooser.random.randrange(len(base))] = chooser.random.randrange(256)
            found.append(bytes(base))
        for _ in range(30):
            total, size, key = chooser.plan(4)
            head = drawn(head_of(kind, total, size, 1, key, 1, 1))
            long = -(-slip_count(total, size, key) * KINDS[kind][1] // 8)
            found.append(head + chooser.random.randbytes(long))
    return found


def groups():
    """The pictures, each group with its title."""
    chooser = Chooser(START)
    return [
        ("Sound pictures.", sound_pictures(chooser)),
        ("Every shorter picture and every turned bit.", harmed_pictures(chooser)),
        ("Codes and the bits behind them.", code_pictures()),
        ("Heads.", head_pictures()),
        ("Too long or too short.", long_pictures(chooser)),
        ("Changed bytes.", changed_pictures(chooser)),
        ("No bytes, and few.", [b"", b"\x13", b"\x23", b"\x19", bytes(8), bytes(9), b"\xff" * 9]),
    ]


def spelled(data, style):
    """Bytes in hexadecimal: with spaces or not, in capitals or not."""
    if not data:
        return "-"
    text = data.hex(" ") if style % 2 == 0 else data.hex()
    return text.upper() if style % 4 < 2 else text


OTHER_LINES = [
    "# Spaces, and lines that are not hexadecimal.",
    "  13 32 11 00 00 00 07 00 01 03 AC 6C 80  ",
    "1332 110000   0007 0001 03aC6c80",
    "1 3 32 11 00 00 00 07 00 01 03 AC 6C 80",
    "13 32 11 00 00 00 07 00 01 03 AC 6C 8",
    "13 32 11 00 00 00 07 00 01 03 AC 6C 8 0",
    "13\t32 11 00 00 00 07 00 01 03 AC 6C 80",
    "13,32,11",
    "0x13",
    "1",
    "1 ",
    " 1",
    "g0",
    "0g",
    "G0",
    "/0",
    "0:",
    "@0",
    "0`",
    "--",
    "- ",
    " -",
    "-1",
    "hello",
    " # 13",
    "1332110000000700010\u00e9",
    " ",
    "",
    "#",
    "",
    "#13 32 11 00 00 00 07 00 01 03 AC 6C 80",
    "12 11 11 00 00 00 00 00 00 FF",
]


def input_lines():
    """Every case, one a line."""
    lines, style = [], 0
    for title, pictures in groups():
        lines.append(f"# {title}")
        for data in pictures:
            lines.append(spelled(data, style))
            style += 1
    return lines + OTHER_LINES


def bytes_of(line):
    """The bytes of a line, or None where it is no hexadecimal of whole bytes."""
    if line == "-":
        return b""
    if not re.fullmatch(r"(?: |[0-9A-Fa-f]{2})*", line):
        return None
    return bytes.fromhex(line)


def answer(number, line):
    """What is printed of a line of the input."""
    if line == "" or line.startswith("#"):
        return []
    data = bytes_of(line)
    return [f"line {number}: not hexadecimal" if data is None else told(data)]


def made():
    """Both files, by name."""
    lines = input_lines()
    printed = [text for number, line in enumerate(lines, 1) for text in answer(number, line)]
    return {name: "".join(line + "\n" for line in part) for name, part in (("stdin", lines), ("stdout", printed))}


def difference(name, text):
    """The first line at which a stored file differs, in words, or None."""
    path = FOLDER / name
    if not path.exists():
        return f"{name}: there is no such file"
    stored = path.read_bytes()
    if stored == text.encode():
        return None
    pairs = itertools.zip_longest(stored.decode(errors="replace").split("\n"), text.split("\n"))
    for number, (old, new) in enumerate(pairs, 1):
        if old != new:
            return f"{name}: line {number} is {old!r} and not {new!r}"
    return f"{name}: the bytes differ"


def main(arguments):
    if arguments == ["--for-c"]:
        for _, pictures in groups():
            for data in pictures:
                print(refusal(data)[0], data.hex(" ") or "-")
        return 0
    if arguments not in ([], ["--check"]):
        print("usage: pictures.py [--check | --for-c]")
        return 2
    files = made()
    if not arguments:
        for name, text in files.items():
            (FOLDER / name).write_bytes(text.encode())
        print("written: " + ", ".join(f"{name} {text.count(chr(10))} lines" for name, text in files.items()))
        return 0
    differences = [found for name, text in files.items() if (found := difference(name, text))]
    for found in differences:
        print(found)
    if not differences:
        print("stdin and stdout are as the rules make them")
    return 1 if differences else 0


if __name__ == "__main__":
    sys.exit(main(sys.argv[1:]))
