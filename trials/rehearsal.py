#!/usr/bin/env python3
"""Makes what the rehearsal must print, from the rules alone.

Without an argument it writes the file; with --check it compares it with the stored one.
"""
import itertools
import pathlib
import sys

FOLDER = pathlib.Path(__file__).resolve().parent.parent / "crates" / "rehearsal"
LAST_ROUND = 65_535
WORDS = {
    8: "the key has not as many elements as the plan has components",
    9: "there are not as many random elements as a dealing takes",
    10: "the tray is not as long as the plan's",
    11: "a draw is open",
    12: "the record is in its last round",
    13: "the sheet is not as long as the tray",
    14: "no draw is open, or the note bears another round",
    15: "there is no such harbour",
}


class Kind:
    """A kind of element: how it is added, its opposite, and how it is printed."""

    def __init__(self, name, plus, minus, form):
        self.name, self.plus, self.minus, self.form = name, plus, minus, form

    def total(self, values):
        sum_ = 0
        for value in values:
            sum_ = self.plus(sum_, value)
        return sum_

    def row(self, values):
        return " ".join(self.form.format(value) for value in values)


DIAL_NUMBERS = Kind("dial numbers", lambda a, b: (a + b) % 10_000, lambda a: -a % 10_000, "{}")
MASK_BYTES = Kind("mask bytes", lambda a, b: a ^ b, lambda a: a, "{:02X}")
KEY_WORDS = Kind("key words", lambda a, b: (a + b) % 2**32, lambda a: -a % 2**32, "{}")


class Refused(Exception):
    """A call that is turned away, by its number."""

    def __init__(self, number):
        super().__init__(number)
        self.number = number

    def __str__(self):
        return f"refused {self.number}: {WORDS[self.number]}"


class Plan:
    def __init__(self, harbours, threshold, components):
        self.harbours, self.threshold, self.components = harbours, threshold, components
        self.groups = sorted(
            itertools.combinations(range(1, harbours + 1), threshold),
            key=lambda group: sum(1 << (harbour - 1) for harbour in group),
        )
        # A label of each slip, in the order of the tray.
        self.slips = [
            (harbour, number, component)
            for harbour in range(1, harbours + 1)
            for number, group in enumerate(self.groups)
            if harbour in group
            for component in range(components)
        ]

    def __str__(self):
        return f"{self.harbours} harbours, threshold {self.threshold}, key of {self.components}"

    def random_count(self):
        return len(self.groups) * self.components * (self.threshold - 1)

    def card_length(self):
        return len(self.slips) // self.harbours

    def dealing(self, kind, key, random):
        """The tray of a dealing."""

        def element(number, block, component):
            return random[(number * (self.threshold - 1) + block) * self.components + component]

        tray = []
        for harbour, number, component in self.slips:
            position = self.groups[number].index(harbour) + 1
            if position == 1:
                own = [element(number, block, component) for block in range(self.threshold - 1)]
                tray.append(kind.total([key[component]] + own))
            else:
                tray.append(element(number, self.threshold - position, component))
        return tray

    def restored(self, kind, tray, number):
        """What a group restores, component by component."""
        values = []
        for component in range(self.components):
            slips = [tray[self.slips.index((harbour, number, component))] for harbour in self.groups[number]]
            values.append(kind.total(slips[:1] + [kind.minus(slip) for slip in slips[1:]]))
        return values


class Record:
    """A record with its calls. Trays and sheets are lists that the calls alter in place."""

    def __init__(self, kind, plan, issue):
        self.kind, self.plan, self.issue, self.round, self.drawn = kind, plan, issue, 0, False

    def draw(self, random, sheet):
        if self.drawn:
            raise Refused(11)
        if self.round == LAST_ROUND:
            raise Refused(12)
        if len(random) != self.plan.random_count():
            raise Refused(9)
        if len(sheet) != len(self.plan.slips):
            raise Refused(13)
        sheet[:] = self.plan.dealing(self.kind, [0] * self.plan.components, random)
        self.drawn = True
        return self.round

    def apply(self, note, tray, sheet):
        if len(tray) != len(self.plan.slips):
            raise Refused(10)
        if len(sheet) != len(self.plan.slips):
            raise Refused(13)
        if not self.drawn or note != self.round:
            raise Refused(14)
        tray[:] = [self.kind.plus(a, b) for a, b in zip(tray, sheet)]
        sheet[:] = [0] * len(sheet)
        self.drawn = False
        self.round += 1
        return "applied"

    def discard(self, note, sheet):
        if len(sheet) != len(self.plan.slips):
            raise Refused(13)
        if not self.drawn or note != self.round:
            return "stale"
        sheet[:] = [0] * len(sheet)
        self.drawn = False
        return "wiped"

    def read(self, tray, harbour):
        if len(tray) != len(self.plan.slips):
            raise Refused(10)
        if not 1 <= harbour <= self.plan.harbours:
            raise Refused(15)
        return tray[(harbour - 1) * self.plan.card_length() : harbour * self.plan.card_length()]

    def audit(self, tray):
        if len(tray) != len(self.plan.slips):
            raise Refused(10)
        first = self.plan.restored(self.kind, tray, 0)
        for number in range(len(self.plan.groups)):
            if self.plan.restored(self.kind, tray, number) != first:
                return f"group {number} restores otherwise"
        return "agrees"

    def told(self):
        return self.issue, self.round, self.drawn


def deal(kind, plan, issue, key, random, tray):
    if len(key) != plan.components:
        raise Refused(8)
    if len(random) != plan.random_count():
        raise Refused(9)
    if len(tray) != len(plan.slips):
        raise Refused(10)
    tray[:] = plan.dealing(kind, key, random)
    return Record(kind, plan, issue)


def cards(record, tray):
    return [
        f"card {harbour}: {record.kind.row(record.read(tray, harbour))}" for harbour in range(1, record.plan.harbours + 1)
    ]


def ceremony(kind, plan, issue, key, random, more):
    """What is printed of a ceremony."""
    tray, sheet = [0] * len(plan.slips), [0] * len(plan.slips)
    lines = [f"plan: {plan}, in {kind.name}", f"deal: key {kind.row(key)}, random {kind.row(random)}, issue {issue}"]
    record = deal(kind, plan, issue, key, random, tray)
    lines += cards(record, tray)
    note = record.draw(more, sheet)
    lines += [f"draw: random {kind.row(more)}, a note of round {note}", f"apply: {record.apply(note, tray, sheet)}"]
    lines += cards(record, tray)
    note = record.draw(more, sheet)
    lines += [f"draw: random {kind.row(more)}, a note of round {note}", f"discard: {record.discard(note, sheet)}"]
    lines.append(f"audit: {record.audit(tray)}")
    state = "a draw is open" if record.drawn else "no draw is open"
    return lines + [f"record: issue {record.issue}, round {record.round}, {state}", ""]


class Part(list):
    """The first so many places of a row: what is written to it is written there."""

    def __init__(self, row, count):
        super().__init__(row[:count])
        self.row = row

    def __setitem__(self, where, values):
        super().__setitem__(where, values)
        self.row[: len(self)] = list(self)


class Desk:
    """A tray of six places with its sheet and its record."""

    def __init__(self, plan, issue, key, random):
        self.tray, self.sheet = [0] * 6, [0] * 6
        self.record = deal(DIAL_NUMBERS, plan, issue, key, random, Part(self.tray, len(plan.slips)))

    def all(self):
        return self.record.told(), list(self.tray), list(self.sheet)


def tried(what, state, call):
    """The line of a call: its answer or refusal, and whether what there is stays as it was."""
    before = state()
    try:
        answer = call()
    except Refused as refused:
        answer = str(refused)
    places = "places as they were" if state() == before else "places altered"
    return f"{what}: {answer}; {places}"


KEY, RANDOM, MORE = [1234], [9000, 500, 0], [1, 2, 3]


def refused_deals(plan):
    tray = [77] * 6

    def line(what, key, random, count):
        return tried(what, lambda: list(tray), lambda: deal(DIAL_NUMBERS, plan, 1, key, random, Part(tray, count)) and "dealt")

    return [
        line("deal with a key of 2", MORE[:2], RANDOM, 6),
        line("deal with 2 random elements", KEY, RANDOM[:2], 6),
        line("deal onto a tray of 5", KEY, RANDOM, 5),
    ]


def draw_line(what, desk, random, count):
    return tried(what, desk.all, lambda: f"a note of round {desk.record.draw(random, Part(desk.sheet, count))}")


def refused_draws(desk):
    note = desk.record.draw(MORE, desk.sheet)
    lines = [draw_line("draw while a draw is open", desk, MORE, 6)]
    desk.record.discard(note, desk.sheet)
    lines.append(draw_line("draw with 2 random elements", desk, MORE[:2], 6))
    lines.append(draw_line("draw onto a sheet of 5", desk, MORE, 5))
    return lines


def refused_applies(home, away):
    lines = []
    for what, tray, sheet in (("apply to a tray of 5", 5, 6), ("apply with a sheet of 5", 6, 5)):
        note = home.record.draw(MORE, home.sheet)
        lines.append(tried(what, home.all, lambda: home.record.apply(note, Part(home.tray, tray), Part(home.sheet, sheet))))
        home.record.discard(note, home.sheet)
    note = away.record.draw(MORE, away.sheet)
    lines.append(tried("apply with no draw open", home.all, lambda: home.record.apply(note, home.tray, home.sheet)))
    away.record.discard(note, away.sheet)
    note = away.record.draw(MORE, away.sheet)
    away.record.apply(note, away.tray, away.sheet)
    note, own = home.record.draw(MORE, home.sheet), away.record.draw(MORE, away.sheet)
    lines.append(tried("apply with a note of another round", away.all, lambda: away.record.apply(note, away.tray, away.sheet)))
    home.record.discard(note, home.sheet)
    away.record.discard(own, away.sheet)
    return lines


def discards(home, away):
    note = home.record.draw(MORE, home.sheet)
    lines = [tried("discard with a sheet of 5", home.all, lambda: home.record.discard(note, Part(home.sheet, 5)))]
    home.record.discard(note, home.sheet)
    other = away.record.draw(MORE, away.sheet)
    lines.append(tried("discard with a note of another record", home.all, lambda: home.record.discard(other, home.sheet)))
    return lines


def readings(desk):
    def line(what, harbour, count):
        return tried(what, desk.all, lambda: f"{len(desk.record.read(desk.tray[:count], harbour))} slips")

    return [line("read a tray of 5", 1, 5), line("read harbour 0", 0, 6), line("read harbour 4", 4, 6)]


def audits(desk):
    def line(what, count):
        return tried(what, desk.all, lambda: desk.record.audit(desk.tray[:count]))

    lines = [line("audit a tray of 5", 5), line("audit", 6)]
    desk.tray[5] = DIAL_NUMBERS.plus(desk.tray[5], 1)
    return lines + [line("audit with the last slip spoilt", 6)]


def last_round():
    desk = Desk(Plan(1, 1, 1), 12, KEY, [])
    note = None
    for _ in range(LAST_ROUND):
        sheet = Part(desk.sheet, 1)
        note = desk.record.draw([], sheet)
        desk.record.apply(note, Part(desk.tray, 1), sheet)
    lines = [f"draw and apply: a note of round {note}", f"round: {desk.record.round}"]
    return lines + [draw_line("draw in the last round", desk, [], 1)]


def printed():
    """Every line."""
    lines = ceremony(DIAL_NUMBERS, Plan(3, 2, 1), 7, KEY, RANDOM, MORE)
    lines += ceremony(MASK_BYTES, Plan(3, 3, 1), 8, [0x5A], [0x0F, 0xF0], [0x11, 0x22])
    lines += ceremony(KEY_WORDS, Plan(2, 2, 1), 9, [4_294_967_295], [2], [4_294_967_290])
    plan = Plan(3, 2, 1)
    home, away = Desk(plan, 10, KEY, RANDOM), Desk(plan, 11, KEY, RANDOM)
    lines += refused_deals(plan) + refused_draws(home) + refused_applies(home, away) + discards(home, away)
    return lines + readings(home) + audits(home) + last_round()


def difference(path, text):
    """The first line at which the stored file differs, in words, or None."""
    if not path.exists():
        return f"{path.name}: there is no such file"
    stored = path.read_bytes()
    if stored == text.encode():
        return None
    pairs = itertools.zip_longest(stored.decode(errors="replace").split("\n"), text.split("\n"))
    for number, (old, new) in enumerate(pairs, 1):
        if old != new:
            return f"{path.name}: line {number} is {old!r} and not {new!r}"
    return f"{path.name}: the bytes differ"


def main(arguments):
    if arguments not in ([], ["--check"]):
        print("usage: rehearsal.py [--check]")
        return 2
    path = FOLDER / "stdout"
    text = "".join(line + "\n" for line in printed())
    if not arguments:
        path.write_bytes(text.encode())
        print(f"written: {path.name}, {text.count(chr(10))} lines")
        return 0
    found = difference(path, text)
    print(found or "stdout is as the rules make it")
    return 1 if found else 0


if __name__ == "__main__":
    sys.exit(main(sys.argv[1:]))
