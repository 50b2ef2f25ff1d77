#!/usr/bin/env python3
"""What two runs show when one definition is changed.

Two runs of one sequence of calls (deal, read, draw, apply, read), from keys that differ and random
elements that differ by the shift, look the same by the rules. With any of the changes below they
do not, so the promise of secrecy would be false. Worked out apart from the proofs, in dial numbers.
"""
import itertools
import sys

LIMIT = 10_000
KEY, DIFFERENCE = 1234, 3087


def groups_of(total, size):
    """The groups as tuples of rising harbours, in the order of their masks."""
    return sorted(itertools.combinations(range(1, total + 1), size), key=lambda g: sum(1 << (h - 1) for h in g))


class Rules:
    """A dealing, its cover and a renewal, by the rules or with one of them changed."""

    def __init__(self, shared=False, rising=False, times=1, group_off=0, round_off=0):
        self.shared, self.rising, self.times = shared, rising, times
        self.group_off, self.round_off = group_off, round_off

    def dealing(self, total, size, key, random):
        """The cards of a dealing, by harbour."""
        groups = groups_of(total, size)
        cards = {harbour: [] for harbour in range(1, total + 1)}
        for number, group in enumerate(groups):

            def block(b, number=number):
                if self.shared:
                    return sum(random[g * (size - 1) + b] for g in range(len(groups)))
                return random[number * (size - 1) + b]

            for position, harbour in enumerate(group, 1):
                if position == 1:
                    slip = key + sum(block(b) for b in range(size - 1))
                else:
                    slip = block(position - 2 if self.rising else size - position)
                cards[harbour].append(slip % LIMIT)
        return cards

    def cover(self, total, size, difference, read):
        """The random values that hide a difference from the harbours that are read."""
        groups = groups_of(total, size)
        values = []
        for number in range(len(groups)):
            looked_at = groups[max(number - self.group_off, 0)]
            unread = [i for i, harbour in enumerate(looked_at, 1) if harbour not in read]
            first = unread[0] if unread else size + 1
            values += [-difference % LIMIT if b + first == size else 0 for b in range(size - 1)]
        return values

    def seen(self, total, size, key, dealt, drawn, read):
        """The cards read in round 0 and, after a renewal, in round 1."""
        tray = self.dealing(total, size, key, dealt)
        sheet = self.dealing(total, size, 0, drawn)
        later = {h: [(a + self.times * b) % LIMIT for a, b in zip(tray[h], sheet[h])] for h in tray}
        return [tray[h] for h in sorted(read[0])] + [later[h] for h in sorted(read[1])]

    def look_the_same(self, total, size, dealt, drawn, read):
        """Whether the run from the second key, shifted, shows what the first does."""
        counted = [set(), read[0]] if self.round_off else read
        first = self.cover(total, size, DIFFERENCE, counted[0])
        second = self.cover(total, size, DIFFERENCE, counted[1])
        dealt_too = [(a + b) % LIMIT for a, b in zip(dealt, first)]
        drawn_too = [(a + b - c) % LIMIT for a, b, c in zip(drawn, second, first)]
        other_key = (KEY + DIFFERENCE) % LIMIT
        return self.seen(total, size, KEY, dealt, drawn, read) == self.seen(total, size, other_key, dealt_too, drawn_too, read)


TWO_OF_THREE = (3, 2, [9000, 500, 0], [1, 2, 3], [{1}, {2}])
THREE_OF_THREE = (3, 3, [11, 22], [1, 2], [{1, 2}, {1, 2}])
CASES = [
    ("the rules, two of three", Rules(), TWO_OF_THREE, True),
    ("the rules, three of three", Rules(), THREE_OF_THREE, True),
    ("blocks shared between groups", Rules(shared=True), TWO_OF_THREE, False),
    ("an apply that adds the sheet twice", Rules(times=2), TWO_OF_THREE, False),
    ("an apply that only raises the round", Rules(times=0), TWO_OF_THREE, False),
    ("a cover that looks at the group before", Rules(group_off=1), TWO_OF_THREE, False),
    ("a harbour counted as read in the next round", Rules(round_off=1), TWO_OF_THREE, False),
    ("blocks taken in rising position order", Rules(rising=True), THREE_OF_THREE, False),
]


def main():
    wrong = 0
    for name, rules, case, expected in CASES:
        same = rules.look_the_same(*case)
        print(f"{name}: the two runs look {'the same' if same else 'different'}")
        wrong += same != expected
    if wrong:
        sys.exit(f"{wrong} of these should be otherwise")


main()
