"""Request 111 (02), from its words alone: with one leaf of a new net added to a gate, the least number stays or rises by one, where no edge is
to be joined. Tried on the sheets of crates/one_more/specs/Examples.antt, whose numbers were worked out by hand, and on drawn sheets, by the
search of exhaustive.py, which takes no key to be better than another before the end, over the gates of join.py.

Run: python3 tests/cover/one_more.py
"""

from exhaustive import LEAF, decode, draw, encode, reached
from join import FIRST_GATE, joined, joined_gates

AND, OR = 1, 2


def least(k, gates):
    """The least number of a sheet, its gates joined: the root's table, and the tables below it."""
    keys = []
    for _, _, *fanins in joined(gates):
        keys.append(reached(k, [keys[abs(fanin) - FIRST_GATE] if abs(fanin) >= FIRST_GATE else encode([LEAF]) for fanin in fanins]))
    return 1 + min(decode(keys[-1]))[0]


def grown(gates, at, place, net):
    """The gates with the leaf `net` more at gate `at`, from 1, with `place` fanins to its left."""
    kind, count, *fanins = gates[at - 1]
    return [*gates[: at - 1], [kind, count + 1, *fanins[:place], net, *fanins[place:]], *gates[at:]]


def gate(kind, *fanins):
    return [kind, len(fanins), *fanins]


SIX = [gate(OR, 1, 2), gate(AND, 10001, 3, 4, 5, 6)]
SEVEN = grown(SIX, 1, 1, -7)
EIGHT = grown(SEVEN, 2, 0, 8)
NINE = [gate(AND, *range(1, 10))]
OVER_FIVE = [*[gate(OR, n, n + 1, n + 2) for n in range(1, 16, 3)], gate(AND, *range(10001, 10006)), gate(AND, 10006, *range(16, 21))]
OVER_TWO = [*[gate(OR, *range(n, n + 4)) for n in (1, 5, 9)], gate(AND, 10001, *range(13, 21)), gate(AND, 10002, 10003), gate(AND, 10004, 10005)]

# a sheet, the same with one leaf more, K, and the least numbers
EXAMPLES = [
    (SIX, SEVEN, 6, 1, 2),
    (SEVEN, EIGHT, 6, 2, 2),
    (SIX, SEVEN, 2, 5, 6),
    (SEVEN, EIGHT, 2, 6, 7),
    (NINE, grown(NINE, 1, 9, 10), 5, 2, 3),
    (NINE, grown(NINE, 1, 9, 10), 6, 2, 2),
    (OVER_FIVE, grown(OVER_FIVE, 7, 6, 21), 5, 5, 7),
    (OVER_TWO, grown(OVER_TWO, 6, 2, 21), 6, 5, 4),
]


def drawn():
    """Some gates, each over one or two gates that are not read yet and some leaves."""
    gates, unread, net = [], [], 0
    for number in range(1 + draw() % 4):
        below = [unread.pop(0) for _ in range(min(len(unread), draw() % 3))]
        leaves = list(range(net + 1, net + 1 + max(2 - len(below), draw() % 4)))
        net += len(leaves)
        fanins = [-fanin if draw() % 3 == 0 else fanin for fanin in leaves + below]
        gates.append(gate(1 + draw() % 2, *fanins))
        unread.append(FIRST_GATE + number)
    if len(unread) > 1:
        gates.append(gate(1 + draw() % 2, *unread))
    return gates, net


def main():
    for before, after, k, low, high in EXAMPLES:
        assert (least(k, before), least(k, after)) == (low, high), (k, before)
    seen = {(k, change): 0 for k in range(2, 7) for change in (0, 1)}
    for _ in range(400):
        gates, net = drawn()
        if joined_gates(gates):
            continue
        at = 1 + draw() % len(gates)
        after = grown(gates, at, draw() % (gates[at - 1][1] + 1), (net + 1) * (-1 if draw() % 2 else 1))
        assert not joined_gates(after)
        for k in range(2, 7):
            seen[k, least(k, after) - least(k, gates)] += 1
    assert all((times > 0) == (case != (2, 0)) for case, times in seen.items()), seen
    print("tests: one leaf more keeps the least number, or raises it by one")


if __name__ == "__main__":
    main()
