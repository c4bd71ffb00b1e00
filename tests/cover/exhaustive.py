"""The expected output of the program search_test, by trying every tree.

A gate's fanins are given by keys: (tables below the root, inputs of the table that holds the root). A gate may be split into a
tree of gates of two or more fanins each, over its fanins in any grouping; each new gate, and each fanin that is a gate itself
(two inputs or more), may be chosen as a table of its own, if it has at most K inputs. What is printed of a gate is the
lexicographically least key over all trees and all choices.

`reached` keeps the set of ALL keys of every group of fanins, through every partition of the group into two or more blocks; it
takes no key to be better than another before the end. `by_hand` lists the nested partitions of a group one by one, with every
choice, and is held against it on small gates. Nothing here is shared with the search in crates/search.

Run: python3 tests/cover/exhaustive.py > crates/search_test/stdout
"""

import itertools

SHIFT = 16  # a set of keys is a number: bit below * SHIFT + width


def encode(pairs):
    bits = 0
    for below, width in pairs:
        bits |= 1 << (below * SHIFT + width)
    return bits


def decode(bits):
    pairs = []
    while bits:
        lowest = bits & -bits
        pairs.append(divmod(lowest.bit_length() - 1, SHIFT))
        bits ^= lowest
    return pairs


def sums(a, b, fits):
    """Every sum of a key of a and a key of b, with few enough inputs."""
    bits = 0
    for below, width in decode(a):
        bits |= b << (below * SHIFT + width)
    return bits & fits


def operand(keys, k):
    """How a gate or a leaf with one of the keys stands below another gate: held, or chosen where it is a gate."""
    found = keys
    for below, width in decode(keys):
        if 2 <= width <= k:
            found |= encode([(below + 1, 1)])
    return found


def fitting(k, most):
    return encode((below, width) for below in range(most + 1) for width in range(1, k + 1))


def reached(k, fanins):
    """Every key of a gate over the fanins, each given by the set of its own keys."""
    count = len(fanins)
    most = sum(max(below for below, _ in decode(keys)) for keys in fanins) + 2 * count
    fits = fitting(k, most)
    gates = [0] * (1 << count)  # the keys of a gate over the group
    below_it = [0] * (1 << count)  # of the group as one operand
    forests = [0] * (1 << count)  # of the group as some operands, side by side
    for group in range(1, 1 << count):
        low = group & -group
        rest = group ^ low
        split = 0
        part = rest
        while part:  # the block of the lowest fanin is all but `part`
            split |= sums(below_it[group ^ part], forests[part], fits)
            part = (part - 1) & rest
        gates[group] = split
        if rest:
            below_it[group] = operand(split, k)
        else:
            below_it[group] = operand(fanins[low.bit_length() - 1], k) & fits
        forests[group] = split | below_it[group]
    return gates[-1]


def partitions(items):
    if not items:
        yield []
        return
    head, tail = items[0], items[1:]
    for size in range(len(tail) + 1):
        for chosen in itertools.combinations(tail, size):
            left = [x for x in tail if x not in chosen]
            for others in partitions(left):
                yield [[head, *chosen]] + others


def by_hand(k, fanins):
    """The same for fanins of one key each, tree by tree."""

    def operands(block):
        if len(block) == 1:
            keys = {fanins[block[0]]}
        else:
            keys = gates(block)
        chosen = {(below + 1, 1) for below, width in keys if 2 <= width <= k}
        return keys | chosen

    def gates(group):
        keys = set()
        for blocks in partitions(group):
            if len(blocks) < 2:
                continue
            for choice in itertools.product(*[operands(block) for block in blocks]):
                width = sum(w for _, w in choice)
                if width <= k:
                    keys.add((sum(c for c, _ in choice), width))
        return keys

    return gates(list(range(len(fanins))))


LEAF = (0, 1)
STATE = 1


def draw():
    global STATE
    STATE = (STATE * 1103515245 + 12345) % 2147483648
    return STATE // 65536


def drawn():
    k = 2 + draw() % 5
    count = 2 + draw() % 9
    keys = []
    for _ in range(10):
        below = draw() % 4
        width = min(1 + draw() % 6, k)
        keys.append((below, width))
    return k, keys[:count]


def show(ok, key, steps):
    print(ok, key[0], key[1], steps)


def tree(k, leaves):
    """Every key of a gate of that many leaves, or of a leaf."""
    return encode([LEAF]) if leaves == 1 else reached(k, [encode([LEAF])] * leaves)


# K, the leaves of each fanin, and the least number of tables that 01 gives
EXAMPLES = [
    (2, [1] * 2, 1),
    (2, [1] * 5, 4),
    (5, [1] * 10, 3),
    (6, [1] * 10, 2),
    (4, [2, 2], 1),
    (3, [2, 2], 2),
    (4, [5, 1, 1], 2),
    (5, [3, 2, 2, 2, 2], 3),
    (4, [3, 2, 2, 2, 2], 4),
    (5, [3, 3, 3], 3),
]

# K, and the keys of fanins over 256 leaves at least: there is a leaf at each input, and one more for each table below
MOST_LEAVES = [
    (2, [(245, 2)] + [LEAF] * 9),
    (2, [(122, 2)] * 2 + [LEAF] * 8),
    (6, [(118, 6)] * 2 + [LEAF] * 8),
]


def main():
    for k, fanins, tables in EXAMPLES:
        all_keys = decode(reached(k, [tree(k, leaves) for leaves in fanins]))
        best = min(all_keys)
        assert best[0] + 1 == tables
        assert max(all_keys)[0] + 1 == sum(fanins) - 1  # the most tables of a cover: one fewer than leaves
        show(1, best, 2 * len(fanins) - 1)
    for _ in range(6):
        show(0, (0, 0), 0)
    for k, keys in MOST_LEAVES:
        assert sum(below + width for below, width in keys) == 256
        best = min(decode(reached(k, [encode([key]) for key in keys])))
        assert best[0] + 1 <= 255
        show(1, best, 2 * len(keys) - 1)
    for _ in range(200):
        k, keys = drawn()
        all_keys = decode(reached(k, [encode([key]) for key in keys]))
        if len(keys) <= 5:
            assert set(all_keys) == by_hand(k, keys)
        show(1, min(all_keys), 2 * len(keys) - 1)


if __name__ == "__main__":
    main()
