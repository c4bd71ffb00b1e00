"""The least covers of a tree, one by one, to find those trees whose cover 01 settles (section "Cover").

A tree is a list of gate lines: kind, fanin count, fanins. A table holds a group: some or all fanins of one gate, by their places, with
what lies below them. A cover is a tuple of groups that are nested or apart, in rising order of gates, inner groups before outer ones, so
that the whole root is last.
"""

import itertools

FIRST_GATE = 10001


def is_net(fanin):
    return abs(fanin) < FIRST_GATE


def order(group):
    gate, places = group
    return gate, len(places), sorted(places)


def outermost(groups):
    """Of some sets of places those that lie in no other."""
    return [places for places in groups if not any(places < other for other in groups)]


def next_groups(k, gates, cover):
    """The groups that may follow in a cover, each with the number of its table's inputs, K at most."""
    placed = {}
    for gate, places in cover:
        placed.setdefault(gate, []).append(places)
    widths = []  # of each gate, as a fanin: the inputs that it gives the table that reads it
    for gate, (_, _, *fanins) in enumerate(gates):
        tables = outermost(placed.get(gate, []))
        blocks = [(places, 1) for places in tables]
        for place in set(range(len(fanins))).difference(*tables):
            blocks.append(({place}, 1 if is_net(fanins[place]) else widths[abs(fanins[place]) - FIRST_GATE]))
        widths.append(sum(width for _, width in blocks))
        if cover and gate < cover[-1][0]:
            continue
        for some in itertools.chain.from_iterable(itertools.combinations(blocks, n) for n in range(2, len(blocks) + 1)):
            group, width = (gate, frozenset().union(*(places for places, _ in some))), sum(width for _, width in some)
            if width <= k and (not cover or order(cover[-1]) < order(group)):
                yield group, width


def covers(k, gates, count, cover=(), leaves=None):
    """Every cover that begins as given and goes on with so many tables. A table of w inputs stands for w leaves as one, and a table has at
    most K: where too many leaves are left for the tables to come, there is none."""
    if leaves is None:
        leaves = sum(is_net(fanin) for _, _, *fanins in gates for fanin in fanins)
    if leaves == 1 and count == 0:
        yield cover
    elif leaves <= 1 + (k - 1) * count:
        for group, width in next_groups(k, gates, cover):
            yield from covers(k, gates, count - 1, cover + (group,), leaves - width + 1)


def settled(k, gates, least):
    """The cover of so many tables, where there is one only."""
    found = list(itertools.islice(covers(k, gates, least), 2))
    assert len(found) == 1, "a sheet whose tables 01 leaves open"
    return found[0]
