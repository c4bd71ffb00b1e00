"""The joins of request 104 (02), from its words alone: "Before covers are counted, gates are joined."

Which edges are joined is settled first, by fanin counts; then the fanins of each gate that is left are gathered.
"""

FIRST_GATE = 10001
MOST = 10


def is_gate(fanin):
    return abs(fanin) >= FIRST_GATE


def is_chained(kinds, upper, fanin):
    """ "upright between gates of one kind, or inverted between an AND and an OR" """
    lower = abs(fanin)
    return kinds[upper] == kinds[lower] if fanin > 0 else kinds[upper] != kinds[lower]


def joined_gates(gates):
    """The gates, by their fanin codes, whose edge is joined. "Going through gates in rising number, and through each one's fanins from left
    to right": an upper gate has then as many fanins as its joins so far have given it, and a lower gate all that its own have."""
    kinds = {FIRST_GATE + g: kind for g, (kind, *_) in enumerate(gates)}
    counts = {FIRST_GATE + g: count for g, (_, count, *_) in enumerate(gates)}
    gone = set()
    for upper, (_, _, *fanins) in zip(counts, gates):
        for fanin in filter(is_gate, fanins):
            both = counts[upper] + counts[abs(fanin)] - 1
            if is_chained(kinds, upper, fanin) and both <= MOST:
                counts[upper] = both
                gone.add(abs(fanin))
    return gone


def joined(gates):
    """The gate lines of a sheet after its joins, numbered anew: kind, fanin count, fanins."""
    gone = joined_gates(gates)
    left = [code for code in range(FIRST_GATE, FIRST_GATE + len(gates)) if code not in gone]
    numbered = {code: FIRST_GATE + n for n, code in enumerate(left)}

    def gathered(gate, turned):
        """A gate's fanins, with those of the gates joined to it in place; "an inverted edge turns every fanin of the lower gate over"."""
        for fanin in gates[gate - FIRST_GATE][2:]:
            inverted = (fanin < 0) != turned
            if abs(fanin) in gone:
                yield from gathered(abs(fanin), inverted)
            else:
                code = numbered.get(abs(fanin), abs(fanin))
                yield -code if inverted else code

    lines = []
    for gate in left:
        fanins = list(gathered(gate, False))
        lines.append([gates[gate - FIRST_GATE][0], len(fanins), *fanins])
    return lines
