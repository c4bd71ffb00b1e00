"""The second mapping program (request 107 of 02, fewest levels), from the papers alone, with nothing shared with crates/ or outside/.

A sheet is read by tests/sheet/model.py and its gates are joined by tests/cover/join.py. Of a group of fanins that one table holds three
numbers matter: the greatest level among the inputs that it takes of the table, how many they are, and how many tables lie below. `held`
keeps all such triples of which no other is as good in each number, from the leaves up; a table of its own is one level higher, one input
and one table more. The least root level is found first, by triples that count no tables; then the fewest tables of the covers within it.

Which of the fastest covers is taken is free, and the order of its tables. So what is told of an input is its refusal, or line 0 and the
lines after the list; and `outputs` gives every right output of an input of small sheets, from all covers one by one
(tests/cover/settled.py).

Run: python3 tests/fast/model.py < INPUT            (what is told)
     python3 tests/fast/model.py --all < INPUT      (every right output, a line of dashes after each)
"""

import functools
import importlib.util
import itertools
import pathlib
import sys

TESTS = pathlib.Path(__file__).parents[1]
CODES = 10000
AND = 1


def load(path):
    """The program in a file of tests/, as a module."""
    spec = importlib.util.spec_from_file_location(path.replace("/", "_").removesuffix(".py"), TESTS / path)
    module = importlib.util.module_from_spec(spec)
    spec.loader.exec_module(module)
    return module


SHEET, JOIN, SETTLED = load("sheet/model.py"), load("cover/join.py"), load("cover/settled.py")


def is_net(code):
    return code < CODES


# Levels and numbers of tables


def best(triples, limit):
    """The triples within the limit of which no other is as good in each number."""
    found = []
    for level, inputs, tables in sorted(triples):
        if (limit is None or level < limit) and not any(i <= inputs and t <= tables for _, i, t in found):
            found.append((level, inputs, tables))
    return found


def root_triples(k, gates, levels, limit, per_table):
    """The triples of the root, held in its table. A fanin is known by its net's level, or by its gate: leaves of one level are alike."""

    def label(fanin):
        return ("leaf", levels.get(abs(fanin), 0)) if is_net(abs(fanin)) else ("gate", abs(fanin) - SHEET.FIRST_GATE)

    labels = [tuple(sorted(map(label, fanins))) for _, _, *fanins in gates]

    @functools.cache
    def operand(group):
        """A leaf, a group that the table holds, or one that is a table of its own."""
        (what, value), *others = group
        if not others:
            return [(value, 1, 0)] if what == "leaf" else operand(labels[value])
        return best(held(group) + [(level + 1, 1, tables + per_table) for level, _, tables in held(group)], limit)

    @functools.cache
    def held(group):
        first, *others = group
        parts = {kept for n in range(len(others)) for kept in itertools.combinations(others, n)}
        triples = set()
        for part in parts:
            rest = list(others)
            for one in part:
                rest.remove(one)
            for (la, ia, ta), (lb, ib, tb) in itertools.product(operand((first, *part)), operand(tuple(rest))):
                if ia + ib <= k:
                    triples.add((max(la, lb), ia + ib, ta + tb))
        return best(triples, limit)

    for group in labels:  # from the leaves up, so that nothing is deep
        held(group)
    return held(labels[-1])


def fastest(k, gates, levels):
    """The least root level of a joined tree, and the fewest tables of the covers that have it."""
    level = 1 + min(level for level, _, _ in root_triples(k, gates, levels, None, 0))
    return level, 1 + min(tables for _, _, tables in root_triples(k, gates, levels, level, 1))


# The program


class Sheet:
    """A sheet that was accepted: its output net, whether that is inverted, its joined gates, root level and number of tables, and the
    levels of the driven nets that it found."""

    def __init__(self, k, lines, levels):
        (out, _), *gates = lines
        self.net, self.inverted, self.levels = abs(out), out < 0, dict(levels)
        self.gates = JOIN.joined(gates)
        self.level, self.number = fastest(k, self.gates, levels)
        self.leaves = {abs(fanin) for _, _, *fanins in gates for fanin in fanins if is_net(abs(fanin))}


def opening(text):
    """K, capacity and wanted level, and the place after the line: 1, then 2, 3 and 34."""
    numbers, at = SHEET.fields(text, 0, 0)
    if len(numbers) != 3:
        raise SHEET.Refused(1, 0)
    k, capacity, wanted = numbers
    for number, good in (2, 2 <= k <= 6), (3, 1 <= capacity <= 800), (34, 0 <= wanted <= 1024):
        if not good:
            raise SHEET.Refused(number, 0)
    return k, capacity, wanted, at


def accepted(text):
    """The opening's numbers and the sheets, or (number, sheet, place) of the refusal."""
    sheets = []
    try:
        k, capacity, wanted, at = opening(text)
    except SHEET.Refused as refused:
        number, _ = refused.args
        return None, (number, 0, 0)
    try:
        while at < len(text):
            lines, at = SHEET.read(text, at, False)
            net, levels = abs(lines[0][0]), {sheet.net: sheet.level for sheet in sheets}
            if net in levels:
                raise SHEET.Refused(21, 0)
            if any(net in sheet.leaves for sheet in sheets):
                raise SHEET.Refused(22, 0)
            sheet = Sheet(k, lines, levels)
            if sheet.number > capacity - sum(other.number for other in sheets):
                raise SHEET.Refused(23, 0)
            sheets.append(sheet)
    except SHEET.Refused as refused:
        number, place = refused.args
        return None, (number, len(sheets) + 1, place)
    return (k, capacity, wanted, sheets), None


def fields(*numbers):
    return "".join(f"{number:6}" for number in numbers) + "\n"


def top(k, capacity, sheets):
    return fields(k, capacity, sum(sheet.number for sheet in sheets))


def slack_lines(wanted, sheets):
    return "".join(fields(sheet.net, wanted - sheet.level) for sheet in sheets)


def told(text):
    """A refusal, or line 0 and the lines after the list."""
    found, refusal = accepted(text)
    if refusal:
        number, sheet, place = refusal
        return fields(-number, sheet, place)
    k, capacity, wanted, sheets = found
    return top(k, capacity, sheets) + slack_lines(wanted, sheets)


# All right outputs, of small sheets


class Cover:
    """A cover of a sheet's joined tree: groups (gate, places), each a table."""

    def __init__(self, sheet, groups):
        self.sheet, self.groups = sheet, groups

    def operands(self, group):
        """What stands in a group: groups of its gate that are tables, and its other fanins, each with its inversion."""
        gate, places = group
        tables = SETTLED.outermost([other for of, other in self.groups if of == gate and other < places])
        yield from (((gate, table), False) for table in tables)
        for place in places.difference(*tables):
            fanin = self.sheet.gates[gate][2 + place]
            lower = abs(fanin) - SHEET.FIRST_GATE
            whole = None if is_net(abs(fanin)) else (lower, frozenset(range(self.sheet.gates[lower][1])))
            yield whole or abs(fanin), fanin < 0

    def inputs(self, group):
        """The nets and groups that a table reads."""
        for operand, _ in self.operands(group):
            if is_group(operand) and operand not in self.groups:
                yield from self.inputs(operand)
            else:
                yield operand

    def value(self, group, given):
        read = [(given[one] if one in given else self.value(one, given)) != inverted for one, inverted in self.operands(group)]
        return all(read) if self.sheet.gates[group[0]][0] == AND else any(read)

    def level(self, group):
        return 1 + max(self.level(one) if is_group(one) else self.sheet.levels.get(one, 0) for one in self.inputs(group))

    def lists(self, used):
        """The table lines after so many others, in each order with inputs before readers."""
        root = self.groups[-1]
        for order in itertools.permutations(self.groups[:-1]):
            codes = {group: CODES + used + n for n, group in enumerate((*order, root), 1)}
            reads = {group: {one for one in self.inputs(group) if is_group(one)} for group in codes}
            if all(codes[one] < codes[group] for group in codes for one in reads[group]):
                yield "".join(self.line(group, codes, group == root) for group in codes)

    def table(self, group, codes, inverted):
        """What a table reads, by its codes, and its truth table."""
        named = {codes.get(one, one): one for one in self.inputs(group)}
        inputs, truth = sorted(named), 0
        for row in range(2 ** len(inputs)):
            given = {named[code]: bool(row >> j & 1) for j, code in enumerate(inputs)}
            truth += (self.value(group, given) != inverted) << row
        return inputs, truth

    def line(self, group, codes, is_root):
        inputs, truth = self.table(group, codes, is_root and self.sheet.inverted)
        text = fields(codes[group] - CODES, self.sheet.net if is_root else 0, len(inputs), *inputs)
        return f"{text[:-1]}{truth:21}\n"


def is_group(operand):
    return isinstance(operand, tuple)


def all_covers(k, sheet):
    """Every cover of every splitting, one by one."""
    for count in range(1, len(sheet.leaves)):
        for groups in SETTLED.covers(k, sheet.gates, count):
            yield Cover(sheet, groups)


def fastest_covers(k, sheet):
    """The covers of the least root level that have the fewest tables; the two numbers are those of the triples."""
    counted = [((cover.level(cover.groups[-1]), len(cover.groups)), cover) for cover in all_covers(k, sheet)]
    numbers = min(numbers for numbers, _ in counted)
    assert numbers == (sheet.level, sheet.number), (numbers, sheet.level, sheet.number)
    return [cover for of, cover in counted if of == numbers]


def outputs(text):
    """Every right output."""
    found, refusal = accepted(text)
    if refusal:
        return {told(text)}
    k, capacity, wanted, sheets = found
    used, choices = 0, []
    for sheet in sheets:
        choices.append({lines for cover in fastest_covers(k, sheet) for lines in cover.lists(used)})
        used += sheet.number
    start, end = top(k, capacity, sheets), slack_lines(wanted, sheets)
    return {start + "".join(lists) + end for lists in itertools.product(*choices)}


if __name__ == "__main__":
    given = sys.stdin.buffer.read()
    if sys.argv[1:] == ["--all"]:
        print("".join(output + "------\n" for output in sorted(outputs(given))), end="")
    else:
        print(told(given), end="")
