"""The expected output of the program part_test: the user's scope paper (01), sections "Part", "List" and the tables of refusals, with the
nets and codes of request 102, the levels of request 103, the joins of request 104, the sets of request 106, the fewest levels of request
107 and the reservations of request 109 (there holds), written down once more from the papers alone, with nothing shared with crates/.
CASES.md has the answers worked out by hand.

A sheet is read by tests/sheet/model.py, its gates are joined by tests/cover/join.py, and its least number of tables comes from
tests/cover/exhaustive.py; the groups of the tables that are taken, where 01 settles them, come from tests/cover/settled.py. By the fewest
levels the number and the groups come from tests/fast/model.py, which has the inputs and the truth table of a group, too.

Run: python3 tests/part/model.py < crates/part_test/stdin > crates/part_test/stdout
     python3 tests/part/model.py --answers < crates/part_test/stdin    (line and answer of each step that CASES.md has)
     python3 tests/part/model.py --lists < crates/part_test/stdin      (each list that a call changed, of a long one some lines)
"""

import copy
import functools
import importlib.util
import itertools
import pathlib
import sys

COLUMNS, FIELDS, RECORDS, BUFFER = 6, 12, 800, 4096
SHEETS, LENGTHS = 16, 20  # the most sheets of a set, and the most lengths that the script can collect for one
AND = 1
TESTS = pathlib.Path(__file__).parents[1]
CRATE = TESTS.parent / "crates/part_test"


def load(path):
    """The program in a file of tests/, as a module."""
    spec = importlib.util.spec_from_file_location(path.replace("/", "_").removesuffix(".py"), TESTS / path)
    module = importlib.util.module_from_spec(spec)
    spec.loader.exec_module(module)
    return module


SHEET, COVER = load("sheet/model.py"), load("cover/exhaustive.py")
JOIN, SETTLED, FAST = load("cover/join.py"), load("cover/settled.py"), load("fast/model.py")
CODES = 10000  # gate g is CODES + g in a fanin, table t CODES + t in a table's input (request 102)


class Record:
    """One table: net driven, input count u, six inputs, truth table, level."""

    def __init__(self, net=0, u=0, inputs=(0, 0, 0, 0, 0, 0), truth=0, level=0):
        self.net, self.u, self.inputs, self.truth, self.level = net, u, list(inputs), truth, level


class Part:
    """01, "Part": K, capacity, used count, and a record for each of the 800 tables that a part may have; request 109: the number of tables
    set aside and the output net, "both zero when nothing is held"."""

    def __init__(self, k=0, capacity=0):
        self.k, self.capacity, self.used = k, capacity, 0
        self.reserved, self.reserved_net = 0, 0
        self.records = [Record() for _ in range(RECORDS)]

    def reservation(self):
        return self.reserved, self.reserved_net

    def left(self):
        """The number left for an add: "what is neither used nor set aside"."""
        return self.capacity - self.used - self.reserved


def is_net(code):
    return 1 <= code <= SHEET.NETS


def table_named(code):
    """t for the input CODES + t, where t is a table's number; else None."""
    return code - CODES if 1 <= code - CODES <= RECORDS else None


def opened(k, capacity):
    """Refusals 2 and 3, 2 first; "an opening that is turned down hands back a part of all zeros"."""
    if not 2 <= k <= 6:
        return -2, Part()
    if not 1 <= capacity <= 800:
        return -3, Part()
    return 0, Part(k, capacity)


def sound(part):
    """01, "A part is sound when": the first of the five points here, and the records past the used count; and request 109's points."""
    if not (2 <= part.k <= 6 and 1 <= part.capacity <= 800 and part.used <= part.capacity):
        return False
    if not sound_reservation(part):
        return False
    for record in part.records[part.used :]:
        if record.net or record.u or any(record.inputs) or record.truth or record.level:
            return False
    return sound_tables(part.records[: part.used], part.k)


def sound_reservation(part):
    """Request 109: not "if the number set aside is above capacity minus used, if just one of the two is zero, or if the held net is out of
    range"."""
    if part.reserved > part.capacity - part.used:
        return False
    if (part.reserved == 0) != (part.reserved_net == 0):
        return False
    return part.reserved_net <= SHEET.NETS


def sound_tables(tables, k):
    """The tables in use keep 01's rules and have their levels: "a part with a wrong level is not sound"."""
    return keeps_rules(tables, k) and [table.level for table in tables] == levels(tables)


def levels(tables):
    """The levels of tables that keep the rules: "1 plus the greatest level among the tables and driven nets it reads, free nets being 0".
    In turns: of the tables that are left, those that read none of these have the next level."""
    drivers = {table.net: t for t, table in enumerate(tables) if table.net}
    reads = []
    for table in tables:
        named = [drivers.get(code) if is_net(code) else table_named(code) - 1 for code in table.inputs[: table.u]]
        reads.append({t for t in named if t is not None})
    found, left, level = {}, set(range(len(tables))), 0
    while left:
        level += 1
        turn = {t for t in left if not reads[t] & left}
        found.update(dict.fromkeys(turn, level))
        left -= turn
    return [found[t] for t in range(len(tables))]


def keeps_rules(tables, k):
    """01's other points, about the tables in use, in the paper's order and words."""
    for t, table in enumerate(tables, 1):
        if any(table.inputs[table.u :]):
            return False  # an unused input is not zero
        if not 0 <= table.net <= SHEET.NETS:
            return False
        if not 2 <= table.u <= k:
            return False
        inputs = table.inputs[: table.u]
        if not all(is_net(code) or table_named(code) for code in inputs):
            return False
        if any(left >= right for left, right in zip(inputs, inputs[1:])):
            return False
        if table.truth >= 2 ** (2**table.u):
            return False
        for code in inputs:
            named = table_named(code)
            if named and not (named < t and tables[named - 1].net == 0):
                return False

    drivers = {}
    for t, table in enumerate(tables, 1):
        if table.net:
            if table.net in drivers:
                return False  # driven twice
            drivers[table.net] = t
    for t, table in enumerate(tables, 1):
        for code in table.inputs[: table.u]:
            if code in drivers and not drivers[code] < t:
                return False  # read by a table that is not after its driver
    return True


def line(part, t):
    """01, "List": the bytes of line t."""
    if t == 0:
        return b"%6d%6d%6d\n" % (part.k, part.capacity, part.used)
    table = part.records[t - 1]
    numbers = [t, table.net, table.u] + table.inputs[: table.u]
    return b"".join(b"%6d" % n for n in numbers) + b"%21d\n" % table.truth


def written(part, text_of, exists, buffer, place):
    """20, then 15, then 14, each leaving the buffer alone; or the text's count of bytes, with the text from the place on."""
    if not sound(part):
        return -20, buffer
    if not exists:
        return -15, buffer
    text = text_of()
    if place > len(buffer) or len(buffer) - place < len(text):
        return -14, buffer
    return len(text), buffer[:place] + text + buffer[place + len(text) :]


def write_line(part, t, buffer, place):
    return written(part, lambda: line(part, t), t <= part.used, buffer, place)


def write_list(part, buffer, place):
    return written(part, lambda: whole_list(part), True, buffer, place)


def least(k, gates):
    """The least number of tables of a tree, from all the keys of each of its gates."""
    keys = []
    for _, _, *fanins in gates:
        below = [COVER.tree(k, 1) if is_net(code) else keys[code - SHEET.FIRST_GATE] for code in map(abs, fanins)]
        keys.append(COVER.reached(k, below))
    return min(COVER.decode(keys[-1]))[0] + 1


class Mapped:
    """A sheet's joined tree with its cover, where 01 leaves no freedom but the order of branches, which is here the sheet's. Its tables
    stand in the part after the used ones."""

    def __init__(self, k, used, gates):
        self.gates = gates
        self.cover = SETTLED.settled(k, gates, least(k, gates))
        self.codes = {group: CODES + used + t for t, group in enumerate(self.cover, 1)}

    def operands(self, group):
        """What stands in a group: groups of its gate that are tables, and its other fanins, each with its inversion."""
        gate, places = group
        tables = SETTLED.outermost([other for of, other in self.cover if of == gate and other < places])
        yield from (((gate, table), False) for table in tables)
        for place in places.difference(*tables):
            fanin = self.gates[gate][2 + place]
            lower = abs(fanin) - SHEET.FIRST_GATE
            yield abs(fanin) if is_net(abs(fanin)) else (lower, frozenset(range(self.gates[lower][1]))), fanin < 0

    def code(self, operand):
        """What a table reads for an operand: a net, or a table; None for a group that it holds."""
        return self.codes.get(operand, None if isinstance(operand, tuple) else operand)

    def inputs(self, group):
        for operand, _ in self.operands(group):
            yield from [self.code(operand)] if self.code(operand) else self.inputs(operand)

    def value(self, group, given):
        values = []
        for operand, inverted in self.operands(group):
            code = self.code(operand)
            values.append((given[code] if code else self.value(operand, given)) != inverted)
        return all(values) if self.gates[group[0]][0] == AND else any(values)


def tables(k, used, lines):
    """The records of a sheet that was read, without levels, for a part with some tables already. The list of a record's inputs is padded
    with zeros."""
    (out, _), *gates = lines
    mapped = Mapped(k, used, JOIN.joined(gates))
    records = []
    for group in mapped.cover:
        codes = sorted(mapped.inputs(group))
        root = group == mapped.cover[-1]
        truth = 0
        for i in range(2 ** len(codes)):
            given = {code: bool(i >> j & 1) for j, code in enumerate(codes)}
            truth += (mapped.value(group, given) != (root and out < 0)) << i
        records.append(Record(abs(out) if root else 0, len(codes), (codes + [0] * 6)[:6], truth))
    assert values_as_drawn(lines, records, used)
    return records


class Fastest:
    """Request 107: a sheet's joined tree with the only cover of those of the least root level, "given the levels of the nets that its leaves
    read", that has the fewest tables. The papers leave the order of its branches open, which is here the sheet's."""

    def __init__(self, part, lines):
        levels = {record.net: record.level for record in part.records[: part.used] if record.net}
        self.k, self.lines, self.sheet = part.k, lines, FAST.Sheet(part.k, lines, levels)
        self.number = self.sheet.number

    def tables(self, used):
        """As `tables` gives them."""
        out, _ = self.lines[0]
        (cover,) = FAST.fastest_covers(self.k, self.sheet)
        codes = {group: CODES + used + t for t, group in enumerate(cover.groups, 1)}
        records = []
        for group in cover.groups:
            root = group == cover.groups[-1]
            inputs, truth = cover.table(group, codes, root and out < 0)
            records.append(Record(abs(out) if root else 0, len(inputs), (inputs + [0] * 6)[:6], truth))
        assert values_as_drawn(self.lines, records, used)
        return records


def drawn_value(lines, given):
    """The value of a sheet's output net, given those of its leaves."""
    (out, _), *gates = lines
    values = dict(given)
    for gate, (kind, _, *fanins) in enumerate(gates, SHEET.FIRST_GATE):
        read = [values[abs(fanin)] != (fanin < 0) for fanin in fanins]
        values[gate] = all(read) if kind == AND else any(read)
    return values[gate] != (out < 0)


def mapped_value(records, used, given):
    """What the last of some tables gives, which stand after the used ones."""
    values = dict(given)
    for code, record in enumerate(records, CODES + used + 1):
        row = sum(values[read] << j for j, read in enumerate(record.inputs[: record.u]))
        values[code] = bool(record.truth >> row & 1)
    return values[code]


def values_as_drawn(lines, records, used):
    """ "Values are still those of the sheet as drawn": tried at every setting of the leaves, where these are twelve at most."""
    leaves = [abs(fanin) for _, _, *fanins in lines[1:] for fanin in fanins if is_net(abs(fanin))]
    settings = itertools.product([False, True], repeat=len(leaves)) if len(leaves) <= 12 else []
    given = (dict(zip(leaves, setting)) for setting in settings)
    return all(drawn_value(lines, values) == mapped_value(records, used, values) for values in given)


def refuse(number, condition):
    """A refusal that names no place: place 0."""
    if condition:
        raise SHEET.Refused(number, 0)


def answered(call):
    """A call that alters its part, or refuses and alters nothing, with its answer: 0 and 0, or minus the number and the place."""

    @functools.wraps(call)
    def answer(*given):
        try:
            call(*given)
        except SHEET.Refused as refused:
            number, place = refused.args
            return -number, place
        return 0, 0

    return answer


def read_sheet(text):
    """The lines of the sheet that a text is, the output net without its sign, or the sheet's refusal."""
    lines, _ = SHEET.read(text, 0, True)
    return lines, abs(lines[0][0])


def unclaimed(part, net):
    """21 and 22, of the net that a sheet drives."""
    in_use = part.records[: part.used]
    refuse(21, any(table.net == net for table in in_use))
    refuse(22, any(net in table.inputs[: table.u] for table in in_use))


def number_needed(part, lines, left):
    """The least number of a sheet that was read, where 21 to 23 do not turn it down: "in order"."""
    (out, _), *gates = lines
    unclaimed(part, abs(out))
    number = least(part.k, JOIN.joined(gates))
    refuse(23, number > left)
    return number


def take(part, lines):
    """A sheet's tables, put after the old ones, and the levels."""
    put(part, tables(part.k, part.used, lines))


def put(part, records):
    """Records put after the old ones, and the levels."""
    for record in records:
        part.records[part.used] = record
        part.used += 1
    in_use = part.records[: part.used]
    for record, level in zip(in_use, levels(in_use)):
        record.level = level


@answered
def add(part, text):
    """01, "Turned down because of the part": 20, then the sheet's, then 21 to 23."""
    refuse(20, not sound(part))
    lines, _ = read_sheet(text)
    number_needed(part, lines, part.left())
    take(part, lines)


@answered
def add_fast(part, text):
    """Request 107: an add of "a cover whose root level is least"; "23 compares that number"."""
    refuse(20, not sound(part))
    lines, net = read_sheet(text)
    unclaimed(part, net)
    sheet = Fastest(part, lines)
    refuse(23, sheet.number > part.left())
    put(part, sheet.tables(part.used))


@answered
def reserve(part, text):
    """Request 109: 35 "comes right after 20"; then "every check of an add", and it "sets aside its least number"."""
    refuse(20, not sound(part))
    refuse(35, part.reserved > 0)
    lines, net = read_sheet(text)
    part.reserved, part.reserved_net = number_needed(part, lines, part.left()), net


def close(part):
    part.reserved, part.reserved_net = 0, 0


@answered
def commit(part, text):
    """Request 109: 36 right after 20 or, "for the net, right before 21"; "every check of an add afresh, may use the tables set aside, and
    closes the hold"."""
    refuse(20, not sound(part))
    refuse(36, part.reserved == 0)
    lines, net = read_sheet(text)
    refuse(36, net != part.reserved_net)
    number_needed(part, lines, part.left() + part.reserved)
    take(part, lines)
    close(part)


@answered
def withdraw(part):
    """Request 109: 20, then 36 "with none open"; "a withdrawal closes it too"."""
    refuse(20, not sound(part))
    refuse(36, part.reserved == 0)
    close(part)


def add_set(part, text, lengths):
    """Request 106: 20, then 33, then each sheet "as if those before it had been added". The answer, the place and the sheet's position,
    and the part handed back: "all of them in a part or none"."""
    if not sound(part):
        return (-20, 0, 0), part
    if not 1 <= len(lengths) <= SHEETS or sum(lengths) != len(text):
        return (-33, 0, 0), part
    added, start = copy.deepcopy(part), 0
    for position, length in enumerate(lengths, 1):
        number, place = add(added, text[start : start + length])
        if number != 0:
            return (number, place, position), part
        start += length
    return (0, 0, 0), added


def whole_list(part):
    return b"".join(line(part, t) for t in range(part.used + 1))


def shown_list(part):
    """What CASES.md has of a list: all of it, or of a long one the lines 0 to 3 and the last."""
    if part.used <= 16:
        return whole_list(part)
    return b"".join(line(part, t) for t in (0, 1, 2, 3, part.used))


def levels_in_use(part):
    """The levels of the records in use, whatever the part holds."""
    return [record.level for record in part.records[: part.used]]


def row_of(numbers):
    """A line of the output, in fields of six."""
    return b"".join(b"%6d" % number for number in numbers) + b"\n"


def line_of_levels(part):
    """The line that step 11 prints, and list_reader_test after a list."""
    return row_of(levels_in_use(part))


def data_file(argument):
    """The bytes of the file that an argument names."""
    return (CRATE / "data" / (CRATE / "args").read_text().split("\n")[argument - 1]).read_bytes()


def run_length(numbers, step):
    """How many numbers at the front rise by that step."""
    return next((i for i, n in enumerate(numbers) if n != numbers[0] + step * i), len(numbers))


def told(numbers):
    """How CASES.md has levels: 1x800 for a run of one number and 1..51 for a run that rises by one, from three on; none for no level."""
    words = []
    while numbers:
        same, rising = run_length(numbers, 0), run_length(numbers, 1)
        if same >= 3:
            word, taken = f"{numbers[0]}x{same}", same
        elif rising >= 3:
            word, taken = f"{numbers[0]}..{numbers[rising - 1]}", rising
        else:
            word, taken = str(numbers[0]), 1
        words.append(word)
        numbers = numbers[taken:]
    return " ".join(words) or "none"


def set_fields(part, step, given):
    """The steps that set fields of the part."""
    if step == 1:
        part.k = given[0]
    elif step == 2:
        part.capacity = given[0]
    elif step == 3:
        part.used = given[0]
    elif step == 4:
        t, net, u, *inputs, truth, level = given
        part.records[t - 1] = Record(net, u, inputs, truth, level)
    elif step == 5:
        part.records[given[0] - 1].truth = 2**64 - 1
    elif step == 6:
        for t in range(given[0]):
            part.records[t] = Record(0, 2, (1, 2, 0, 0, 0, 0), 8, 1)
    elif step == 12:
        part.records[given[0] - 1].level = given[1]
    elif step == 15:
        part.reserved = given[0]
    elif step == 16:
        part.reserved_net = given[0]


def called(part, step, given, lengths):
    """An add, a set, a reservation, a commit or a withdrawal: its answer, and the part handed back."""
    if step == 19:
        return withdraw(part), part
    text = data_file(given[0])
    if step == 14:
        return add_set(part, text, lengths)
    return {10: add, 17: reserve, 18: commit, 21: add_fast}[step](part, text), part


def listed(part):
    """The list, where the part is sound."""
    return whole_list(part) if sound(part) else b""


def run(script):
    """The steps that the head of crates/part_test/src/main.rt lists. Gives the output, the answers with the script's lines, but for
    accepted openings, and each list that a call changed."""
    part, lengths, output, answers, lists = Part(), [], b"", [], b""
    for at, row in enumerate(script.splitlines(), 1):
        assert len(row) == COLUMNS * FIELDS, f"line {at} is not twelve fields"
        step, *given = (int(row[i : i + COLUMNS]) for i in range(0, len(row), COLUMNS))
        set_fields(part, step, given)
        answer, buffer = None, None
        if step == 0:
            answer, part = opened(given[0], given[1])
        elif step == 7:
            answer = int(sound(part))
        elif step == 8:
            answer, buffer = write_line(part, given[0], b"." * min(given[1], BUFFER), given[2])
        elif step == 9:
            answer, buffer = write_list(part, b"." * min(given[0], BUFFER), given[1])
        elif step == 11:
            output += line_of_levels(part)
            answers.append((at, told(levels_in_use(part))))
        elif step == 13:
            times, low, high = given[:3]
            lengths = (lengths + [low + 65536 * high] * times)[:LENGTHS]
        elif step == 20:
            output += row_of(part.reservation())
            answers.append((at, *part.reservation()))
        elif step in (10, 14, 17, 18, 19, 21):
            before = listed(part)
            result, part = called(part, step, given, lengths)
            lengths = [] if step == 14 else lengths
            rows = [result] if step in (10, 14, 21) else [result, part.reservation()]
            output += b"".join(map(row_of, rows)) + listed(part)
            answers.append((at, *itertools.chain(*rows)))
            lists += shown_list(part) if listed(part) != before else b""
        if answer is not None:
            output += b"%6d\n" % answer
            if (step, answer) != (0, 0):
                answers.append((at, answer))
        if buffer is not None:
            output += buffer + b"\n"
    return output, answers, lists


if __name__ == "__main__":
    output, answers, lists = run(sys.stdin.buffer.read())
    if sys.argv[1:] == ["--answers"]:
        for answer in answers:
            print(*answer)
    else:
        sys.stdout.buffer.write(lists if sys.argv[1:] == ["--lists"] else output)
