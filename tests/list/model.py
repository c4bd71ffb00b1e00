"""The expected output of the program list_reader_test: the reading of a list as requests 101 and 103 (02) have it, over "List" of the
user's scope paper (01), from the papers alone. The rules of a sound part, the levels and the lines of a list are those of
tests/part/model.py. CASES.md has the answers worked out by hand.

Run: python3 tests/list/model.py > crates/list_reader_test/stdout
     python3 tests/list/model.py --answers    (each file's name, and its refusal's number and line, or "good" and the levels)
"""

import importlib.util
import pathlib
import re
import sys

TESTS = pathlib.Path(__file__).parents[1]
CRATE = TESTS.parent / "crates/list_reader_test"
NUMBER = re.compile(rb" *(0|[1-9][0-9]*)")  # blanks, then digits without leading zeros; no sign


def load(path):
    """The program in a file of tests/, as a module."""
    spec = importlib.util.spec_from_file_location(path.replace("/", "_").removesuffix(".py"), TESTS / path)
    module = importlib.util.module_from_spec(spec)
    spec.loader.exec_module(module)
    return module


PART = load("part/model.py")


class Refused(Exception):
    """The number, and the line from 0."""


def numbers(text, widths):
    """The numbers of a text that has one in each of some columns and a line feed after them; None where it is not laid out so."""
    if len(text) != sum(widths) + 1 or text[-1:] != b"\n":
        return None
    starts = [sum(widths[:i]) for i in range(len(widths))]
    fields = [text[start : start + width] for start, width in zip(starts, widths)]
    return [int(field) for field in fields] if all(map(NUMBER.fullmatch, fields)) else None


def table(text, t):
    """The record of line t, without its level, whatever numbers it holds; None where the line is not laid out as the list has it."""
    for u in range(2, 7):
        found = numbers(text, [6] * (3 + u) + [21])
        if found and found[0] == t and found[2] == u and found[-1] < 2**64:
            return PART.Record(found[1], u, (found[3:-1] + [0] * 6)[:6], found[-1])
    return None


def read(text):
    """The part whose list a text is."""
    lines = [line + b"\n" for line in text.split(b"\n")]
    lines[-1] = lines[-1][:-1]  # what follows the last line feed: nothing, or a line that is unended
    head = numbers(lines[0], [6, 6, 6])
    if head is None:
        raise Refused(31, 0)
    k, capacity, used = head
    if not 2 <= k <= 6:
        raise Refused(2, 0)
    if not 1 <= capacity <= 800:
        raise Refused(3, 0)
    if used > capacity:
        raise Refused(32, 0)
    part = PART.Part(k, capacity)
    for t in range(1, used + 1):
        record = table(lines[t], t) if t < len(lines) else None
        if record is None:
            raise Refused(31, t)
        part.records[t - 1] = record
        if not PART.keeps_rules(part.records[:t], k):
            raise Refused(32, t)
    part.used = used
    if any(lines[used + 1 :]):
        raise Refused(31, used + 1)
    in_use = part.records[:used]
    for record, level in zip(in_use, PART.levels(in_use)):  # "the list reader works them out"
        record.level = level
    return part


def case(name):
    """What is printed for a file, and its answer."""
    try:
        part = read((CRATE / "data" / name).read_bytes())
        return PART.whole_list(part) + PART.line_of_levels(part), f"good {PART.told(PART.levels_in_use(part))}"
    except Refused as refused:
        number, line = refused.args
        return b"%6d%6d%6d\n" % (-number, 0, line), f"{number} {line}"


if __name__ == "__main__":
    for name in (CRATE / "args").read_text().split("\n")[:-1]:
        printed, answer = case(name)
        if sys.argv[1:] == ["--answers"]:
            print(name, answer)
        else:
            sys.stdout.buffer.write(name.encode() + b"\n" + printed)
