"""The expected output of the program records_test: the first bad record of a run, as the user's scope paper (01, "Part") has it. The rules
and the levels are those of model.py.

Run: python3 tests/part/runs.py > crates/records_test/stdout
"""

import pathlib

from model import Record, opened, sound_tables

CRATE = pathlib.Path(__file__).parents[2] / "crates/records_test"


def first_bad(k, capacity, tables):
    """The first record at which the run up to and including it breaks a rule or is longer than the capacity; 0 for none."""
    refused, _ = opened(k, capacity)
    if refused:
        return refused
    for n in range(1, len(tables) + 1):
        if n > capacity or not sound_tables(tables[:n], k):
            return n
    return 0


for name in (CRATE / "args").read_text().split("\n")[:-1]:
    head, *rows = ([int(word) for word in line.split()] for line in (CRATE / "data" / name).read_text().splitlines())
    tables = [Record(net, u, inputs, truth, level) for net, u, *inputs, truth, level in rows]
    print(f"{name}\n{first_bad(*head, tables):6}")
