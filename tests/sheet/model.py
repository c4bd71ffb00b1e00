"""The expected output of the program sheet_test: the reading of a sheet as the user's scope paper (01) has it in "Sheet" and "Turned
down because of the input", with the nets and codes of request 102, from the papers alone.

Run: python3 tests/sheet/model.py > crates/sheet_test/stdout
"""

import pathlib
import re
import sys

CRATE = pathlib.Path(__file__).parents[2] / "crates/sheet_test"
NUMBER = re.compile(rb" *(-?[1-9][0-9]*|0)")  # blanks, an optional minus sign, digits without leading zeros, and no "-0"
NETS = 9999
FIRST_GATE = 10001


class Refused(Exception):
    """01's number, and the sheet's line."""


def fields(text, at, line):
    """The numbers of the line that begins at a place, one to twelve, and the place after it."""
    end = text.find(b"\n", at)
    columns = text[at:end]
    cut = [columns[i : i + 6] for i in range(0, len(columns), 6)]
    if end < 0 or not 1 <= len(cut) <= 12:
        raise Refused(1, line)
    if not all(len(field) == 6 and NUMBER.fullmatch(field) for field in cut):
        raise Refused(1, line)
    return [int(field) for field in cut], end + 1


def read(text, at, whole):
    """The lines of the sheet that begins at a place, as numbers, and the place after it. A whole text ends there."""
    head, at = fields(text, at, 1)
    if len(head) != 2:
        raise Refused(1, 1)
    out, gates = head
    if not 1 <= abs(out) <= NETS:
        raise Refused(4, 1)
    if not 1 <= gates <= 255:
        raise Refused(5, 1)
    lines, leaves, gates_read = [head], set(), set()
    for gate in range(1, gates + 1):
        numbers, at = fields(text, at, gate + 1)
        if len(numbers) < 2:
            raise Refused(1, gate + 1)
        kind, count, *fanins = numbers
        if kind not in (1, 2):
            raise Refused(6, gate + 1)
        if not 2 <= count <= 10:
            raise Refused(7, gate + 1)
        if len(fanins) != count:
            raise Refused(1, gate + 1)
        for code in map(abs, fanins):
            if 1 <= code <= NETS:
                if code in leaves:
                    raise Refused(10, gate + 1)
                if code == abs(out):
                    raise Refused(11, gate + 1)
                if len(leaves) == 256:
                    raise Refused(12, gate + 1)
                leaves.add(code)
            elif FIRST_GATE <= code < FIRST_GATE + gate - 1:
                if code in gates_read:
                    raise Refused(9, gate + 1)
                gates_read.add(code)
            else:
                raise Refused(8, gate + 1)
        lines.append(numbers)
    if whole and at < len(text):
        raise Refused(1, gates + 2)
    for gate in range(1, gates):
        if FIRST_GATE + gate - 1 not in gates_read:
            raise Refused(13, gate + 1)
    return lines, at


def show(numbers):
    """Each number with its sign in a column of its own before six others."""
    return b"".join(b"%s%6d" % (b"-" if n < 0 else b" ", abs(n)) for n in numbers) + b"\n"


def case(name):
    """One sheet, or two where the name begins with "+"; a refused sheet leaves the place where it was."""
    text, output, at = (CRATE / "data" / name).read_bytes(), b"", 0
    two = name.startswith("+")
    for _ in range(2 if two else 1):
        try:
            lines, at = read(text, at, not two)
            output += b"".join(map(show, lines))
        except Refused as refused:
            number, line = refused.args
            output += show([-number, line])
    return output


if __name__ == "__main__":
    for name in (CRATE / "args").read_text().split("\n")[:-1]:
        sys.stdout.buffer.write(name.encode() + b"\n" + case(name))
