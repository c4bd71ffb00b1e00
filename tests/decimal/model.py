"""The expected output of the program decimal_test: fields of six columns as the user's scope paper (01, "Sheet") has them, words, which
are numbers in columns without a minus sign and below 2^64, and numbers written right-justified, from the paper alone.

Run: python3 tests/decimal/model.py > crates/decimal_test/stdout
"""

import pathlib
import re
import sys

FIELDS = pathlib.Path(__file__).parents[2] / "crates/decimal_test/data/fields"
NUMBER = re.compile(rb" *(-?[1-9][0-9]*|0)")  # blanks, an optional minus sign, digits without leading zeros, and no "-0"
WORD = re.compile(rb" *([1-9][0-9]*|0)")
WRITTEN = [  # the columns of a field and the number for it, as crates/decimal_test/src/main.rt has them
    (6, 0), (6, 7), (6, 999999), (6, 1000000),
    (21, 2**64 - 1), (20, 2**64 - 1), (19, 2**64 - 1), (0, 0), (23, 5), (24, 5),
    (6, -1), (6, 0), (6, 5), (6, -99999), (6, -100000), (11, -(2**31)), (1, -1), (24, -1),
]  # fmt: skip
LINE, PLACE = 24, 1


def read(field):
    number = NUMBER.fullmatch(field)
    if len(field) != 6 or not number:
        return b"no number"
    return number[1].replace(b"-", b"minus ")


def read_word(field):
    number = WORD.fullmatch(field)
    return b"word " + number[1] if number and int(number[1]) < 2**64 else b"no word"


def write(width, number):
    digits = b"%d" % number
    if len(digits) > width or PLACE + width > LINE:
        return b"." * LINE + b" too wide"
    return (b"." * PLACE + digits.rjust(width)).ljust(LINE, b".") + b" done"


lines = [b"[%s] %s, %s" % (field, read(field), read_word(field)) for field in FIELDS.read_bytes().split(b"\n")[:-1]]
lines += [write(width, number) for width, number in WRITTEN]
sys.stdout.buffer.write(b"".join(line + b"\n" for line in lines))
