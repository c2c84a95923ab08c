"""Writes the sample folders: document 01's book A, and a shift's logbook.

    make.py FOLDER      writes FOLDER/book-a and FOLDER/shift

The logbook of a pump house: a line of the sheet is an hour's row, a column a
meter.  Columns 1 to 8: running hours, energy meter, inlet pressure, outlet
pressure, oil temperature, flow meter, tank level, bearing temperature.
"""

import sys
from pathlib import Path

LINE, COLUMN, VALUE = 0, 1, 2
EQUAL, ABOVE, BELOW = 0, 4, 2
TOP = 4294967295

COND, END = b"\x02", b"\x09"


def rule(number, wording):
    return b"\x01" + number.to_bytes(2, "big") + wording.encode().ljust(24)


def constant(place, relation, number):
    return bytes([3, place, relation]) + number.to_bytes(4, "big")


def position(place, relation, condition, other):
    return bytes([4, place, relation, condition, other])


def gap(place, condition, other, low, high):
    return (bytes([5, place, condition, other])
            + low.to_bytes(8, "big", signed=True) + high.to_bytes(8, "big", signed=True))


def column(number):
    """A condition that takes the readings of one column."""
    return COND + constant(COLUMN, EQUAL, number)


def below():
    """.. on the line after that of condition 0."""
    return gap(LINE, 0, LINE, 1, 1)


def rises(low, high):
    """.. by at least low and at most high above condition 0."""
    return gap(VALUE, 0, VALUE, low, high)


def book_a():
    return (rule(7, "jump over 500") + column(3)
            + column(3) + below() + rises(500, TOP) + END)


def logbook():
    return b"".join((
        rule(10, "hours jump over 12"), column(1), column(1), below(), rises(13, TOP),
        rule(11, "hours fall"), column(1), column(1), below(), rises(-TOP, -1),
        rule(20, "energy falls"), column(2), column(2), below(), rises(-TOP, -1),
        rule(21, "energy, no hours"), column(2), column(2), below(), rises(1, TOP),
        column(1) + position(LINE, EQUAL, 0, LINE), column(1) + position(LINE, EQUAL, 1, LINE) + gap(VALUE, 2, VALUE, 0, 0),
        rule(30, "outlet under inlet"), column(3), column(4) + position(LINE, EQUAL, 0, LINE) + gap(VALUE, 0, VALUE, -TOP, 0),
        rule(40, "oil above 95"), column(5) + constant(VALUE, ABOVE, 95),
        rule(41, "oil up 15 in an hour"), column(5), column(5), below(), rises(15, TOP),
        rule(50, "flow meter falls"), column(6), column(6), below(), rises(-TOP, -1),
        rule(60, "level spike"), column(7), column(7) + below() + rises(200, TOP), column(7) + gap(LINE, 1, LINE, 1, 1) + gap(VALUE, 1, VALUE, -TOP, -200),
        rule(90, "two readings of a cell"), COND, COND + position(LINE, EQUAL, 0, LINE) + position(COLUMN, EQUAL, 0, COLUMN) + gap(VALUE, 0, VALUE, 1, TOP),
        END))


def add(*reading):
    return b"\x01" + b"".join(x.to_bytes(4, "big") for x in reading)


def remove(*reading):
    return b"\x02" + b"".join(x.to_bytes(4, "big") for x in reading)


LIST = b"\x03"

# The sheet as it was written in the pump house, hour by hour.
SHEET = [
    #  hours energy  in  out  oil   flow  tank  bearing
    (1, 102, 51200, 180, 420, 71, 88310, 640, 55),
    (2, 103, 51260, 181, 418, 72, 88390, 655, 55),
    (3, 104, 51321, 180, 421, 74, 88471, 661, 56),
    (4, 105, 51380, 179, 419, 75, 88550, 670, 57),
    (5, 106, 51442, 181, 417, 77, 88633, 668, 57),
    (6, 107, 51500, 180, 420, 78, 88714, 659, 58),
    (7, 108, 51561, 182, 422, 79, 88795, 650, 58),
    (8, 109, 51619, 181, 421, 80, 88874, 641, 58),
]

# What the scanner read instead: a 1 as a 7, a 4 as a 1, a 6 as a 9, a 7 as a 9, a 7 as a 1.
MISREAD = {(4, 1): 705, (3, 4): 121, (5, 7): 968, (6, 5): 98, (7, 6): 88195}


def shift():
    steps = b""
    for row in SHEET:
        for meter, value in enumerate(row[1:], 1):
            steps += add(row[0], meter, MISREAD.get((row[0], meter), value))
    steps += LIST
    # The clerk looks at the cells named, and corrects them one by one.
    for (line, meter), wrong in sorted(MISREAD.items()):
        right = SHEET[line - 1][meter]
        steps += add(line, meter, right)
        if (line, meter) == (4, 1):
            steps += LIST
        steps += remove(line, meter, wrong)
    return steps + LIST


def book_a_steps():
    return (add(12, 3, 140) + add(13, 3, 710) + LIST + add(13, 3, 710) + add(13, 3, 110)
            + remove(13, 3, 710) + LIST + remove(13, 3, 710))


def main(words):
    folder = Path(words[0])
    for name, rules, steps in (("book-a", book_a(), book_a_steps()), ("shift", logbook(), shift())):
        (folder / name).mkdir(parents=True, exist_ok=True)
        (folder / name / "rules.bk").write_bytes(rules)
        (folder / name / "steps.bk").write_bytes(steps)


if __name__ == "__main__":
    main(sys.argv[1:])
