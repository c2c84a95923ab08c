"""The books and steps that are measured. The same bytes everywhere: random numbers are drawn by a generator of our own.

    workloads.py FOLDER     writes FOLDER/NAME/rules.bk and FOLDER/NAME/steps.bk for each workload

A workload is a `Workload`: a name, a book, steps. `named()` are those of the table, `dearest()` the single steps that cost most, `growth()` the series in which one
size is doubled at a time.
"""

import os
import sys
from collections import namedtuple

HERE = os.path.dirname(os.path.abspath(__file__))
sys.path.insert(0, os.path.join(HERE, "..", "tests", "reference"))

from generate import COND, END, LIST, TOP, constant, gap, position, rule, step  # noqa: E402

Workload = namedtuple("Workload", "name book steps")
Point = namedtuple("Point", "size workload")

LINE, COLUMN, VALUE = 0, 1, 2
EQUAL, NOT_EQUAL, LESS, AT_MOST, GREATER, AT_LEAST = range(6)

# SHA-256 of rules.bk and steps.bk: they hold this generator to the workloads that earlier numbers were measured with.
BOOK_A_SUM = "f4fef7159f7751f91432d208d1619d4f78f14e6664b6d96701ddb607439ee272"
FILES = {
    "booka-doc": (BOOK_A_SUM, "d53cbf91d80a8fab59557a40247e5fc442717d44dbec01fdcc42dc389f0b160b"),
    "booka": (BOOK_A_SUM, "4692920adb5c0f6befb6645e5c449a0a60ab5cf8162e1993ff8cafe3955e01af"),
    "logbook": ("3aba0883ba11914044d31288dcc115ad3d96e74de7e3b855b8145d6e349d6e03", "ef1ea1feb3a9b3490e483f60d2bb4afa33d4dffb037150e2eba02b8fa8271511"),
    "dense": ("2c82a6ab4af8aead16e1ef3fffa9b58d419ddb8c3eaa2cb53acf3708c6819928", "f4c8b39a32c97a2f8caa297a3ea2201bd1a61e8285d7e5acc96579be0955b9bd"),
}

# SHA-256 of what a right program prints.
OUTPUTS = {
    "booka-doc": "7358df20b6f229b7b8ca9280197db5118792a493fa412a061fc704cbf5cad944",
    "booka": "8fc12beb2f57a8b8c1eafec462368277705d43ece974e7d6d6a408989aba45a8",
    "logbook": "3d1d5309fbf238ddf9ff19840299147a97cbdf891941e9b24ced40e29f8f75d0",
    "dense": "54cfcc28e0b11b26891a640a9cbb36523ed8afd593697053c71c671b0d0224c6",
    "dear-gaps": "890eeeea2ddaab2ecf9e2108dbfdfedab53e82370d8cdbedb1928f31586dc531",
    "dear-apart": "890eeeea2ddaab2ecf9e2108dbfdfedab53e82370d8cdbedb1928f31586dc531",
    "six-free": "0a7fd92f0651035e29808e954c7e7fdc31d26025f62203db3d659167c83ac6df",
}


class Draws:
    """Random numbers by xorshift64* (Marsaglia, Vigna); `below(n)` scales the low half of the product."""

    def __init__(self, seed):
        self.state = seed * 0x9E3779B97F4A7C15 % 2**64

    def below(self, n):
        x = self.state
        x ^= x >> 12
        x ^= x << 25 & 2**64 - 1
        x ^= x >> 27
        self.state = x
        low_half = x * 0x2545F4914F6CDD1D % 2**32
        return low_half * n >> 32

    def one_in(self, n):
        return self.below(n) == 0


class Steps:
    """Steps as they are written down; `changes` counts additions and removals, refused ones too."""

    def __init__(self):
        self.records = []
        self.present = set()
        self.changes = 0

    def add(self, reading):
        self.records.append(step(1, reading))
        self.changes += 1
        self.present.add(reading)

    def remove(self, reading):
        self.records.append(step(2, reading))
        self.changes += 1
        self.present.discard(reading)

    def list(self):
        self.records.append(LIST)

    def bytes(self):
        return b"".join(self.records)


# ------------------------------------------------------------------ books

def book(*rules):
    """Each rule is a number, a wording and its conditions; a condition is a list of tests."""
    parts = []
    for number, wording, conditions in rules:
        parts.append(rule(number, wording.encode()))
        for tests in conditions:
            parts.append(COND + b"".join(tests))
    return b"".join(parts) + END


def column(c):
    return constant(COLUMN, EQUAL, c)


def line_below(condition):
    return gap(LINE, condition, LINE, 1, 1)


def rises(condition, least):
    return gap(VALUE, condition, VALUE, least, TOP)


BOOK_A = book((7, "jump over 500", [[column(3)], [column(3), line_below(0), rises(0, 500)]]))
BOOK_B = book((1, "any two", [[], []]))


def logbook_rules():
    """24 rules over eight columns: wording and conditions. Most of them join a cell with the one above it."""
    for c in range(1, 9):
        yield "column %d jump" % c, [[column(c)], [column(c), line_below(0), rises(0, 500 if c < 7 else 4000)]]
    for c in (1, 2, 3):
        yield "counter %d falls" % c, [[column(c)], [column(c), line_below(0), position(VALUE, LESS, 0, VALUE)]]
    for c in (4, 5, 6):
        yield "column %d as above" % c, [[column(c)], [column(c), line_below(0), position(VALUE, EQUAL, 0, VALUE), constant(VALUE, NOT_EQUAL, 0)]]
    for c in (5, 6):
        still = position(VALUE, EQUAL, 0, VALUE)
        yield "column %d stands still" % c, [[column(c)], [column(c), line_below(0), still], [column(c), line_below(1), still]]
    for c in (7, 8):
        yield "column %d spike" % c, [[column(c)], [column(c), line_below(0), rises(0, 1500)], [column(c), line_below(1), gap(VALUE, 1, VALUE, -TOP, -1500)]]
    same_line = position(LINE, EQUAL, 0, LINE)
    yield "two readings of one cell", [[], [same_line, position(COLUMN, EQUAL, 0, COLUMN), position(VALUE, GREATER, 0, VALUE)]]
    yield "out below in", [[column(1)], [column(2), same_line, position(VALUE, LESS, 0, VALUE)]]
    yield "sum row too small", [[column(1)], [column(2), same_line], [column(3), same_line, gap(VALUE, 1, VALUE, -TOP, -1)]]
    yield "over the scale", [[constant(COLUMN, AT_LEAST, 7), constant(VALUE, GREATER, 9000)]]
    yield "blank taken for zero", [[constant(VALUE, EQUAL, 0), constant(COLUMN, NOT_EQUAL, 8)]]
    yield "line 0", [[constant(LINE, EQUAL, 0)]]


LOGBOOK = book(*((10 * (i + 1), wording, conditions) for i, (wording, conditions) in enumerate(logbook_rules())))


# ------------------------------------------------- the workloads of the table

def booka_doc():
    """The eight steps that are printed with Book A in the program's description."""
    s = Steps()
    s.add((12, 3, 140))
    s.add((13, 3, 710))
    s.list()
    s.add((13, 3, 710))
    s.add((13, 3, 110))
    s.remove((13, 3, 710))
    s.list()
    s.remove((13, 3, 710))
    return Workload("booka-doc", BOOK_A, s.bytes())


def booka():
    """200 lines of one column; a thousand times one value is corrected."""
    draws, s, value = Draws(7), Steps(), {}
    for line in range(1, 201):
        value[line] = draws.below(1200)
        s.add((line, 3, value[line]))
    for _ in range(1000):
        line = 1 + draws.below(200)
        s.remove((line, 3, value[line]))
        value[line] = draws.below(1200)
        s.add((line, 3, value[line]))
        if draws.one_in(100):
            s.list()
    s.list()
    return Workload("booka", BOOK_A, s.bytes())


def dense():
    """Every pair matches: 44 readings are 44 + 44 * 44 tokens, nearly the limit."""
    draws, s, have = Draws(3), Steps(), []
    for i in range(44):
        have.append((1 + i // 8, 1 + i % 8, draws.below(1000)))
        s.add(have[i])
    for _ in range(500):
        i = draws.below(44)
        line, col, value = have[i]
        s.remove(have[i])
        have[i] = (line, col, (value + 1 + draws.below(900)) % 1000)
        s.add(have[i])
    s.list()
    return Workload("dense", BOOK_B, s.bytes())


class Page:
    """A page of 30 lines and 8 columns while a shift writes, corrects and turns it. The order in which numbers are drawn fixes the bytes."""

    def __init__(self, draws):
        self.draws = draws
        self.steps = Steps()
        self.cell = {}            # (line, column): the reading that the page shows
        self.seconds = []         # second readings of cells
        self.written = {}         # column: the last number the clerk wrote
        self.first, self.end = 1, 1

    def number(self, c):
        """What the clerk writes in column c, and what the scanner makes of it."""
        draws, n = self.draws, self.written.get(c, 100 * c)
        if c <= 3:                                    # counters
            n += draws.below(40)
        elif c > 6:                                   # gauges
            n = 1000 + draws.below(3000)
        elif not draws.one_in(3):                     # settings, often left as they are
            n = 200 + draws.below(300)
        self.written[c] = n
        if draws.one_in(25):
            n += (500, 600, 5000)[draws.below(3)]
        return 0 if draws.one_in(90) else n

    def write_line(self):
        for c in range(1, 9):
            at = (self.end, c)
            self.cell[at] = at + (self.number(c),)
            self.steps.add(self.cell[at])
        self.end += 1

    def some_cell(self):
        line = self.first + self.draws.below(self.end - self.first)
        return line, 1 + self.draws.below(8)

    def turn(self):
        """The oldest line leaves the page, with its second readings, and a new one is written."""
        for c in range(1, 9):
            self.steps.remove(self.cell.pop((self.first, c)))
        for reading in [r for r in self.seconds if r[0] == self.first]:
            self.steps.remove(reading)
            self.seconds.remove(reading)
        self.write_line()
        self.first += 1

    def correct(self):
        at = self.some_cell()
        old = self.cell[at]
        self.steps.remove(old)
        if at[1] < 7:
            new = at + ((old[2] + self.draws.below(200) + 801) % 900 + 40,)
        else:
            new = at + (1000 + self.draws.below(3500),)
        self.cell[at] = old if new in self.steps.present else new
        self.steps.add(self.cell[at])

    def read_again(self):
        at = self.some_cell()
        second = at + (self.cell[at][2] + 600,)
        if second not in self.steps.present and len(self.seconds) < 15:
            self.steps.add(second)
            self.seconds.append(second)

    def withdraw_second(self):
        if self.seconds:
            self.steps.remove(self.seconds.pop(self.draws.below(len(self.seconds))))

    def event(self):
        k = self.draws.below(100)
        if k < 4:
            self.turn()
        elif k < 70:
            self.correct()
        elif k < 85:
            self.read_again()
        elif k < 97:
            self.withdraw_second()
        elif k == 97:
            self.steps.add(self.cell[self.first, 1])      # present: refused
        elif k == 98:
            self.steps.remove((self.end, 9, 9))           # not present: refused
        else:
            self.steps.list()


def logbook():
    page = Page(Draws(1))
    for _ in range(30):
        page.write_line()
    filled = page.steps.changes
    while page.steps.changes - filled < 6000:
        page.event()
    page.steps.list()
    return Workload("logbook", LOGBOOK, page.steps.bytes())


def named():
    return [booka(), logbook(), dense()]


# --------------------------------------------------- the dearest single step

FIRST_VALUE = 10000


def dearest_book(failing):
    """Eight rules of three conditions; `failing` are the eight tests of the third.

    The first condition is passed by the last reading to come alone, the second by all readings (in the eighth rule by 241), the third by none, and only its last
    test says so. Openings differ from rule to rule, so that nothing can be shared. The last addition makes 7 * (1 + 256) + 1 + 241 = 2,041 tokens, of 2,048 that
    the limit allows, and offers each of those that end at the second condition to all 256 readings.
    """
    rules = []
    for i in range(8):
        second = [constant(LINE, AT_LEAST, 15)] if i == 7 else []
        rules.append((i + 1, "dear %d" % i, [[constant(LINE, AT_LEAST, 290 + i)], second, failing]))
    return book(*rules)


def dearest_steps():
    """All readings stand in one column, and no line is a value."""
    s = Steps()
    for i in range(255):
        s.add((i, 5, FIRST_VALUE + i))
    s.add((300, 5, FIRST_VALUE + 300))
    s.remove((300, 5, FIRST_VALUE + 300))
    s.list()
    return s.bytes()


def dearest():
    """Eight gaps, which a matcher may draw together to one range for each place, and eight inequalities, which it cannot. Other choices of eight tests, and rules of
    six conditions, were tried: they move the cost by a few percent."""
    far, places = 1000000, (LINE, COLUMN, VALUE)
    gaps = [gap(p, 0, p, -far, TOP) for p in places] + [gap(p, 1, p, -TOP, far) for p in places]
    gaps += [gap(VALUE, 0, LINE, -far, TOP), gap(VALUE, 1, VALUE, far, TOP)]
    apart = [position(p, NOT_EQUAL, c, q) for c in (0, 1) for p, q in ((LINE, VALUE), (VALUE, LINE), (COLUMN, VALUE))]
    apart += [position(VALUE, NOT_EQUAL, 0, COLUMN), position(COLUMN, NOT_EQUAL, 1, COLUMN)]
    return [Workload("dear-gaps", dearest_book(gaps), dearest_steps()),
            Workload("dear-apart", dearest_book(apart), dearest_steps()),
            Workload("six-free", book((1, "any six", [[]] * 6)), six_free_steps())]


def six_free_steps():
    """Six conditions without tests: a third reading makes 966 tokens, 665 of them complete; a fourth would pass the limit."""
    s = Steps()
    for value in (1, 2, 3):
        s.add((1, 1, value))
    s.remove((1, 1, 3))
    s.list()
    return s.bytes()


# ------------------------------------------------------------------- growth

CHANGES = 32      # corrections in each point of a series; each takes one or two tokens out and brings them back


def correct_in_turn(s, cells):
    """Corrects the cells (line, column, value) in turn: each is taken out and put back with another value, and so on."""
    s.list()      # ends the filling: only what comes after the first list is measured
    for i in range(CHANGES):
        line, col, value = cells[i % len(cells)]
        s.remove((line, col, value))
        cells[i % len(cells)] = (line, col, value + 1000)
        s.add(cells[i % len(cells)])


def pair_rule(number, first, second):
    """A reading of one column and one of another on the line below."""
    return number, "pair %d" % number, [[column(first)], [column(second), line_below(0)]]


def more_readings(n):
    """n readings; 8 of column 1 and the others of column 2, of which 8 have a partner: always 16 tokens."""
    s = Steps()
    for line in range(8):
        s.add((line, 1, line))
    for line in range(1, n - 7):
        s.add((line, 2, line))
    correct_in_turn(s, [(line, 1, line) for line in range(8)] + [(line, 2, line) for line in range(1, 9)])
    return Workload("readings-%d" % n, book(pair_rule(1, 1, 2)), s.bytes())


# Sizes a, b with a * (1 + b) tokens of a rule that pairs a readings with any of b others; 16 more tokens are the second rule's.
PAIRED = {64: (6, 7), 128: (8, 13), 256: (15, 15), 512: (16, 30), 1024: (28, 35), 2048: (16, 126)}


def more_tokens(n):
    """200 readings; n tokens, of which a step changes two."""
    a, b = PAIRED[n]
    s = Steps()
    for i in range(192):
        s.add((i, 1 if i < a else 2 if i < a + b else 9, i))
    for line in range(8):
        s.add((line, 3, line))
    correct_in_turn(s, [(line, 3, line) for line in range(8)])
    held = (1, "held", [[column(1)], [column(2)]])
    stepped = (2, "stepped", [[column(3)], [column(3), position(LINE, EQUAL, 0, LINE)]])
    return Workload("tokens-%d" % n, book(held, stepped), s.bytes())


def more_rules(n):
    """128 readings, 16 tokens; n rules, of which the first is the one that a step touches."""
    s = Steps()
    for line in range(8):
        s.add((line, 1, line))
        s.add((line + 1, 2, line))
    for i in range(112):
        s.add((i, 9, i))
    correct_in_turn(s, [(line, 1, line) for line in range(8)] + [(line + 1, 2, line) for line in range(8)])
    idle = [pair_rule(k + 1, 100 + k, 100 + k) for k in range(1, n)]
    return Workload("rules-%d" % n, book(pair_rule(1, 1, 2), *idle), s.bytes())


def growth():
    """Series of points: what is doubled, and the workloads."""
    return [
        ("readings present", [Point(n, more_readings(n)) for n in (16, 32, 64, 128, 256)]),
        ("tokens held", [Point(n, more_tokens(n)) for n in sorted(PAIRED)]),
        ("rules in the book", [Point(n, more_rules(n)) for n in (1, 2, 4, 8, 16, 32)]),
    ]


def everything():
    return [booka_doc()] + named() + dearest() + [p.workload for _, points in growth() for p in points]


def write(workload, folder):
    os.makedirs(folder, exist_ok=True)
    for name, data in (("rules.bk", workload.book), ("steps.bk", workload.steps)):
        with open(os.path.join(folder, name), "wb") as file:
            file.write(data)


if __name__ == "__main__":
    if len(sys.argv) != 2:
        sys.exit(__doc__)
    for w in everything():
        write(w, os.path.join(sys.argv[1], w.name))
