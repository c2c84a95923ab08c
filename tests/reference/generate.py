"""Rule books and step files to try a matcher with.

    edge_books()               fixed list of (label, book)
    edge_programs()            fixed list of (label, rules, steps)
    book_cases(seed, count)    list of books
    program_cases(seed, count) list of (rules, steps); None is a file that
                               cannot be opened

The same arguments always give the same lists.  `expected_books()` is the
part of edge_books() whose answers are written down by hand: triples of label,
book and (refusal number, place), or None in place of the pair where the book
is accepted.
"""

import random

from reference import BODY_LENGTH

TOP = 4294967295                      # the largest number of a reading
LOWEST, HIGHEST = -2**63, 2**63 - 1   # the ends of signed 64 bits
LONGEST_CASE = 12000                  # no generated book is longer

# ------------------------------------------------------------- the records


def rule(number, text=b"rule"):
    return b"\x01" + number.to_bytes(2, "big") + text.ljust(24, b" ")


def constant(place, relation, number):
    return bytes([3, place, relation]) + number.to_bytes(4, "big")


def position(place, relation, condition, other):
    return bytes([4, place, relation, condition, other])


def gap(place, condition, other, low, high):
    ends = (low.to_bytes(8, "big", signed=True)
            + high.to_bytes(8, "big", signed=True))
    return bytes([5, place, condition, other]) + ends


COND = b"\x02"
END = b"\x09"
TEST_KINDS = (
    ("constant", constant(1, 0, 3)),
    ("position", position(0, 3, 0, 1)),
    ("gap", gap(2, 0, 1, -5, 5)),
)


def records_of(book):
    """A faultless book as a list of its records."""
    records = []
    place = 0
    while place < len(book):
        after = place + 1 + BODY_LENGTH[book[place]]
        records.append(book[place:after])
        place = after
    return records


def step(kind, reading):
    return bytes([kind]) + b"".join(n.to_bytes(4, "big") for n in reading)


def add(*reading):
    return step(1, reading)


def remove(*reading):
    return step(2, reading)


LIST = b"\x03"


# ------------------------------------------------------ books with a name

def book_a():
    """Document 01's book A."""
    return (rule(7, b"jump over 500")
            + COND + constant(1, 0, 3)
            + COND + constant(1, 0, 3) + gap(0, 0, 0, 1, 1)
            + gap(2, 0, 2, 500, TOP)
            + END)


def book_b():
    """Document 01's book B: two conditions without tests."""
    return free_book(1, 2)


def free_book(rules, conditions):
    """`rules` rules of `conditions` conditions, none with a test."""
    return b"".join(rule(n + 1) + COND * conditions
                    for n in range(rules)) + END


def rich_book():
    """Every kind of record, tests of own and of earlier conditions."""
    return (rule(3, b"  two  words ")
            + COND + constant(0, 5, 1) + constant(2, 1, TOP)
            + position(0, 3, 0, 1) + gap(2, 0, 1, -5, 5)
            + COND + position(1, 0, 0, 1) + gap(0, 0, 0, 1, 1)
            + COND
            + COND + position(2, 4, 1, 2) + gap(2, 2, 2, -TOP, TOP)
            + rule(260, b"~" * 24)
            + COND
            + COND + constant(1, 2, 3)
            + END)


def jump_steps():
    """The steps that document 01 prints for book A."""
    return (add(12, 3, 140) + add(13, 3, 710) + LIST + add(13, 3, 710)
            + add(13, 3, 110) + remove(13, 3, 710) + LIST
            + remove(13, 3, 710))


# ----------------------------------------------- books of a chosen length

def condition_lengths():
    """Length of a condition with its tests -> those bytes."""
    table = {}
    for gaps in range(9):
        for constants in range(9 - gaps):
            for positions in range(9 - gaps - constants):
                tests = (gap(2, 0, 1, -5, 5) * gaps
                         + constant(1, 0, 3) * constants
                         + position(0, 3, 0, 1) * positions)
                table.setdefault(1 + len(tests), COND + tests)
    return table


CONDITION_OF_LENGTH = condition_lengths()
LONGEST_CONDITION = max(CONDITION_OF_LENGTH)


def conditions_of_length(length, count):
    """At most `count` conditions of that length together, or None."""
    if length in CONDITION_OF_LENGTH:
        return CONDITION_OF_LENGTH[length]
    if count < 2 or length <= 1:
        return None
    first = min(LONGEST_CONDITION, length - 1)
    while first >= 1:
        if first in CONDITION_OF_LENGTH:
            rest = conditions_of_length(length - first, count - 1)
            if rest is not None:
                return CONDITION_OF_LENGTH[first] + rest
        first = first - 1
    return None


def book_of_length(length, rules):
    """A book of exactly that length whose records have no fault of their own.

    It has that many rules, all of about the same length.
    """
    book = b""
    for left in range(rules, 0, -1):
        share = (length - 1 - len(book)) // left
        book = (book + rule(rules - left + 1)
                + conditions_of_length(share - 27, 6))
    return book + END


# ------------------------------------- books whose answers stand beside them

def judged(label, before, record, number, after=b""):
    """A book whose record after `before` is at fault with `number`."""
    return (label, before + record + after, (number, len(before)))


def accepted(label, book):
    return (label, book, None)


def printed_books():
    return [
        ("01: no bytes", b"", (2, 0)),
        ("01: 9 9", b"\x09\x09", (4, 1)),
        ("01: 0", b"\x00", (3, 0)),
        ("01: 2", b"\x02", (4, 0)),
        accepted("01: 9", END),
        accepted("01: book A", book_a()),
        accepted("01: book B", book_b()),
        accepted("rich book", rich_book()),
    ]


def kind_books():
    """Each of the 256 bytes where a record begins, four surroundings."""
    books = []
    surroundings = (("first", b""), ("after a rule", rule(5)),
                    ("after a condition", rule(5) + COND))
    for kind in range(256):
        if kind not in BODY_LENGTH:
            for label, before in surroundings:
                books.append(judged("kind %d %s, alone" % (kind, label),
                                    before, bytes([kind]), 3))
                books.append(judged("kind %d %s" % (kind, label), before,
                                    bytes([kind]), 3, b" " * 30 + END))
        for label, before in (("9", END), ("book A", book_a())):
            books.append(judged("byte %d after %s" % (kind, label), before,
                                bytes([kind]), 4))
    for label, record in after_end_records():
        books.append(judged("%s after the end" % label, rich_book(),
                            record, 4))
        books.append(judged("%s and an end after the end" % label, END,
                            record, 4, END))
    return books


def after_end_records():
    return [("rule", rule(300)), ("rule of number 0", rule(0)),
            ("condition", COND), ("end", END),
            ("bad constant", constant(3, 6, 0))] + list(TEST_KINDS)


def length_books():
    """Refusal 1, and the faults that are found only at the far end."""
    books = []
    for rules in (9, 16, 32):
        for length in (8190, 8191, 8192):
            books.append(accepted("%d bytes, %d rules" % (length, rules),
                                  book_of_length(length, rules)))
        just = book_of_length(8192, rules)
        over = book_of_length(8193, rules)
        short = book_of_length(8191, rules)
        label = "%d rules: " % rules
        books.append((label + "8193 bytes", over, (1, 0)))
        books.append((label + "8193 bytes, last after the end",
                      just + END, (1, 0)))
        books.append((label + "8192 bytes, no end", over[:8192], (2, 8192)))
        books.append((label + "8192 bytes, last after the end",
                      short + END, (4, 8191)))
        books.append((label + "8192 bytes, last of kind 0",
                      just[:-1] + b"\x00", (3, 8191)))
        books.append((label + "8192 bytes, last of kind 1",
                      just[:-1] + b"\x01", (2, 8191)))
    books.append(accepted("32 rules, 6 conditions, 7 tests", b"".join(
        rule(n + 1) + (COND + position(0, 0, 0, 0) * 7) * 6
        for n in range(32)) + END))
    for byte, number in ((0, 3), (1, 6), (2, 4), (3, 4), (32, 3), (255, 3)):
        books.append(("8192 bytes of %d" % byte, bytes([byte]) * 8192,
                      (number, 0)))
        books.append(("8193 bytes of %d" % byte, bytes([byte]) * 8193, (1, 0)))
    books.append(("8192 bytes of 9", END * 8192, (4, 1)))
    books.append(("8193 bytes of 9", END * 8193, (1, 0)))
    books.append(("9000 bytes, book A first", book_a() + bytes(8916), (1, 0)))
    books.append(("12000 bytes", bytes(LONGEST_CASE), (1, 0)))
    return books


def rules_with_condition(count, first=1):
    return b"".join(rule(first + n) + COND for n in range(count))


def count_books():
    """At and one past 32 rules, 6 conditions and 8 tests."""
    books = []
    for count in (1, 2, 31, 32):
        books.append(accepted("%d rules" % count,
                              rules_with_condition(count) + END))
    books.append(judged("33 rules", rules_with_condition(32), rule(33), 7,
                        COND + END))
    books.append(judged("33 rules, nothing after", rules_with_condition(32),
                        rule(65535), 7))
    for label, before in (("", b""), (" of the third rule",
                                      rules_with_condition(2))):
        start = before + rule(9)
        for count in range(1, 7):
            books.append(accepted("%d conditions%s" % (count, label),
                                  start + COND * count + END))
        books.append(judged("7 conditions%s" % label, start + COND * 6,
                            COND, 7, END))
        books.append(judged("7 conditions%s, nothing after" % label,
                            start + COND * 6, COND, 7))
    books.append(accepted("6 conditions twice", free_book(2, 6)))
    books.append(accepted("6 conditions 32 times", free_book(32, 6)))
    books.append(judged("7 conditions in the last of 32 rules",
                        free_book(32, 6)[:-1], COND, 7, END))
    return books + test_count_books()


def test_count_books():
    books = []
    for kind, test in TEST_KINDS:
        for index in (0, 1, 5):
            start = rule(9) + COND * (index + 1)
            label = " %s tests in condition %d" % (kind, index)
            for count in (7, 8):
                books.append(accepted("%d%s" % (count, label),
                                      start + test * count + END))
            books.append(judged("9" + label, start + test * 8, test, 7, END))
        books.append(accepted("8 %s tests six times" % kind,
                              rule(9) + (COND + test * 8) * 6 + END))
        for other, ninth in TEST_KINDS:
            mixed = constant(0, 0, 0) * 3 + position(0, 0, 0, 0) * 2
            books.append(judged("9 tests, 8th %s, 9th %s" % (kind, other),
                                rule(9) + COND + mixed + test * 3, ninth, 7))
    return books


def number_books():
    """Refusal 5: the numbers of rules."""
    books = []
    for number in (1, 2, 255, 256, 32767, 32768, 65535):
        books.append(accepted("first rule number %d" % number,
                              rule(number) + COND + END))
    books.append(judged("first rule number 0", b"", rule(0), 5, COND + END))
    for first, second in ((1, 2), (255, 256), (32767, 32768), (1, 65535),
                          (65534, 65535)):
        books.append(accepted("rule numbers %d %d" % (first, second),
                              rule(first) + COND + rule(second) + COND + END))
    for first, second in ((1, 0), (1, 1), (2, 1), (256, 255), (256, 1),
                          (32768, 32767), (65535, 65535), (65535, 1),
                          (65535, 0), (511, 256)):
        books.append(judged("rule numbers %d %d" % (first, second),
                            rule(first) + COND, rule(second), 5, COND + END))
    books.append(judged("third number equal to the first",
                        rule(4) + COND + rule(8) + COND, rule(4), 5))
    books.append(judged("32nd number falls", rules_with_condition(31, 100),
                        rule(130), 5, COND + END))
    return books


def wording_books():
    """Refusal 6: every byte of the wording."""
    books = []
    for before in (b"", rule(2) + COND):
        for at in range(24):
            for byte in (0, 10, 31, 32, 126, 127, 128, 160, 255):
                text = bytearray(b"abcdefghijklmnopqrstuvwx")
                text[at] = byte
                record = rule(3, bytes(text))
                label = "wording byte %d is %d, offset %d" % (at, byte,
                                                             len(before))
                if 32 <= byte <= 126:
                    books.append(accepted(label, before + record + COND + END))
                else:
                    books.append(judged(label, before, record, 6, COND + END))
    return books


def field_books():
    """Refusal 6: places, relations and named conditions of tests."""
    books = []
    for own in (0, 1, 2, 5):
        before = rule(1) + COND * (own + 1)
        for value in (0, 1, 2, 3, 4, 5, 6, 7, 128, 255):
            for label, record, limit in (
                    ("constant place", constant(value, 0, 3), 2),
                    ("constant relation", constant(2, value, 3), 5),
                    ("position place", position(value, 0, 0, 0), 2),
                    ("position relation", position(0, value, 0, 0), 5),
                    ("position condition", position(0, 0, value, 0), own),
                    ("position other place", position(0, 0, 0, value), 2),
                    ("gap place", gap(value, 0, 0, 0, 0), 2),
                    ("gap condition", gap(0, value, 0, 0, 0), own),
                    ("gap other place", gap(0, 0, value, 0, 0), 2)):
                label = "%s %d in condition %d" % (label, value, own)
                if value <= limit:
                    books.append(accepted(label, before + record + END))
                else:
                    books.append(judged(label, before, record, 6, END))
    return books


def gap_books():
    """Refusal 6: low above high; and every end that is allowed."""
    ends = (LOWEST, LOWEST + 1, -2**32, -TOP, -256, -2, -1, 0, 1, 2, 255, 256,
            500, TOP, 2**32, HIGHEST - 1, HIGHEST)
    books = []
    before = rule(1) + COND + COND
    for low in ends:
        for high in ends:
            label = "gap from %d to %d" % (low, high)
            record = gap(2, 0, 2, low, high)
            if low <= high:
                books.append(accepted(label, before + record + END))
            else:
                books.append(judged(label, before, record, 6, END))
    for number in (0, 1, 255, 256, 65536, 2**31 - 1, 2**31, TOP - 1, TOP):
        books.append(accepted("constant %d" % number, before
                              + constant(2, 0, number) + END))
    return books


def misplaced_books():
    """Refusal 4 by itself."""
    books = []
    for label, test in TEST_KINDS:
        books.append(judged("%s before any rule" % label, b"", test, 4, END))
        books.append(judged("%s before any condition" % label, rule(3), test,
                            4, END))
        books.append(judged("%s before any condition of the second rule"
                            % label, rule(3) + COND + test + rule(4), test,
                            4, COND + END))
    books.append(judged("condition before any rule", b"", COND, 4, END))
    books.append(judged("rule after a bare rule", rule(3), rule(4), 4,
                        COND + END))
    books.append(judged("end after a bare rule", rule(3), END, 4))
    books.append(judged("rule after a second bare rule",
                        rule(3) + COND + rule(4), rule(5), 4, COND + END))
    books.append(judged("end after a second bare rule",
                        rule(3) + COND + rule(4), END, 4))
    books.append(judged("end after a bare rule, then bytes", rule(3), END, 4,
                        END + b"\x00"))
    return books


def competing_books():
    """One record that earns several refusals; 01's order decides."""
    bad_text = b"bad\x1fwording"
    full = rules_with_condition(32)
    bare = rules_with_condition(31) + rule(32)
    eight = rule(9) + COND + constant(0, 0, 0) * 8
    books = [
        judged("3 over 2: unknown kind at the very end", rule(9) + COND,
               b"\x06", 3),
        judged("3 over 4: unknown kind before any rule", b"", b"\x06", 3,
               bytes(40)),
        judged("3 over 4: unknown kind after a bare rule", rule(9), b"\x08",
               3, bytes(40)),
        judged("3 over 7: unknown kind where a 9th test would stand", eight,
               b"\x06", 3, bytes(40)),
        judged("3 over 7: unknown kind where a 33rd rule would stand", full,
               b"\x00", 3, bytes(40)),
        ("4 over 3: unknown kind after the end", END + b"\x00", (4, 1)),
        ("4 over 2: cut rule after the end", END + b"\x01", (4, 1)),
        ("4 over 7: 33rd rule after the end", full + END + rule(99),
         (4, len(full) + 1)),
        judged("4 over 7: 33rd rule after a bare one", bare, rule(33), 4,
               COND + END),
        judged("4 over 5: falling rule after a bare one", rule(9), rule(3), 4,
               COND + END),
        judged("4 over 5: rule 0 after a bare one", rule(9), rule(0), 4),
        judged("4 over 6: bad wording after a bare rule", rule(9),
               rule(10, bad_text), 4, COND + END),
        judged("4 over 7, 5 and 6", bare, rule(1, bad_text), 4, COND + END),
        judged("7 over 5: 33rd rule falls", full, rule(1), 7, COND + END),
        judged("7 over 5: 33rd rule is equal", full, rule(32), 7, COND + END),
        judged("7 over 6: 33rd rule with bad wording", full,
               rule(99, bad_text), 7, COND + END),
        judged("7 over 5 and 6", full, rule(1, bad_text), 7, COND + END),
        judged("5 over 6: rule 0 with bad wording", b"", rule(0, bad_text), 5,
               COND + END),
        judged("5 over 6: equal number with bad wording", rule(9) + COND,
               rule(9, bad_text), 5, COND + END),
        judged("5 over 6: falling number with bad wording", rule(9) + COND,
               rule(8, bad_text), 5, COND + END),
    ]
    for label, test in bad_tests(0):
        books.append(judged("4 over 6: %s before any rule" % label, b"",
                            test, 4, END))
        books.append(judged("4 over 6: %s before any condition" % label,
                            rule(9), test, 4, END))
        books.append(judged("7 over 6: %s as 9th test" % label, eight, test,
                            7, END))
        books.append(judged("6: %s as 8th test" % label, eight[:-7], test, 6,
                            END))
    return books + competing_cut_books(bad_text, full, bare, eight)


def competing_cut_books(bad_text, full, bare, eight):
    """Refusal 2 inside a record against 4, 7, 5 and 6."""
    books = []
    rules = [("4: rule after a bare rule", rule(9), rule(10)),
             ("4, 5, 6: rule after a bare rule", rule(9), rule(9, bad_text)),
             ("4, 7, 5, 6: 33rd rule", bare, rule(1, bad_text)),
             ("7: 33rd rule", full, rule(33)),
             ("7, 5, 6: 33rd rule", full, rule(1, bad_text)),
             ("5: falling rule", rule(9) + COND, rule(8)),
             ("5: rule 0", b"", rule(0)),
             ("5, 6: falling rule", rule(9) + COND, rule(8, bad_text)),
             ("6: bad wording", rule(9) + COND, rule(10, bad_text))]
    tests = []
    for label, test in bad_tests(0):
        tests.append(("4, 6: %s before any rule" % label, b"", test))
        tests.append(("4, 6: %s after a bare rule" % label, rule(9), test))
        tests.append(("7, 6: %s as 9th test" % label, eight, test))
        tests.append(("6: %s" % label, rule(9) + COND, test))
    for label, before, record in rules + tests:
        for length in range(1, len(record)):
            books.append(judged("2 over %s cut to %d" % (label, length),
                                before, record[:length], 2))
    return books


def bad_tests(own):
    """Tests with each single fault, and with several, in condition `own`."""
    return [
        ("constant place", constant(3, 0, 1)),
        ("constant relation", constant(0, 6, 1)),
        ("constant both", constant(255, 255, TOP)),
        ("position place", position(3, 0, 0, 0)),
        ("position relation", position(0, 6, 0, 0)),
        ("position condition", position(0, 0, own + 1, 0)),
        ("position other", position(0, 0, 0, 3)),
        ("position all", position(9, 9, 9, 9)),
        ("gap place", gap(3, 0, 0, 0, 0)),
        ("gap condition", gap(0, own + 1, 0, 0, 0)),
        ("gap other", gap(0, 0, 3, 0, 0)),
        ("gap ends", gap(0, 0, 0, 1, 0)),
        ("gap all", gap(9, 9, 9, HIGHEST, LOWEST)),
    ]


def earlier_books():
    """Two records at fault: the one in front is refused."""
    start = rule(9) + COND
    faults = [
        (3, start, b"\x06" + bytes(6)),
        (4, start + rule(10), rule(11)),
        (4, start + rule(10), constant(0, 0, 0)),
        (4, start + rule(10), END),
        (5, start, rule(9)),
        (6, start, constant(3, 0, 0)),
        (6, start, rule(10, b"\x7f")),
        (7, start + COND * 5, COND),
        (7, start + constant(0, 0, 0) * 8, constant(0, 0, 0)),
    ]
    books = []
    for number, before, record in faults:
        for later, inner, other in faults:
            label = "%d in front of %d" % (number, later)
            books.append(judged(label, before, record, number, other + END))
            books.append(judged(label + ", whole", before, record, number,
                                inner + other + END))
        books.append(judged("%d in front of 2" % number, before, record,
                            number, rule(12)[:9]))
        books.append(judged("%d in front of a missing end" % number, before,
                            record, number))
        books.append(("1 over %d" % number,
                      before + record + bytes(8193 - len(before + record)),
                      (1, 0)))
    return books


def expected_books():
    """All books whose answer is known without reading them by program."""
    return (printed_books() + kind_books() + length_books() + count_books()
            + number_books() + wording_books() + field_books() + gap_books()
            + misplaced_books() + competing_books() + earlier_books())


# ------------------------------------------------------- damaged books

INTERESTING = (0, 1, 2, 3, 4, 5, 6, 7, 8, 9, 10, 31, 32, 33, 126, 127, 128,
               254, 255)


def cut_books(name, book):
    return [("%s cut to %d bytes" % (name, length), book[:length])
            for length in range(len(book))]


def changed_books(name, book):
    """Each byte changed to each interesting value, and by one up or down."""
    books = []
    for at, old in enumerate(book):
        values = sorted(set(INTERESTING + ((old + 1) % 256, (old - 1) % 256)))
        for new in values:
            if new != old:
                books.append(("%s, byte %d from %d to %d"
                              % (name, at, old, new),
                              book[:at] + bytes([new]) + book[at + 1:]))
    return books


def shifted_books(name, book):
    """A byte put in, left out, or exchanged with its neighbour."""
    books = []
    for at in range(len(book) + 1):
        for byte in (0, 1, 2, 3, 9, 32, 255):
            books.append(("%s, %d put in at %d" % (name, byte, at),
                          book[:at] + bytes([byte]) + book[at:]))
    for at in range(len(book)):
        books.append(("%s, byte %d left out" % (name, at),
                      book[:at] + book[at + 1:]))
        pair = book[at:at + 2][::-1]
        books.append(("%s, bytes %d and %d exchanged" % (name, at, at + 1),
                      book[:at] + pair + book[at + 2:]))
    return books


def record_books(name, book):
    """Kinds changed; records left out, doubled, exchanged, brought forward."""
    records = records_of(book)
    books = []
    for at, record in enumerate(records):
        before, after = b"".join(records[:at]), b"".join(records[at + 1:])
        label = "%s, record %d " % (name, at)
        for kind in (0, 1, 2, 3, 4, 5, 6, 7, 8, 9, 10, 255):
            books.append((label + "made kind %d" % kind,
                          before + bytes([kind]) + record[1:] + after))
            body = bytes(BODY_LENGTH.get(kind, 3))
            books.append((label + "made kind %d with zeros" % kind,
                          before + bytes([kind]) + body + after))
        books.append((label + "left out", before + after))
        books.append((label + "doubled", before + record * 2 + after))
        books.append((label + "after an end", before + END + record + after))
        books.append((label + "first", record + before + after))
        books.append((label + "last", before + after + record))
        swapped = records[:at] + records[at:at + 2][::-1] + records[at + 2:]
        books.append((label + "exchanged with the next", b"".join(swapped)))
    books.append((name + " backwards", b"".join(reversed(records))))
    books.append((name + " twice", book + book))
    return books


def edge_books():
    """Every limit, cut, damage and competing case: (label, book)."""
    books = [(label, book) for label, book, _ in expected_books()]
    books += cut_books("book A", book_a())
    books += cut_books("book B", book_b())
    books += cut_books("rich book", rich_book())
    books += cut_books("32 rules", rules_with_condition(32) + END)
    for name, book in (("book A", book_a()), ("rich book", rich_book()),
                       ("book B", book_b())):
        books += changed_books(name, book)
        books += shifted_books(name, book)
        books += record_books(name, book)
    return books


# ---------------------------------------------------------- random books

NUMBERS = (0, 0, 1, 1, 2, 3, 4, 9, 10, 140, 499, 500, 501, 640, 2**31 - 1,
           2**31, TOP - 500, TOP - 1, TOP, TOP)


def random_pool(rng):
    """A few numbers, for readings and tests alike, so that they collide."""
    if rng.random() < 0.3:
        start = rng.choice((0, 1, 100, 2**31 - 2, TOP - 3))
        return list(range(start, start + rng.randrange(2, 5)))
    return [rng.choice(NUMBERS) for _ in range(rng.randrange(2, 6))]


def random_gap(rng, pool, own):
    difference = rng.choice(pool) - rng.choice(pool)
    low, high = rng.choice((
        (difference, difference), (difference, HIGHEST), (difference, TOP),
        (LOWEST, difference), (-TOP, difference), (LOWEST, HIGHEST),
        (-TOP, TOP), (-1, 1), (0, 0), (1, 1), (-1, -1), (1, HIGHEST),
        (LOWEST, -1), (HIGHEST, HIGHEST), (LOWEST, LOWEST),
        (difference - 1, difference + 1), (500, TOP)))
    return gap(rng.randrange(3), rng.randrange(own + 1), rng.randrange(3),
               min(low, high), max(low, high))


def random_test(rng, pool, own):
    """A faultless test of condition `own`."""
    kind = rng.randrange(3)
    if kind == 0:
        return constant(rng.randrange(3), rng.randrange(6), rng.choice(pool))
    if kind == 1:
        return position(rng.randrange(3), rng.randrange(6),
                        rng.randrange(own + 1), rng.randrange(3))
    return random_gap(rng, pool, own)


def random_wording(rng):
    """24 bytes, spaces in front, inside and behind among them."""
    style = rng.randrange(6)
    if style == 0:
        return b" " * 24
    if style == 1:
        return bytes(rng.randrange(32, 127) for _ in range(24))
    length = rng.randrange(25)
    text = bytes(rng.choice(b"abc XYZ |/019~ ") for _ in range(length))
    return text.ljust(24, b" ")


def random_numbers(rng, count):
    """Ascending rule numbers, sometimes up to the last there is."""
    step = rng.choice((1, 1, 3, 300, 65535 // max(count, 1)))
    numbers = []
    number = 0
    for _ in range(count):
        number = number + rng.randrange(1, step + 1)
        numbers.append(number)
    if numbers and rng.random() < 0.15:
        numbers[-1] = 65535
    return numbers


def random_book(rng, pool, most_rules=5, most_conditions=6, most_tests=4):
    """A faultless book; as many rules as fit into 8,192 bytes."""
    book = b""
    for number in random_numbers(rng, rng.randrange(most_rules + 1)):
        text = rule(number, random_wording(rng))
        for own in range(rng.randrange(1, most_conditions + 1)):
            text = text + COND
            for _ in range(rng.randrange(most_tests + 1)):
                text = text + random_test(rng, pool, own)
        if len(book) + len(text) + 1 > 8192:
            break
        book = book + text
    return book + END


def damage(rng, book):
    """The book with one thing done to it."""
    at = rng.randrange(len(book)) if book else 0
    other = rng.randrange(len(book)) if book else 0
    byte = bytes([rng.choice(INTERESTING)])
    way = rng.randrange(7)
    if way == 0:
        return book[:at]
    if way == 1:
        return book[:at] + byte + book[at:]
    if way == 2:
        return book[:at] + book[at + 1:]
    if way == 3:
        at, other = min(at, other), max(at, other)
        return book[:at] + book[other:] + book[at:other]
    if way == 4:
        return book + byte
    return book[:at] + byte + book[at + 1:]


def damage_records(rng, book):
    """The book with one or two whole records changed."""
    records = records_of(book)
    for _ in range(rng.randrange(1, 3)):
        if not records:
            return b""
        at = rng.randrange(len(records))
        way = rng.randrange(6)
        if way == 0:
            del records[at]
        elif way == 1:
            records.insert(rng.randrange(len(records) + 1), records[at])
        elif way == 2:
            records[at] = bytes([rng.randrange(12)]) + records[at][1:]
        elif way == 3:
            records.insert(at, random_record(rng))
        elif way == 4:
            records[at] = numbered_anew(rng, records[at])
        else:
            other = rng.randrange(len(records))
            records[at], records[other] = records[other], records[at]
    return b"".join(records)


def numbered_anew(rng, record):
    """A rule with another number; any other record as it was."""
    if record[0] != 1 or len(record) != 27:
        return record
    number = rng.choice((0, 1, 2, 255, 256, 65535, rng.randrange(65536)))
    return record[:1] + number.to_bytes(2, "big") + record[3:]


def random_record(rng):
    """A record that may well be at fault, whatever stands around it."""
    kind = rng.randrange(9)
    if kind == 0:
        return rule(rng.choice((0, 1, 2, 65535)), random_wording(rng))
    if kind == 1:
        return rule(rng.randrange(65536), b"bad" + bytes([rng.choice(
            (0, 31, 127, 255))]))
    if kind == 2:
        return COND
    if kind == 3:
        return END
    if kind == 4:
        return bytes([rng.randrange(256)])
    if kind == 5:
        return rng.choice(bad_tests(rng.randrange(6)))[1]
    return random_test(rng, list(NUMBERS), rng.randrange(6))


def sown_book(rng):
    """A book grown record by record, now and then with a doubtful record."""
    pool = random_pool(rng)
    doubt = rng.choice((0.001, 0.01, 0.1))
    enough = rng.choice((200, 1000, 3000, 8000, LONGEST_CASE - 2000))
    most_tests = rng.choice((1, 4, 8))
    book = b""
    number = 0
    while len(book) < enough:
        number = number + rng.choice((1, 1, 1, 2, 50))
        book = book + rule(number % 65536)
        conditions = rng.randrange(1, 7) + (rng.random() < doubt)
        for own in range(conditions):
            book = book + COND
            tests = rng.randrange(most_tests + 1) + (rng.random() < doubt)
            for _ in range(tests):
                book = book + random_test(rng, pool, own)
            if rng.random() < doubt:
                book = book + random_record(rng)
    return book + END


def book_case(rng):
    pool = random_pool(rng)
    way = rng.randrange(12)
    if rng.random() < 0.02:
        return book_of_length(rng.randrange(8188, 8197),
                              rng.randrange(9, 33))
    if way < 4:
        return random_book(rng, pool)
    if way == 4:
        return random_book(rng, pool, 32, 6, 8)
    if way == 5:
        return random_book(rng, pool, 32, 2, 2)
    if way == 6:
        return damage_records(rng, random_book(rng, pool))
    if way == 7:
        return sown_book(rng)
    if way == 8:
        return b"".join(random_record(rng)
                        for _ in range(rng.randrange(12)))
    book = random_book(rng, pool, 4, 4, 3)
    for _ in range(rng.randrange(1, 4)):
        book = damage(rng, book)
    return book


def book_cases(seed, count):
    """`count` books, faultless and damaged."""
    rng = random.Random(seed)
    return [book_case(rng)[:LONGEST_CASE] for _ in range(count)]


# ------------------------------------------------------- programs by hand

def numbered_readings(count, column=3):
    """`count` readings, no two alike, not in ascending order."""
    return [((n * 37) % 1009, column, n % 5) for n in range(count)]


def adds(readings):
    return b"".join(add(*reading) for reading in readings)


def removes(readings):
    return b"".join(remove(*reading) for reading in readings)


def file_programs():
    """Files that cannot be opened; books that are refused."""
    good, steps = book_a(), jump_steps()
    programs = [
        ("01: book A", good, steps),
        ("no rules file", None, steps),
        ("no steps file", good, None),
        ("neither file", None, None),
        ("no rules file, bad steps", None, b"\x07"),
        ("refused book, no steps file", b"\x00", None),
        ("book too long, no steps file", bytes(9000), None),
        ("no steps", good, b""),
        ("empty book file", b"", steps),
        ("empty book file, empty steps", b"", b""),
        ("book too long", bytes(8193), steps),
        ("longest book", book_of_length(8192, 9), adds(numbered_readings(3))
         + LIST),
        ("longest book and one byte", book_of_length(8193, 9), steps),
        ("refused book, bad steps", b"\x02", b"\x07"),
    ]
    for number, label, book in ((2, "cut", good[:50]), (3, "kind", b"\x06"),
                                (4, "after", good + END),
                                (5, "number", rule(0) + COND + END),
                                (6, "place", rule(1) + COND
                                 + constant(3, 0, 0) + END),
                                (7, "conditions", rule(1) + COND * 7 + END)):
        programs.append(("book refused with %d: %s" % (number, label), book,
                         steps))
    return programs


def step_programs():
    """Unknown kinds and cut steps, first and later."""
    programs = []
    for kind in range(256):
        if kind not in (1, 2, 3):
            programs.append(("first step of kind %d" % kind, book_a(),
                             bytes([kind]) + bytes(12) + LIST))
            programs.append(("last step of kind %d" % kind, book_a(),
                             add(1, 3, 1) + LIST + bytes([kind])))
    for kind, whole in (("addition", add(12, 3, 140)),
                        ("removal", remove(12, 3, 140))):
        for length in range(1, 13):
            label = "%s cut to %d bytes" % (kind, length)
            programs.append((label, book_a(), whole[:length]))
            programs.append((label + " after others", book_a(),
                             jump_steps() + whole[:length]))
    programs.append(("five lists in a row", book_b(),
                     add(0, 0, 0) + LIST * 5 + remove(0, 0, 0) + LIST))
    for length in range(len(jump_steps())):
        programs.append(("printed steps cut to %d bytes" % length, book_a(),
                         jump_steps()[:length]))
    return programs


def limit_programs():
    """256 readings and one more; 2,048 tokens and one more."""
    many = numbered_readings(256)
    extra = (2000, 3, 7)
    full = adds(many) + add(*extra) + add(*many[7]) + LIST
    again = remove(*many[9]) + add(*extra) + add(*many[9]) + LIST
    seldom = (free_book(8, 1)[:-1] + rule(9) + COND + constant(2, 0, 77) + END)
    return [
        ("256 readings and one more, no rules", END, full + again),
        ("256 readings, 8 rules: exactly 2048 tokens; 13 before 14",
         free_book(8, 1), full + again),
        ("9 rules: 14 at the 228th reading", free_book(9, 1),
         adds(many) + LIST + remove(*many[0]) + add(*extra) + LIST),
        ("2049 tokens refused, 2048 accepted", seldom,
         adds(many[:255]) + add(1, 1, 77) + add(1, 1, 78) + add(1, 1, 77)
         + add(1, 1, 79) + remove(1, 1, 78) + add(1, 1, 77)
         + remove(*many[3]) + add(1, 1, 77) + LIST),
        ("pairs: 14 at the 45th reading", book_b(),
         adds(many[:46]) + remove(*many[5]) + add(*many[45]) + LIST
         + add(*many[5]) + remove(*many[45]) + add(*many[5])),
        ("readings taken out to the last and put back", free_book(2, 1),
         adds(many) + removes(many) + LIST + removes(many[:3])
         + adds(reversed(many)) + LIST),
    ]


def explosive_programs():
    """Conditions without tests: six of them, and 32 rules of six."""
    five = [(1, 1, 1), (0, 0, 0), (TOP, TOP, TOP), (1, 1, 2), (1, 2, 1)]
    going_on = (adds(five) + LIST + remove(*five[0]) + add(*five[3]) + LIST
                + add(*five[3]) + removes(five) + LIST)
    programs = [("%d rules of %d conditions without tests" % (rules, count),
                 free_book(rules, count), going_on)
                for rules in (1, 2, 32) for count in (1, 2, 3, 4, 5, 6)]
    late = (rule(1) + COND * 5 + COND + constant(2, 4, 5) + rule(2) + COND
            + END)
    programs.append(("tokens of a rule that never completes", late, going_on))
    first = (rule(1) + COND + constant(2, 4, 5) + COND * 5 + END)
    programs.append(("nothing passes the first condition", first,
                     going_on + adds((n, 0, 0) for n in range(9, 30))))
    return programs


def relation_programs():
    """Every relation and place, of all three kinds of test."""
    values = (0, 1, 2, TOP - 1, TOP)
    readings = [(a, b, c) for a in values[:3] for b in values[1:4]
                for c in (0, 2, TOP)]
    programs = []
    for relation in range(6):
        for place in range(3):
            for number in values:
                book = rule(1) + COND + constant(place, relation, number) + END
                programs.append(("constant %d %d %d"
                                 % (place, relation, number), book,
                                 adds(readings) + LIST))
            for other in range(3):
                programs += position_programs(place, relation, other, readings)
    return programs + gap_programs()


def position_programs(place, relation, other, readings):
    label = "position %d %d %d" % (place, relation, other)
    own = (rule(1) + COND + position(place, relation, 0, other) + END)
    pair = (rule(1) + COND * 2 + position(place, relation, 0, other) + END)
    return [(label + ", own condition", own, adds(readings) + LIST),
            (label + ", earlier condition", pair, adds(readings[::2]) + LIST)]


def gap_programs():
    readings = [(1, 2, n) for n in (0, 1, 139, 140, 639, 640, 641, 710, TOP)]
    programs = []
    for low, high in ((500, TOP), (-TOP, -TOP), (TOP, TOP), (-TOP, -1),
                      (LOWEST, HIGHEST), (LOWEST, LOWEST), (HIGHEST, HIGHEST),
                      (LOWEST, -TOP), (TOP, HIGHEST), (0, 0), (1, 1), (-1, 1),
                      (-1, -1), (-TOP, TOP), (2**32, HIGHEST), (-30, -30),
                      (LOWEST, -2**32), (-TOP + 1, TOP - 1), (TOP - 140, TOP)):
        label = "gap from %d to %d" % (low, high)
        pair = rule(1) + COND * 2 + gap(2, 0, 2, low, high) + END
        own = rule(1) + COND + gap(2, 0, 0, low, high) + END
        programs.append((label, pair, adds(readings) + LIST))
        programs.append((label + ", own condition", own,
                         adds(readings) + LIST))
    return programs


def chain_book():
    """Six conditions, each one line after the one before."""
    text = rule(65535, b"w" * 24) + COND
    for own in range(1, 6):
        text = text + COND + gap(0, own - 1, 0, 1, 1) + position(1, 0, 0, 1)
    return text + END


def line_programs():
    """Wordings, long and short numbers, order, coming and going."""
    programs = []
    for text in (b"", b" ", b"a", b" a", b"a b ", b"|", b"x" * 24,
                 b" " * 23 + b"y", b"~" * 23, b"!\"#$%&'()*+,-./:;<=>?@[]"):
        programs.append(("wording %r" % text, rule(10, text) + COND + END,
                         add(0, 0, 0) + add(10, 200, 3000) + LIST))
    top = (TOP, TOP, TOP)
    programs.append(("longest line", rule(65535, b"W" * 24) + COND * 6 + END,
                     add(*top) + LIST + remove(*top) + LIST))
    pair = [(1, 1, 1), (1, 1, 2)]
    for order in (pair, pair[::-1]):
        programs.append(("order of pairs, %r first" % (order[0],), book_b(),
                         adds(order) + LIST))
    numbers = (9, 10, 99, 100, 2**31, TOP)
    mixed = [(a, b, 1) for a in numbers for b in numbers]
    programs.append(("order by number, not by digits", free_book(2, 1),
                     adds(mixed[::-1]) + LIST + removes(mixed[::3]) + LIST
                     + adds(mixed[::3]) + LIST))
    stages = [(n, c, n * 10) for n in range(8) for c in (1, 2)]
    programs.append(("chain of six", chain_book(), adds(stages) + LIST
                     + remove(3, 1, 30) + LIST + add(3, 1, 30) + LIST
                     + add(3, 1, 31) + LIST + removes(stages) + LIST))
    back = adds(pair) + LIST
    for reading in pair:
        back = back + remove(*reading) + LIST + add(*reading) + LIST
    programs.append(("withdrawn and entered again", book_b(), back * 2))
    programs.append(("rich book", rich_book(), rich_steps()))
    programs.append(("long steps file", book_a(), long_steps()))
    return programs


def rich_steps():
    readings = [(n, n + d, n * 2 + d) for n in range(1, 5) for d in (0, 1, 2)]
    return (adds(readings) + LIST + removes(readings[::2]) + LIST
            + adds(readings[::-1]) + LIST + removes(readings) + LIST)


def long_steps():
    """More than 100,000 bytes of coming and going."""
    few = [(12, 3, 140), (13, 3, 710), (13, 3, 110), (14, 3, TOP)]
    once = (adds(few) + LIST + removes(few[1:]) + LIST + adds(few[::-1])
            + removes(few))
    return once * 600


def edge_programs():
    """Fixed list of (label, rules, steps)."""
    return (file_programs() + step_programs() + limit_programs()
            + explosive_programs() + relation_programs() + line_programs())


# -------------------------------------------------------- random programs

def random_readings(rng, pool, count):
    """Up to `count` readings out of the pool, no two alike."""
    readings = []
    for _ in range(count):
        reading = tuple(rng.choice(pool) for _ in range(3))
        if reading not in readings:
            readings.append(reading)
    return readings


def random_steps(rng, readings, length):
    """Additions, removals and lists; duplicates and absentees among them."""
    adding = rng.choice((0.4, 0.6, 0.8))
    steps = b""
    for _ in range(length):
        chance = rng.random()
        if chance < 0.12:
            steps = steps + LIST
        elif chance < 0.12 + 0.88 * adding:
            steps = steps + add(*rng.choice(readings))
        else:
            steps = steps + remove(*rng.choice(readings))
    return steps


def shuffled(rng, readings):
    readings = list(readings)
    rng.shuffle(readings)
    return readings


def routes(rng, readings):
    """The same readings reached three ways, with a list after each."""
    some = readings[:rng.randrange(1, len(readings) + 1)]
    first = adds(shuffled(rng, some)) + LIST + removes(shuffled(rng, some))
    second = (adds(shuffled(rng, readings))
              + removes(shuffled(rng, readings[len(some):]))
              + adds(shuffled(rng, some)) + LIST)
    third = (random_steps(rng, readings, 10) + removes(shuffled(rng, readings))
             + adds(shuffled(rng, some)) + LIST)
    return first + second + third


def crowd_program(rng):
    """So many readings that E or T is reached."""
    readings = numbered_readings(rng.choice((230, 256, 258, 262)),
                                 rng.randrange(4))
    book = free_book(rng.randrange(1, 11), 1)[:-1]
    if rng.random() < 0.5:
        book = book + rule(40) + COND + constant(2, 0, 4) + END
    else:
        book = book + rule(41) + COND + constant(0, 2, 40) + COND + END
    steps = adds(shuffled(rng, readings)) + LIST
    return book, steps + random_steps(rng, readings, 20) + LIST


def random_program_book(rng, pool):
    way = rng.randrange(10)
    if way == 0:
        return free_book(rng.randrange(1, 4), rng.randrange(1, 7))
    if way == 1:
        return random_book(rng, pool, 3, 6, 1)
    if way == 2:
        return random_book(rng, pool, 20, 2, 3)
    if way == 3:
        return damage(rng, random_book(rng, pool, 3, 3, 2))
    return random_book(rng, pool, 4, 4, 2)


def program_case(rng):
    if rng.random() < 0.01:
        return crowd_program(rng)
    pool = random_pool(rng)
    book = random_program_book(rng, pool)
    readings = random_readings(rng, pool, rng.randrange(2, 13))
    if rng.random() < 0.4:
        steps = routes(rng, readings)
    else:
        steps = random_steps(rng, readings, rng.randrange(50)) + LIST
    chance = rng.random()
    if chance < 0.06:
        steps = steps[:rng.randrange(len(steps))]
    elif chance < 0.10:
        steps = steps + bytes([rng.randrange(256)]) + steps[:13]
    elif chance < 0.11:
        steps = None
    elif chance < 0.12:
        book = None
    elif chance < 0.13:
        steps = damage(rng, steps)
    return book, steps


def program_cases(seed, count):
    """`count` pairs of rules and steps."""
    rng = random.Random(seed)
    return [program_case(rng) for _ in range(count)]
