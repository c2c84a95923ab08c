"""The reference for writing books: rows of numbers to bytes, and back.

It is written from docs/BOOK.md ("Rows") alone.  A row is six whole numbers:
the kind, then the body's numbers in the book's order; the wordings stand
beside the rows, 24 bytes for each rule row.  Records are judged as values; no byte is laid out before all of
them are taken.
"""

from reference import (BOOK_BYTES, CONDITION, CONDITIONS, CONSTANT, GAP,
                       POSITION, RULE, RULES, TESTS, Constant, Position,
                       Refusal, read_book, refused)

ROW = 6
WORDING = 24

# How many bytes a record takes, its kind with it.
SIZE = {RULE: 27, CONDITION: 1, CONSTANT: 7, POSITION: 5, GAP: 20}


def records_of(rows, wordings):
    """(kind, numbers, wording or None) for each whole row."""
    records = []
    rules = 0
    for at in range(0, len(rows) - len(rows) % ROW, ROW):
        kind, numbers = rows[at], rows[at + 1:at + ROW]
        wording = None
        if kind == RULE:
            wording = wordings[rules * WORDING:(rules + 1) * WORDING]
            rules = rules + 1
        records.append((kind, numbers, wording))
    return records


def write_book(rows, wordings, room):
    """The bytes of the book, or the Refusal; `room` is the buffer's length."""
    records = records_of(rows, wordings)
    # 1 comes first, from the length of the whole would-be book; a kind that
    # no value has counts its one byte, and the end is added.
    length = sum(SIZE.get(kind, 1) for kind, _, _ in records) + 1
    if length > BOOK_BYTES:
        return Refusal(1, 0)
    # What the records before have built: for each rule its number and how
    # many tests each of its conditions has.
    rules = []
    place = 0
    for record in records:
        fault = fault_of(record, rules)
        if fault is not None:
            return Refusal(fault, place)
        take(record, rules)
        place = place + SIZE[record[0]]
    # The end is judged as the reader judges it.
    if rules and not rules[-1][1]:
        return Refusal(4, place)
    if length > room:
        return Refusal(19, 0)
    return b"".join(record_bytes(record) for record in records) + b"\x09"


def fault_of(record, rules):
    """The first of 3, 4, 7, 5 and 6 that the record earns, or None."""
    kind, numbers, wording = record
    if kind not in SIZE:
        return 3
    conditions = rules[-1][1] if rules else None
    if kind == RULE:
        misplaced = rules and not conditions
        full = len(rules) == RULES
    elif kind == CONDITION:
        misplaced = not rules
        full = rules and len(conditions) == CONDITIONS
    else:
        misplaced = not conditions
        full = conditions and conditions[-1] == TESTS
    if misplaced:
        return 4
    if full:
        return 7
    if kind == RULE:
        last = rules[-1][0] if rules else 0
        # A number that its field cannot hold is no rule number: 6, not 5.
        if 0 <= numbers[0] <= 65535 and numbers[0] <= last:
            return 5
        if not (0 <= numbers[0] <= 65535 and len(wording) == WORDING
                and all(32 <= byte <= 126 for byte in wording)):
            return 6
    elif kind != CONDITION and not test_fits(kind, numbers,
                                             len(conditions) - 1):
        return 6
    return None


def test_fits(kind, numbers, own):
    if kind == CONSTANT:
        place, relation, number = numbers[:3]
        return (0 <= place <= 2 and 0 <= relation <= 5
                and 0 <= number <= 2**32 - 1)
    if kind == POSITION:
        place, relation, condition, other = numbers[:4]
        return (0 <= place <= 2 and 0 <= relation <= 5
                and 0 <= condition <= own and 0 <= other <= 2)
    place, condition, other, low, high = numbers
    return (0 <= place <= 2 and 0 <= condition <= own and 0 <= other <= 2
            and low <= high)


def take(record, rules):
    kind, numbers, _ = record
    if kind == RULE:
        rules.append((numbers[0], []))
    elif kind == CONDITION:
        rules[-1][1].append(0)
    else:
        rules[-1][1][-1] += 1


def record_bytes(record):
    kind, numbers, wording = record
    if kind == RULE:
        body = numbers[0].to_bytes(2, "big") + wording
    elif kind == CONDITION:
        body = b""
    elif kind == CONSTANT:
        body = bytes(numbers[:2]) + numbers[2].to_bytes(4, "big")
    elif kind == POSITION:
        body = bytes(numbers[:4])
    else:
        body = bytes(numbers[:3]) + b"".join(
            number.to_bytes(8, "big", signed=True) for number in numbers[3:])
    return bytes([kind]) + body


def read_rows(book, rows_room, wordings_room):
    """(rows, wordings) of a book, or the Refusal; the rooms are lengths."""
    answer = read_book(book)
    if refused(answer):
        return answer
    rows, wordings = rows_of(answer)
    if len(rows) > rows_room or len(wordings) > wordings_room:
        return Refusal(19, 0)
    return rows, wordings


def rows_of(book):
    """The rows and wordings of a Book."""
    rows = []
    for rule in book.rules:
        rows += row(RULE, rule.number)
        for condition in rule.conditions:
            rows += row(CONDITION)
            for test in condition.tests:
                kind = (CONSTANT if isinstance(test, Constant) else
                        POSITION if isinstance(test, Position) else GAP)
                rows += row(kind, *test)
    return rows, b"".join(bytes(rule.wording) for rule in book.rules)


def row(kind, *numbers):
    return [kind, *numbers] + [0] * (ROW - 1 - len(numbers))
