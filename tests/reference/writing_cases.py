"""Books written from rows and read into rows, compared with a program.

    python3 writing_cases.py compare SEED COUNT PROGRAM [--edges]
    python3 writing_cases.py rewrite SEED COUNT PROGRAM [--edges]

`compare`: PROGRAM takes the stream of cases that tests/outside/writing.c describes and
answers as described there; it may be several words.  The cases: COUNT random
books, with --edges every edge book besides, each read into rows with too few,
just enough and more rows and wordings lent; the rows of those accepted
written into buffers one byte too short, exactly long enough and longer; and
their rows with one or two things changed.

`rewrite`: PROGRAM takes the stream of books that README.md describes and
answers for each with number and place of its refusal, or two zeros, and how
many bytes follow (eight bytes each), then the book written from its values.
"""

import random
import shlex
import subprocess
import sys
from collections import Counter

import generate
from reference import read_book, refused
from writing import read_rows, rows_of, write_book

# What stood in the numbers, bytes and rows lent before the call.
NUMBER, BYTE, ROW_NUMBER = 119, b"w", 77

# Numbers that some field cannot hold, or that are just in range.
NUMBERS = (-1, 0, 1, 2, 3, 4, 5, 6, 9, 255, 256, 65535, 65536, 2**32 - 1,
           2**32, 2**40, 2**63 - 1, -2**63)
KINDS = (-1, 0, 1, 2, 3, 4, 5, 6, 7, 8, 9, 10, 257, 2**32 + 1)


def bytes_of(number, width=8):
    return (number % 2**(8 * width)).to_bytes(width, "big")


# -------------------------------------------------------------- the cases

def write_case(rows, wordings, room):
    """The case, what has to be answered, and the answer's number."""
    case = (b"\0" + bytes_of(len(rows), 4) + bytes_of(len(wordings), 4)
            + bytes_of(room, 4) + bytes_of(0, 4)
            + b"".join(bytes_of(number) for number in rows) + wordings)
    answer = write_book(rows, wordings, room)
    if refused(answer):
        told = (answer.number, NUMBER, answer.place)
        left = BYTE * room
    else:
        told = (0, len(answer), NUMBER)
        left = answer + BYTE * (room - len(answer))
    return case, b"".join(map(bytes_of, told)) + left, told[0]


def read_case(book, room, wordings_room):
    case = (b"\1" + bytes_of(len(book), 4) + bytes_of(wordings_room, 4)
            + bytes_of(0, 4) + bytes_of(room, 4) + book)
    answer = read_rows(book, room, wordings_room)
    if refused(answer):
        told = (answer.number, NUMBER, NUMBER, answer.place)
        rows, wordings = [], b""
    else:
        rows, wordings = answer
        told = (0, len(rows) // 6, len(wordings) // 24, NUMBER)
    rows = rows + [ROW_NUMBER] * (room - len(rows))
    left = (b"".join(map(bytes_of, rows)) + wordings
            + BYTE * (wordings_room - len(wordings)))
    return case, b"".join(map(bytes_of, told)) + left, told[0]


def changed(rng, rows, wordings):
    """The rows and wordings with one or two things changed."""
    rows = list(rows)
    for _ in range(rng.choice((1, 1, 2))):
        if not rows:
            break
        at = rng.randrange(len(rows))
        start = at - at % 6
        way = rng.randrange(9)
        if way == 0:
            rows[at] = rng.choice(NUMBERS)
        elif way == 1:
            rows[start] = rng.choice(KINDS)
        elif way == 2:
            del rows[start:start + 6]
        elif way == 3:
            rows[start:start] = rows[start:start + 6]
        elif way == 4:
            wordings = wordings[:rng.randrange(len(wordings) + 1)]
        elif way == 5:
            rows = rows[:len(rows) - rng.randrange(6)]
        elif way == 6:
            for rule in range(0, len(rows) - 1, 6):
                if rows[rule] == 1 and rng.random() < 0.5:
                    rows[rule + 1] = rng.choice((65535, 65536, -1, 2**40))
        elif way == 7 and wordings:
            place = rng.randrange(len(wordings))
            wordings = (wordings[:place]
                        + bytes([rng.choice((31, 32, 126, 127, 255))])
                        + wordings[place + 1:])
        elif way == 8:
            # What its kind does not use is not looked at.
            rows[start + 5] = rows[start + 5] if rows[start] == 5 else 2**62
    return rows, wordings


def fixed_cases():
    """Cases that chance may not find."""
    rule, condition = [1, 65535, 0, 0, 0, 0], [2, 0, 0, 0, 0, 0]
    for number in (65535, 65536, -1):
        rows = rule + condition + [1, number, 0, 0, 0, 0]
        for wordings in (b"a" * 48, b"a" * 47, b"a" * 24 + b"\xff" * 24):
            yield write_case(rows, wordings, 100)
    # One byte too many in all, whatever is wrong with the first record.
    for first in ([1, 1, 0, 0, 0, 0], [9, 0, 0, 0, 0, 0]):
        for count in (302, 303, 304, 2000):
            yield write_case(first + [1, 1, 0, 0, 0, 0] * count, b"", 10)
    for rows in ([], [1], [1, 1, 0, 0, 0]):
        for room in (0, 1, 2):
            yield write_case(rows, b"", room)


def make_cases(seed, count, edges):
    rng = random.Random(seed)
    books = [book for _, book in generate.edge_books()] if edges else []
    books += generate.book_cases(seed, count)
    yield from fixed_cases()
    for book in books:
        answer = read_book(book)
        if refused(answer):
            yield read_case(book, rng.choice((0, 60)), rng.choice((0, 48)))
            continue
        rows, wordings = rows_of(answer)
        for room in (len(book) - 1, len(book), len(book) + rng.randrange(40)):
            yield write_case(rows, wordings, room)
        for more, wider in ((-1, 0), (0, 0), (0, -1),
                            (rng.randrange(13), rng.randrange(30))):
            yield read_case(book, max(0, len(rows) + more),
                            max(0, len(wordings) + wider))
        for _ in range(3):
            yield write_case(*changed(rng, rows, wordings),
                             len(book) + rng.choice((0, 60)))


# ------------------------------------------------------------- comparison

def compare(seed, count, command, edges):
    cases = list(make_cases(seed, count, edges))
    stream = b"".join(case for case, _, _ in cases)
    done = subprocess.run(command, input=stream, stdout=subprocess.PIPE)
    seen = Counter()
    at = 0
    for index, (case, wanted, number) in enumerate(cases):
        got = done.stdout[at:at + len(wanted)]
        if got != wanted:
            print("FIRST DIFFERENCE: case %d" % index)
            print("case:     %s" % case[:400].hex())
            print("expected: %s" % wanted[:200].hex())
            print("answered: %s" % got[:200].hex())
            return 1
        at = at + len(wanted)
        seen[("written" if case[0] == 0 else "read", number)] += 1
    if at != len(done.stdout) or done.returncode != 0:
        print("more than was asked, or status %d" % done.returncode)
        return 1
    print("%d cases" % len(cases))
    for (what, number), times in sorted(seen.items()):
        print("%s, %s: %d" % (what, "accepted" if number == 0
                              else "refused with %d" % number, times))
    missed = [number for number in (1, 3, 4, 5, 6, 7, 19)
              if not seen[("written", number)]]
    if missed:
        print("refusals never reached by writing: %s" % missed)
        return 1
    print("no difference")
    return 0


def rewrite(seed, count, command, edges):
    books = [book for _, book in generate.edge_books()] if edges else []
    books += generate.book_cases(seed, count)
    stream = b"".join(bytes_of(len(book), 4) + bytes_of(0) + book
                      for book in books)
    done = subprocess.run(command, input=stream, stdout=subprocess.PIPE)
    at = same = 0
    for index, book in enumerate(books):
        answer = read_book(book)
        told = answer if refused(answer) else (0, 0)
        left = b"" if refused(answer) else book
        wanted = b"".join(map(bytes_of, (*told, len(left)))) + left
        if done.stdout[at:at + len(wanted)] != wanted:
            print("FIRST DIFFERENCE: book %d: %s" % (index, book.hex()))
            return 1
        at = at + len(wanted)
        same = same + (not refused(answer))
    if at != len(done.stdout) or done.returncode != 0:
        print("more than was asked, or status %d" % done.returncode)
        return 1
    print("%d books, %d of them accepted and written again byte for byte"
          % (len(books), same))
    return 0


def main(words):
    edges = "--edges" in words
    words = [word for word in words if word != "--edges"]
    if len(words) >= 4 and words[0] in ("compare", "rewrite"):
        command = words[3:] if len(words) > 4 else shlex.split(words[3])
        run = compare if words[0] == "compare" else rewrite
        return run(int(words[1]), int(words[2]), command, edges)
    sys.stderr.write(__doc__)
    return 2


if __name__ == "__main__":
    sys.exit(main(sys.argv[1:]))
