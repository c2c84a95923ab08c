"""Rule books as a stream of cases, and the answers they have to get.

    python3 book_cases.py write SEED COUNT FILE_IN FILE_OUT [--edges]
    python3 book_cases.py one BOOKFILE NUMBER
    python3 book_cases.py compare SEED COUNT PROGRAM [--edges]

`write` makes COUNT random cases (with --edges the fixed list of edge books
in front of them) and writes the stream and the expected text.  `one` writes
a stream of a single case to standard output.  `compare` gives the stream to
PROGRAM on its standard input and compares what it prints; PROGRAM may be
several words.  README.md describes both formats.
"""

import random
import shlex
import subprocess
import sys
from collections import Counter, namedtuple

import generate
from reference import Constant, Position, read_book, refused, wording

Case = namedtuple("Case", "label book number")


# -------------------------------------------------------------- the cases

def asked_number(rng, book):
    """A rule number to ask for: often one of the book, sometimes not."""
    there = [rule.number for rule in rules_of(book)]
    if there and rng.random() < 0.6:
        return rng.choice(there)
    near = rng.choice(there or [7])
    return rng.choice((
        0, 1, near - 1, near + 1, 65535, 65536, near + 65536, 2**32,
        near + 2**32, 2**32 + 65535, near + 2**48, 2**63, 2**64 - 1,
        rng.randrange(65536), rng.randrange(2**64)))


def rules_of(book):
    answer = read_book(book)
    return [] if refused(answer) else answer.rules


def make_cases(seed, count, edges):
    books = generate.edge_books() if edges else []
    for index, book in enumerate(generate.book_cases(seed, count)):
        books.append(("random %d of seed %d" % (index, seed), book))
    # The numbers asked for are drawn apart from the books.
    rng = random.Random(seed + 1)
    return [Case(label, book, asked_number(rng, book))
            for label, book in books]


def case_bytes(book, number):
    """Length (4 bytes), number asked for (8 bytes), then the book."""
    return (len(book).to_bytes(4, "big") + number.to_bytes(8, "big") + book)


# -------------------------------------------------------- expected answers

def expected_text(book, number):
    return book_text(read_book(book)) + wording_text(wording(book, number))


def book_text(answer):
    if refused(answer):
        return "! %d %d\n" % answer
    conditions = sum(len(rule.conditions) for rule in answer.rules)
    lines = ["accepted %d %d\n" % (len(answer.rules), conditions)]
    for rule in answer.rules:
        lines.append("rule %d %d %d\n" % (rule.place, rule.number,
                                          len(rule.conditions)))
        for condition in rule.conditions:
            lines.append("condition %d %d\n" % (condition.place,
                                                len(condition.tests)))
            lines += [test_text(test) for test in condition.tests]
    return "".join(lines)


def test_text(test):
    if isinstance(test, Constant):
        return "constant %d %d %d\n" % test
    if isinstance(test, Position):
        return "position %d %d %d %d\n" % test
    return "gap %d %d %d %d %d\n" % test


def wording_text(answer):
    if refused(answer):
        return "wording ! %d %d\n" % answer
    return "wording %d\n" % answer


# ------------------------------------------------------------- comparison

def summary(cases):
    """How many cases of which refusals, as lines of text."""
    books = Counter()
    wordings = Counter()
    for case in cases:
        answer = read_book(case.book)
        books[answer.number if refused(answer) else 0] += 1
        answer = wording(case.book, case.number)
        wordings[answer.number if refused(answer) else 0] += 1
    lines = ["%d cases" % len(cases)]
    lines.append("books accepted: %d" % books[0])
    for number in range(1, 8):
        lines.append("books refused with %d: %d" % (number, books[number]))
    lines.append("wordings found: %d" % wordings[0])
    lines.append("wordings refused with 17: %d" % wordings[17])
    return lines


def first_difference(cases, printed):
    """A description of the first case answered otherwise, or None."""
    lines = printed.split(b"\n")
    at = 0
    for index, case in enumerate(cases):
        wanted = expected_text(case.book, case.number).encode().split(b"\n")
        wanted.pop()
        got = lines[at:at + len(wanted)]
        if got != wanted:
            return describe(index, case, wanted, got)
        at = at + len(wanted)
    # What follows the last newline has to be nothing.
    if lines[at:] != [b""]:
        return ["the program printed more than was asked, from line %d on:"
                % (at + 1)] + [repr(line) for line in lines[at:at + 3]]
    return None


def describe(index, case, wanted, got):
    here = 0
    while here < len(got) and got[here] == wanted[here]:
        here = here + 1
    shown = repr(got[here].decode("ascii", "replace")) \
        if here < len(got) else "nothing"
    return ["case %d: %s" % (index, case.label),
            "number asked for: %d" % case.number,
            "line %d of its answer" % (here + 1),
            "expected: %r" % wanted[here].decode(),
            "printed:  %s" % shown,
            "book (%d bytes): %s" % (len(case.book), case.book.hex())]


def compare(seed, count, command, edges):
    cases = make_cases(seed, count, edges)
    stream = b"".join(case_bytes(case.book, case.number) for case in cases)
    done = subprocess.run(command, input=stream, stdout=subprocess.PIPE)
    for line in summary(cases):
        print(line)
    difference = first_difference(cases, done.stdout)
    if difference is not None:
        print("FIRST DIFFERENCE")
        for line in difference:
            print(line)
    if done.returncode != 0:
        print("the program ended with status %d" % done.returncode)
    if difference is not None or done.returncode != 0:
        return 1
    print("no difference")
    return 0


# ------------------------------------------------------------ command line

def write(seed, count, file_in, file_out, edges):
    cases = make_cases(seed, count, edges)
    with open(file_in, "wb") as stream:
        for case in cases:
            stream.write(case_bytes(case.book, case.number))
    with open(file_out, "w", newline="\n") as text:
        for case in cases:
            text.write(expected_text(case.book, case.number))
    for line in summary(cases):
        print(line)
    return 0


def one(book_file, number):
    with open(book_file, "rb") as source:
        book = source.read()
    sys.stdout.buffer.write(case_bytes(book, number))
    return 0


def main(words):
    edges = "--edges" in words
    words = [word for word in words if word != "--edges"]
    if len(words) == 5 and words[0] == "write":
        return write(int(words[1]), int(words[2]), words[3], words[4], edges)
    if len(words) == 3 and words[0] == "one":
        return one(words[1], int(words[2]))
    if len(words) >= 4 and words[0] == "compare":
        # One quoted word may itself hold a whole command line.
        command = words[3:] if len(words) > 4 else shlex.split(words[3])
        return compare(int(words[1]), int(words[2]), command, edges)
    sys.stderr.write(__doc__)
    return 2


if __name__ == "__main__":
    sys.exit(main(sys.argv[1:]))
