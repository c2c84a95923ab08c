"""The library called from outside, through its archive, against the reference.

    outside.py DRIVER_COMMAND [--seed N] [--scale N]

DRIVER_COMMAND runs the program of driver.c.  What is tried:

- runs: seeded books, limits and steps; every answer, the counts and the check
  after every step, the memories and tokens decoded from the room's bytes by
  the table of docs/ROOM.md alone, and lines into buffers of every length;
- refusals: each number of each call, in the order in which they are tried;
- order: rooms in which the readings do not ascend, which no call leaves; a
  step still finds a reading where halving comes to it, as it always did;
- damage: rooms changed at random and rooms of random bytes, with guard bytes
  around what is lent; a call always comes back, nothing outside changes and a
  refusal changes nothing; where the rule of docs/ROOM.md says broken it is 10,
  and the check says what the reference says of the bytes.

Everything is seeded and bounded.  The last line says how much was tried.
"""

import random
import shlex
import subprocess
import sys
from pathlib import Path

sys.path.insert(0, str(Path(__file__).parent.parent / "reference"))

import generate
import reference

SENTINEL = 77
BOOK, CONDITION_PLACES, RULE_PLACES, RULE_CONDITIONS = 16, 8208, 8592, 8656
ENDS, COMPLETES, ORDER, SLOTS, ROWS, NODES = 8688, 8752, 8816, 9072, 12144, 18288
HEADER = ("E", "T", "n", "t", "length", "rules", "conditions", "zero")


def formula(E, T):
    return 18288 + 2 * T


# ------------------------------------------------ what a room holds, by bytes

def two(room, at):
    return int.from_bytes(room[at:at + 2], "big")


def header(room):
    return {name: two(room, 2 * i) for i, name in enumerate(HEADER)}


def is_broken(room):
    """The rule behind refusal 10, as docs/ROOM.md lists it."""
    if len(room) < 16:
        return True
    h = header(room)
    if not 1 <= h["E"] <= 256 or not 1 <= h["T"] <= 2048:
        return True
    if h["n"] > h["E"] or h["t"] > h["T"]:
        return True
    if h["length"] > 8192 or h["rules"] > 32 or h["conditions"] > 192 or h["zero"]:
        return True
    if len(room) < formula(h["E"], h["T"]):
        return True
    counts = room[RULE_CONDITIONS:RULE_CONDITIONS + h["rules"]]
    if any(not 1 <= k <= 6 for k in counts) or sum(counts) != h["conditions"]:
        return True
    return any(two(room, table + 2 * r) > h["t"]
               for table in (ENDS, COMPLETES) for r in range(h["rules"]))


def reading_at(room, slot):
    at = SLOTS + 12 * slot
    return tuple(int.from_bytes(room[at + i:at + i + 4], "big") for i in (0, 4, 8))


def held(room):
    """Readings, memories, tokens, ends and complete matches, read off the bytes."""
    h = header(room)
    order = list(room[ORDER:ORDER + 256])
    used = order[:h["n"]]
    readings = [reading_at(room, s) for s in used]
    memories = [[reading_at(room, s) for s in used
                 if room[ROWS + 24 * s + c // 8] >> c % 8 & 1]
                for c in range(h["conditions"])]
    counts = list(room[RULE_CONDITIONS:RULE_CONDITIONS + h["rules"]])
    level = [i for k in counts for i in range(k)]
    tokens, carried = [], []
    for i in range(h["t"]):
        node = room[NODES + i]
        slot = room[NODES + h["T"] + i]
        if node >= len(level):
            return None
        carried = carried[:level[node]] + [reading_at(room, slot)]
        tokens.append((node, tuple(carried)))
    return {
        "book": bytes(room[BOOK:BOOK + h["length"]]),
        "order": order,
        "readings": readings,
        "memories": memories,
        "tokens": tokens,
        "lasts": list(room[NODES + h["T"]:NODES + h["T"] + h["t"]]),
        "ends": [two(room, ENDS + 2 * r) for r in range(h["rules"])],
        "completes": [two(room, COMPLETES + 2 * r) for r in range(h["rules"])],
        "counts": counts,
        "rule places": [two(room, RULE_PLACES + 2 * r) for r in range(h["rules"])],
        "condition places": [two(room, CONDITION_PLACES + 2 * c) for c in range(h["conditions"])],
    }


def places_of(book):
    """Offsets of the rules' records and of the conditions' first tests."""
    rules, conditions, at = [], [], 0
    while at < len(book):
        if book[at] == 1:
            rules.append(at)
        if book[at] == 2:
            conditions.append(at + 1)
        at += 1 + reference.BODY_LENGTH[book[at]]
    return rules, conditions


def tokens_wanted(room):
    """The reference's tokens in stored order: rule by rule, each token followed
    at once by those built on it, siblings by their last reading."""
    wanted, ends, completes, base, complete = [], [], [], 0, 0
    for rule, levels in zip(room.book.rules, room.of_rules):
        found = [tuple(map(tuple, match)) for level in levels[1:] for match in level]
        # A tuple stands before what is built on it, so plain order is stored order.
        for match in sorted(found):
            wanted.append((base + len(match) - 1, match))
        complete += sum(len(match) == len(rule.conditions) for match in found)
        base += len(rule.conditions)
        ends.append(len(wanted))
        completes.append(complete)
    return wanted, ends, completes


def wanted_held(room):
    tokens, ends, completes = tokens_wanted(room)
    rules, conditions = places_of(room.book_bytes)
    return {
        "book": room.book_bytes,
        "readings": [tuple(r) for r in room.present],
        "memories": [[tuple(r) for r in m] for _, _, m in room.memories()],
        "tokens": tokens,
        "ends": ends,
        "completes": completes,
        "counts": [len(rule.conditions) for rule in room.book.rules],
        "rule places": rules,
        "condition places": conditions,
    }


def is_sound(room):
    """Whether the bytes hold what the definition says of their own book,
    limits and readings."""
    if is_broken(room):
        return False
    h = header(room)
    now = held(room)
    if now is None or len(set(now["order"])) != 256:
        return False
    if now["readings"] != sorted(set(now["readings"])):
        return False
    if any(s not in now["order"][:h["n"]] for s in now["lasts"]):
        return False
    wanted = reference.Room(now["book"], h["E"], h["T"])
    if reference.refused(wanted.open()):
        return False
    wanted.present = [reference.Reading(*r) for r in now["readings"]]
    of_rules = reference.matches_of_book(wanted.book, wanted.present, h["T"])
    if of_rules is None:
        return False
    wanted.of_rules = of_rules
    return all(now[name] == value for name, value in wanted_held(wanted).items())


# ------------------------------------------------------------ the conversation

class Script:
    """Commands for the driver, and what each line that comes back must be."""

    def __init__(self):
        self.commands = []
        self.expected = []
        self.tried = 0

    def send(self, letter, *parts):
        self.commands.append(letter.encode() + b"".join(parts))

    def expect(self, check, what):
        """`check` takes the line that came back and says what is wrong, or None."""
        self.expected.append((check, what))
        self.tried += 1


def number(value, width):
    return value.to_bytes(width, "big")


def slice_of(data):
    return number(len(data), 4) + data


def is_line(text):
    return lambda line: None if line == text else f"wanted {text}"


def talk(command, script):
    done = subprocess.run(command, input=b"".join(script.commands), stdout=subprocess.PIPE, check=False)
    lines = done.stdout.decode().split("\n")[:-1]
    if done.returncode != 0:
        return f"the driver ended with {done.returncode} after {len(lines)} of {len(script.expected)} lines"
    if len(lines) != len(script.expected):
        bad = [line for line in lines if line in ("GUARD", "CHANGED", "UNKNOWN")]
        return f"{len(lines)} lines for {len(script.expected)} calls; {bad[:3]}"
    for line, (check, what) in zip(lines, script.expected):
        wrong = check(line)
        if wrong:
            return f"{what}: came back {line[:200]}; {wrong[:300]}"
    return None


# ------------------------------------------------------------------- the runs

def ask_step(script, room, adding, reading):
    answer = room.add(reading) if adding else room.remove(reading)
    script.send("A" if adding else "R", *(number(x, 4) for x in reading))
    text = (f"{answer.number} {SENTINEL} {SENTINEL} {SENTINEL}" if reference.refused(answer)
            else "0 %d %d %d" % tuple(answer))
    script.expect(is_line(text), f"{'add' if adding else 'remove'} {reading}")


def ask_counts(script, room):
    script.send("C")
    script.expect(is_line("0 %d %d %d" % room.counts()), "counts")


def ask_check(script, yes):
    script.send("K")
    script.expect(is_line("1" if yes else "0"), "check")


def ask_line(script, room, k, length):
    answer = room.line(k, length)
    script.send("L", number(k, 8), number(length, 4))
    if reference.refused(answer):
        text = f"{answer.number} {SENTINEL} " + "5a" * length
    else:
        text = f"0 {len(answer)} " + (answer + b"\x5a" * (length - len(answer))).hex()
    script.expect(is_line(text), f"line {k} into {length}")


def ask_held(script, room):
    wanted = wanted_held(room)
    h = {"E": room.E, "T": room.T}

    def check(line):
        data = bytes.fromhex(line)
        now = held(data)
        if now is None:
            return "a node out of range"
        got = header(data)
        for name, value in h.items():
            if got[name] != value:
                return f"{name} is {got[name]}"
        for name, value in wanted.items():
            if now[name] != value:
                return f"{name} differ"
        return None

    script.send("D")
    script.expect(check, "what the room holds")


def random_pool(rng):
    return [rng.choice((0, 1, 2, 3, 110, 140, 710, 2**31, 2**32 - 1)) for _ in range(rng.randint(2, 5))]


def run_case(rng, script):
    pool = random_pool(rng)
    book = generate.random_book(rng, pool) if rng.random() < 0.8 else rng.choice(
        [generate.book_a(), generate.book_b(), b"\x09"])
    E = rng.choice((1, 2, 3, 5, 17, 255, 256))
    T = rng.choice((1, 2, 5, 6, 40, 300, 2047, 2048))
    room = reference.Room(book, E, T)
    if reference.refused(room.open()):
        return
    spare = rng.choice((0, 1, 100))
    script.send("N", number(formula(E, T) + spare, 4), number(rng.randrange(256), 1))
    script.send("O", slice_of(book), number(E, 8), number(T, 8))
    script.expect(is_line(f"0 {SENTINEL}"), "open")
    readings = [tuple(rng.choice(pool) for _ in range(3)) for _ in range(rng.randint(1, 9))]
    for _ in range(rng.randint(1, 25)):
        ask_step(script, room, rng.random() < 0.65, rng.choice(readings))
        ask_check(script, True)
        ask_counts(script, room)
        ask_held(script, room)
        if rng.random() < 0.3:
            count = room.counts()[2]
            ask_line(script, room, rng.choice((0, count // 2, max(count - 1, 0), count, 2**32 + 1, 2**64 - 1)),
                     rng.randint(0, 231))
    for k in range(min(room.counts()[2], 12) + 1):
        ask_line(script, room, k, 231)


def buffer_cases(script):
    """One room with a line as long as can be: every length of buffer."""
    top = 2**32 - 1
    book = generate.rule(65535, b"x" * 24) + generate.COND * 6 + generate.END
    room = reference.Room(book, 256, 2048)
    room.open()
    script.send("N", number(formula(256, 2048), 4), number(0, 1))
    script.send("O", slice_of(book), number(256, 8), number(2048, 8))
    script.expect(is_line(f"0 {SENTINEL}"), "open")
    ask_step(script, room, True, (top, top, top))
    for length in range(232):
        ask_line(script, room, 0, length)


# --------------------------------------------------------------- the refusals

def refusal_cases(script):
    book, none = generate.book_b(), b"\x09"

    def opened(E, T, length=None, book=book):
        script.send("N", number(formula(E, T) if length is None else length, 4), number(3, 1))
        script.send("O", slice_of(book), number(E, 8), number(T, 8))

    for E, T in ((0, 1), (257, 1), (1, 0), (1, 2049), (2**64 - 1, 1), (1, 2**64 - 1), (2**32, 2**32)):
        script.send("N", number(100, 4), number(3, 1))
        script.send("O", slice_of(b""), number(E, 8), number(T, 8))
        script.expect(is_line("8 0"), f"open with {E}, {T}")
    for length in (0, 1, 15, 16, formula(2, 6) - 1):
        opened(2, 6, length, book=b"")
        script.expect(is_line("9 0"), f"open in {length} bytes")
    for _, bad, answer in generate.expected_books():
        opened(2, 6, book=bad)
        script.expect(is_line(f"0 {SENTINEL}" if answer is None else "%d %d" % tuple(answer)), "open a book")
    for rule, text in ((1, "0 3"), (2, "17 0"), (0, "17 0"), (2**64 - 1, "17 0"), (2**16 + 1, "17 0")):
        script.send("W", slice_of(book), number(rule, 8))
        script.expect(is_line(text), f"wording of {rule}")
    script.send("W", slice_of(b""), number(1, 8))
    script.expect(is_line("2 0"), "wording in no book")
    room = reference.Room(book, 2, 5)
    room.open()
    opened(2, 5)
    script.expect(is_line(f"0 {SENTINEL}"), "open")
    for adding, reading in ((False, (1, 1, 1)), (True, (1, 1, 1)), (True, (1, 1, 1)), (True, (1, 1, 2)), (False, (1, 1, 2)), (False, (1, 1, 1))):
        ask_step(script, room, adding, reading)
    room = reference.Room(none, 2, 1)
    room.open()
    opened(2, 1, book=none)
    script.expect(is_line(f"0 {SENTINEL}"), "open")
    for adding, reading in ((True, (1, 1, 1)), (True, (1, 1, 2)), (True, (1, 1, 2)), (True, (1, 1, 3)), (False, (1, 1, 1)), (True, (1, 1, 3))):
        ask_step(script, room, adding, reading)
    ask_line(script, room, 0, 0)
    # Every call refuses a broken room by 10, before anything else.
    for length in (0, 1, 15, 16, 18288, 18289):
        script.send("N", number(length, 4), number(0, 1))
        for letter in "AR":
            script.send(letter, *(number(1, 4) for _ in range(3)))
            script.expect(is_line(f"10 {SENTINEL} {SENTINEL} {SENTINEL}"), "a step in a broken room")
        script.send("C")
        script.expect(is_line(f"10 {SENTINEL} {SENTINEL} {SENTINEL}"), "counts of a broken room")
        script.send("L", number(0, 8), number(0, 4))
        script.expect(is_line(f"10 {SENTINEL} "), "a line of a broken room")
        ask_check(script, False)


# ------------------------------------------------------------------ the order

def place_by_halving(readings, reading):
    """Where a step looks for a reading: behind those that come before it, if they ascend."""
    low, high = 0, len(readings)
    while low < high:
        middle = (low + high) // 2
        if readings[middle] < reading:
            low = middle + 1
        else:
            high = middle
    return low


def order_case(rng, script):
    """Readings of which no rule asks anything, their slots shuffled in the room's bytes."""
    count, E = rng.randint(2, 12), rng.choice((12, 256))
    script.send("N", number(formula(E, 1), 4), number(0, 1))
    script.send("O", slice_of(b"\x09"), number(E, 8), number(1, 8))
    script.expect(is_line(f"0 {SENTINEL}"), "open")
    readings = [(1, 1, 2 * i) for i in range(count)]
    for i, reading in enumerate(readings):
        script.send("A", *(number(x, 4) for x in reading))
        script.expect(is_line(f"0 {i + 1} 0 0"), f"add {reading}")
    # Added in their order, each took the slot of its own number.
    slots = rng.sample(range(count), count)
    for i, slot in enumerate(slots):
        script.send("P", number(ORDER + i, 4), number(slot, 1))
    held_now = [readings[slot] for slot in slots]
    for _ in range(12):
        adding, reading = rng.random() < 0.5, (1, 1, rng.randint(0, 2 * count))
        place = place_by_halving(held_now, reading)
        present = place < len(held_now) and held_now[place] == reading
        if adding:
            refusal = 11 if present else 13 if len(held_now) == E else 0
        else:
            refusal = 0 if present else 12
        if refusal == 0:
            held_now[place:place + (not adding)] = [reading] if adding else []
        script.send("A" if adding else "R", *(number(x, 4) for x in reading))
        script.expect(is_line(f"0 {len(held_now)} 0 0" if refusal == 0 else f"{refusal} {SENTINEL} {SENTINEL} {SENTINEL}"),
                      f"{'add' if adding else 'remove'} {reading} where {held_now} stand")
        ask_check(script, held_now == sorted(set(held_now)))


# ----------------------------------------------------------------- the damage

NUMBERS = {"A": (0, 11, 13, 14), "R": (0, 12), "L": (0, 15, 16)}


def any_of(numbers, broken):
    def check(line):
        got = int(line.split(" ")[0])
        if broken:
            return None if got == 10 else "wanted 10"
        return None if got in numbers else f"wanted one of {numbers}"
    return check


def whole_room(rng):
    """The bytes of a room after some steps, made by the reference alone."""
    pool = random_pool(rng)
    book = generate.random_book(rng, pool, most_rules=3, most_conditions=3)
    room = reference.Room(book, 256, 60)
    if reference.refused(room.open()):
        return None
    for _ in range(rng.randint(1, 12)):
        room.add(tuple(rng.choice(pool) for _ in range(3)))
    wanted = wanted_held(room)
    slots = rng.sample(range(256), 256)
    data = bytearray(rng.randrange(256) for _ in range(formula(256, 60) + 9))
    numbers = (256, 60, len(room.present), len(wanted["tokens"]), len(book),
               len(wanted["counts"]), sum(wanted["counts"]), 0)
    for i, value in enumerate(numbers):
        data[2 * i:2 * i + 2] = number(value, 2)
    data[BOOK:BOOK + len(book)] = book
    for table, name in ((CONDITION_PLACES, "condition places"), (RULE_PLACES, "rule places"), (ENDS, "ends"), (COMPLETES, "completes")):
        for i, value in enumerate(wanted[name]):
            data[table + 2 * i:table + 2 * i + 2] = number(value, 2)
    data[RULE_CONDITIONS:RULE_CONDITIONS + len(wanted["counts"])] = bytes(wanted["counts"])
    data[ORDER:ORDER + 256] = bytes(slots)
    at = {}
    for slot, reading in zip(slots, wanted["readings"]):
        at[reading] = slot
        data[SLOTS + 12 * slot:SLOTS + 12 * slot + 12] = b"".join(number(x, 4) for x in reading)
        for c, memory in enumerate(wanted["memories"]):
            byte = ROWS + 24 * slot + c // 8
            data[byte] = data[byte] & ~(1 << c % 8) | (reading in memory) << c % 8
    for i, (node, match) in enumerate(wanted["tokens"]):
        data[NODES + i] = node
        data[NODES + 60 + i] = at[match[-1]]
    return data


def use_any(rng, script, data):
    """Every call on these bytes; after a step the bytes are put back."""
    broken = is_broken(data)
    ask_check(script, is_sound(data))
    script.send("C")
    script.expect(any_of((0,), broken), "counts of a damaged room")
    for k in (0, 1, rng.randrange(60), 2**63):
        script.send("L", number(k, 8), number(rng.choice((0, 20, 100, 230, 231)), 4))
        script.expect(any_of(NUMBERS["L"], broken), "a line of a damaged room")
    for _ in range(3):
        letter = rng.choice("AR")
        n = header(data)["n"] if len(data) >= 16 and not broken else 0
        reading = tuple(rng.choice((0, 1, 110, 2**32 - 1)) for _ in range(3))
        if n and rng.random() < 0.5:
            reading = reading_at(data, data[ORDER + rng.randrange(min(n, 256))])
        script.send(letter, *(number(x, 4) for x in reading))
        script.expect(any_of(NUMBERS[letter], broken), "a step in a damaged room")
        script.send("X", slice_of(bytes(data)))


def damaged(rng, data):
    data = bytearray(data)
    for _ in range(rng.choice((0, 1, 1, 1, 2, 5, 40))):
        h = header(data)
        part = rng.choice(((0, 16), (0, 16), (BOOK, BOOK + max(h["length"], 1)), (CONDITION_PLACES, RULE_PLACES), (RULE_PLACES, RULE_CONDITIONS),
                           (RULE_CONDITIONS, ENDS), (ENDS, COMPLETES), (COMPLETES, ORDER), (ORDER, ORDER + 16), (SLOTS, ROWS), (ROWS, NODES),
                           (NODES, NODES + 60), (NODES + 60, NODES + 120), (0, len(data))))
        place = rng.randrange(part[0], min(part[1], len(data)))
        data[place] = rng.choice((data[place] ^ 1 << rng.randrange(8), rng.randrange(256), 0, 255))
    return data


def plausible(rng):
    """Random bytes with a header that passes the rule, more often than not."""
    data = bytearray(rng.randrange(256) for _ in range(formula(256, 2048)))
    rules = rng.randint(0, 32)
    counts = [rng.randint(1, 6) for _ in range(rules)]
    n, t = rng.randint(0, 256), rng.choice((0, 1, 100, 2047, 2048))
    for i, value in enumerate((256, 2048, n, t, rng.randint(0, 8192), rules, sum(counts), 0)):
        data[2 * i:2 * i + 2] = number(value, 2)
    data[RULE_CONDITIONS:RULE_CONDITIONS + rules] = bytes(counts)
    for table in (ENDS, COMPLETES):
        values = [rng.randint(0, t) for _ in range(rules)]
        if rng.random() < 0.7:
            values.sort()
        for r, value in enumerate(values):
            data[table + 2 * r:table + 2 * r + 2] = number(value, 2)
    if rng.random() < 0.7:
        for i in range(t):
            data[NODES + i] = rng.randrange(max(sum(counts), 1))
    return data


def damage_case(rng, script):
    kind = rng.random()
    if kind < 0.75:
        whole = whole_room(rng)
        if whole is None:
            return
        data = damaged(rng, whole)
    elif kind < 0.95:
        data = plausible(rng)
    else:
        data = bytearray(rng.randrange(256) for _ in range(rng.choice((0, 5, 16, 200, 18288, 22384))))
    script.send("N", number(len(data), 4), number(0, 1))
    script.send("X", slice_of(bytes(data)))
    use_any(rng, script, data)


# ----------------------------------------------------------------------- main

def main(words):
    seed, scale = 20261115, 300
    if "--seed" in words:
        seed = int(words[words.index("--seed") + 1])
    if "--scale" in words:
        scale = int(words[words.index("--scale") + 1])
    command = shlex.split(words[0])
    failed, tried = 0, 0
    groups = [("refusals", 1, lambda rng, script: refusal_cases(script)),
              ("buffers", 1, lambda rng, script: buffer_cases(script)),
              ("runs", 6 * scale, run_case),
              ("order", scale, order_case),
              ("damage", 6 * scale, damage_case)]
    for name, count, case in groups:
        calls = 0
        for i in range(0, count, 50):
            script = Script()
            for j in range(i, min(i + 50, count)):
                case(random.Random(f"{seed} {name} {j}"), script)
            wrong = talk(command, script)
            calls += script.tried
            if wrong:
                failed += 1
                print(f"{name}, cases {i} and on: {wrong}")
        print(f"{name}: {count} cases, {calls} calls compared")
        tried += calls
    print(f"{tried} calls compared, {failed} groups of cases differ")
    return 1 if failed else 0


if __name__ == "__main__":
    sys.exit(main(sys.argv[1:]))
