"""A rule book as CLIPS constructs, one a line: a template for readings, and a rule without action for each rule of the book.

`as_written` is how a user writes the rules: "the line below" is (line =(+ ?line0 1)). CLIPS looks a join up by hash only where a slot is a variable of an
earlier pattern and nothing else, so it walks all readings here. `at_its_best` gives each reading a fourth slot, above = line - 1; "the line below" is then
(above ?line0), and is hashed.
"""

from reference import Constant, Gap, Position, read_book

SLOTS = ("line", "column", "value")
RELATIONS = ("=", "<>", "<", "<=", ">", ">=")
EQUAL, NOT_EQUAL = 0, 1
TOP = 4294967295


def as_written(book):
    return constructs(book, above=False)


def at_its_best(book):
    return constructs(book, above=True)


def constructs(book, above):
    slots = SLOTS + (("above",) if above else ())
    lines = ["(deftemplate reading %s)" % " ".join("(slot %s (type INTEGER))" % s for s in slots)]
    for index, rule in enumerate(read_book(book).rules):
        lines.append("(defrule r%d %s =>)" % (index, " ".join(patterns(rule, above))))
    return "\n".join(lines) + "\n"


def steps_down(test):
    """Is it the test that the fourth slot answers: a line that is one below?"""
    return isinstance(test, Gap) and test.place == test.other == 0 and test.low == test.high == 1


def patterns(rule, above):
    """The conditions as patterns. A slot gets a variable only if a test speaks of it: a variable that nobody names costs work for nothing."""
    names = {(c, p): "?%s%d" % (SLOTS[p], c) for c in range(len(rule.conditions)) for p in range(3)}
    spoken_of = set()
    for c, condition in enumerate(rule.conditions):
        for test in condition.tests:
            note_names(test, c, names, spoken_of)
    for c, condition in enumerate(rule.conditions):
        slots = {s: [] for s in SLOTS + ("above",)}
        for p in range(3):
            if (c, p) in spoken_of:
                slots[SLOTS[p]].append(names[c, p])
        for test in condition.tests:
            if above and steps_down(test) and not slots["above"]:
                slots["above"].append(names[test.condition, test.other])
            else:
                slots[SLOTS[test.place]] += constraints(test, names[c, test.place], names)
        yield "(reading%s)" % "".join(" (%s %s)" % (s, "&".join(parts)) for s, parts in slots.items() if parts)


def note_names(test, c, names, spoken_of):
    """Which slots a test speaks of by a variable. The first equality of a slot with an earlier one makes both one variable, which CLIPS hashes."""
    own = (c, test.place)
    if isinstance(test, Constant):
        if test.relation not in (EQUAL, NOT_EQUAL):
            spoken_of.add(own)
        return
    named = (test.condition, test.other)
    assert test.condition < c, "a test of a reading with itself is not written here"
    spoken_of.add(named)
    if isinstance(test, Gap):
        if test.low != test.high:
            spoken_of.add(own)
    elif test.relation == EQUAL and names[own] == "?%s%d" % (SLOTS[test.place], c):
        names[own] = names[named]
        spoken_of.add(own)
    elif test.relation not in (EQUAL, NOT_EQUAL):
        spoken_of.add(own)


def constraints(test, own, names):
    if isinstance(test, Constant):
        return [compared(test.relation, own, str(test.number))]
    other = names[test.condition, test.other]
    if isinstance(test, Position):
        return [] if test.relation == EQUAL and own == other else [compared(test.relation, own, other)]
    if test.low == test.high:
        return ["=(+ %s %d)" % (other, test.low)]
    ends = []
    if test.low > -TOP:
        ends.append(":(>= (- %s %s) %d)" % (own, other, test.low))
    if test.high < TOP:
        ends.append(":(<= (- %s %s) %d)" % (own, other, test.high))
    return ends


def compared(relation, own, other):
    if relation == EQUAL:
        return other
    if relation == NOT_EQUAL:
        return "~" + other
    return ":(%s %s %s)" % (RELATIONS[relation], own, other)
