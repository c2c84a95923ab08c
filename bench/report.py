"""The measured numbers as text for the terminal, as a section of docs/PERFORMANCE.md, and as curves."""

from plot import Curve, Panel

COLUMNS = ("add", "most of add", "remove", "most of remove", "line", "open")
HEADINGS = ("add", "most", "remove", "most", "line", "open")
BEGIN, END = "<!-- measured: begin (bench/run --write) -->", "<!-- measured: end -->"
OURS, BEST, PLAIN = "Malletfrond", "CLIPS at its best", "C, no proofs"
COLOURS = {OURS: (0, 114, 178), PLAIN: (213, 94, 0)}

WHAT_IT_IS = {
    "booka": "Book A, 200 readings in one column",
    "logbook": "24 rules, about 240 readings, about 1,020 tokens",
    "dense": "Book B, 44 readings, 1,980 tokens",
    "dear-gaps": "256th reading, 2,041 tokens appear, 522,496 joins of eight gap tests",
    "dear-apart": "the same with eight inequalities",
    "six-free": "six conditions without tests, third reading, 966 tokens appear",
}


def number(n):
    return "" if n is None else format(n, ",")


def ratio(a, b):
    return "" if a is None or not b else "%.3g" % (a / b)


def ratios(rows):
    """(workload, against whom, ratio of each column): our cost over theirs; under 1 is cheaper."""
    of = {(workload, matcher): numbers for workload, matcher, numbers in rows}
    found = []
    for workload in dict.fromkeys(w for w, _, _ in rows):
        for other in (BEST, PLAIN):
            if (workload, OURS) in of and (workload, other) in of:
                ours, theirs = of[workload, OURS], of[workload, other]
                found.append((workload, other, [ratio(ours[c], theirs[c]) for c in COLUMNS]))
    return found


def tables(rows, dear, series):
    """Every table as (caption, headings, lines of cells)."""
    yield ("Instructions per call. `most` is the dearest single call, `line` a list divided by its lines.",
           ("workload", "matcher") + HEADINGS,
           [(w, m, *(number(n[c]) for c in COLUMNS)) for w, m, n in rows])
    compared = ratios(rows)
    if compared:
        yield ("Malletfrond's cost over the other's; under 1 is cheaper.", ("workload", "against") + HEADINGS,
               [(w, other, *cells) for w, other, cells in compared])
    if dear:
        yield ("The dearest single steps within the limits: one addition, and the removal of the same reading.",
               ("step", "matcher", "add", "remove"), [(w, m, number(a), number(r)) for w, m, a, r in dear])
    for title in dict.fromkeys(t for t, _, _ in series):
        lines = []
        for _, matcher, points in (s for s in series if s[0] == title):
            lines.append((matcher, "add", *(number(a) for _, a, _ in points)))
            lines.append((matcher, "remove", *(number(r) for _, _, r in points)))
        sizes = next(points for t, _, points in series if t == title)
        yield "Growth with %s, all else held still." % title, ("matcher", "step", *(str(size) for size, _, _ in sizes)), lines


def is_word(column, lines):
    return not any(line[column][:1].isdigit() for line in lines)


def text(conditions, rows, dear, series):
    out = [conditions]
    for caption, headings, lines in tables(rows, dear, series):
        widths = [max(len(line[i]) for line in [headings, *lines]) for i in range(len(headings))]
        left = [is_word(i, lines) for i in range(len(headings))]
        out.append("\n" + caption.replace("`", ""))
        for line in [headings, *lines]:
            out.append("  ".join(c.ljust(w) if word else c.rjust(w) for c, w, word in zip(line, widths, left)).rstrip())
    return "\n".join(out)


def markdown(conditions, rows, dear, series):
    out = ["Made with %s." % conditions, ""]
    out += ["- %s: %s" % item for item in WHAT_IT_IS.items()]
    for caption, headings, lines in tables(rows, dear, series):
        marks = ["---" if is_word(i, lines) else "---:" for i in range(len(headings))]
        out += ["", caption, ""]
        out += ["| " + " | ".join(line) + " |" for line in [headings, marks, *lines]]
    out += ["", "![cost of a step while one size is doubled](growth.png)"]
    return "\n".join(out)


FIRST_TEXT = """# What a call costs

`bench/run --write` makes everything between the two marks; [bench/README.md](../bench/README.md) says what each number means.

%s
%s
""" % (BEGIN, END)


def write_section(path, section):
    """Puts the section between the two marks of the file, which is begun if it is not there."""
    try:
        with open(path) as file:
            whole = file.read()
    except FileNotFoundError:
        whole = FIRST_TEXT
    if whole.count(BEGIN) != 1 or END not in whole.split(BEGIN)[1]:
        raise SystemExit("bench: %s lacks the two marks %s and %s" % (path, BEGIN, END))
    before, rest = whole.split(BEGIN)
    after = rest.split(END)[1]
    with open(path, "w") as file:
        file.write(before + BEGIN + "\n\n" + section + "\n\n" + END + after)


def growth_panels(series):
    panels = []
    for title in dict.fromkeys(t for t, _, _ in series):
        curves = []
        for _, matcher, points in (s for s in series if s[0] == title):
            name = "C" if matcher == PLAIN else matcher
            curves.append(Curve(name + " add", COLOURS[matcher], False, [(size, add) for size, add, _ in points]))
            curves.append(Curve(name + " remove", COLOURS[matcher], True, [(size, remove) for size, _, remove in points]))
        panels.append(Panel(title, curves))
    return panels
