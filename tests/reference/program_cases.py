"""The program against the reference: whole runs, byte for byte.

    program_cases.py compare SEED COUNT [--edges] COMMAND

COMMAND is run in a fresh folder for each case, with the case's rules.bk and
steps.bk in it.  What it prints must be what the reference prints.  The last
line says how much was tried.
"""

import shlex
import subprocess
import sys
import tempfile
from pathlib import Path

import generate
import reference

DIRECTORY = object()      # a name that opens and cannot be read


def unreadable_cases():
    """Files that cannot be opened or read: 18, before either is judged."""
    good, none = generate.book_a(), generate.jump_steps()
    return [("no files", None, None), ("no rules", None, none), ("no steps", good, None),
            ("no steps, bad rules", b"", None), ("rules is a folder", DIRECTORY, none),
            ("steps is a folder", good, DIRECTORY), ("steps is a folder, bad rules", b"", DIRECTORY)]


def make_cases(seed, count, edges):
    cases = list(unreadable_cases())
    if edges:
        cases += list(generate.edge_programs())
    return cases + [(f"case {i}", rules, steps) for i, (rules, steps) in enumerate(generate.program_cases(seed, count))]


def put(folder, name, content):
    path = Path(folder) / name
    if content is DIRECTORY:
        path.mkdir()
    elif content is not None:
        path.write_bytes(content)


def printed_by(command, rules, steps):
    with tempfile.TemporaryDirectory() as folder:
        put(folder, "rules.bk", rules)
        put(folder, "steps.bk", steps)
        done = subprocess.run(command, cwd=folder, stdout=subprocess.PIPE, stdin=subprocess.DEVNULL, check=False)
        return done.stdout if done.returncode == 0 else b"ended with %d" % done.returncode


def wanted(rules, steps):
    if rules is DIRECTORY or steps is DIRECTORY:
        return b"! 18 0\n"
    return reference.run_program(rules, steps)


def compare(seed, count, edges, command):
    differences, lines = 0, 0
    cases = make_cases(seed, count, edges)
    for label, rules, steps in cases:
        right = wanted(rules, steps)
        got = printed_by(command, rules, steps)
        lines += right.count(b"\n")
        if got != right:
            differences += 1
            if differences <= 5:
                at = next((i for i, (a, b) in enumerate(zip(got, right)) if a != b), min(len(got), len(right)))
                print(f"{label}: from byte {at} on: wanted {right[at:at + 80]!r}, came {got[at:at + 80]!r}")
    print(f"{len(cases)} runs compared, {lines} lines, {differences} differ")
    return 1 if differences else 0


def main(words):
    if len(words) < 4 or words[0] != "compare":
        print(__doc__)
        return 2
    command = [str(Path(word).resolve()) if Path(word).exists() else word for word in shlex.split(words[-1])]
    return compare(int(words[1]), int(words[2]), "--edges" in words, command)


if __name__ == "__main__":
    sys.exit(main(sys.argv[1:]))
