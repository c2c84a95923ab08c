"""Holds a matcher's answers to the reference of tests/reference, which works every match out anew: the fixed list of programs and random ones.

Only books that are accepted are tried: the matcher in plain C takes its book to be well formed. CLIPS is left out, since it is given its rules as text and
not every test can be written so; its answers are compared on the workloads.
"""

import os
import subprocess
import tempfile

import generate
import reference

SEED = 20


def cases(count):
    """Rules and steps of programs whose book is accepted."""
    listed = [(rules, steps) for _, rules, steps in generate.edge_programs()] + list(generate.program_cases(SEED, count))
    return [(rules, steps) for rules, steps in listed
            if rules is not None and steps is not None and not reference.refused(reference.read_book(rules))]


def printed_by(command, rules, steps):
    with tempfile.TemporaryDirectory() as folder:
        names = [os.path.join(folder, name) for name in ("rules.bk", "steps.bk")]
        for name, data in zip(names, (rules, steps)):
            with open(name, "wb") as file:
                file.write(data)
        return subprocess.run([*command, *names], stdin=subprocess.DEVNULL, stdout=subprocess.PIPE, check=True).stdout


def compare(commands, count):
    """How many programs were tried, and for each command (a name and its words) on how many it differs."""
    tried, differ = 0, dict.fromkeys(commands, 0)
    for rules, steps in cases(count):
        right = reference.run_program(rules, steps)
        tried += 1
        for name, command in commands.items():
            differ[name] += printed_by(command, rules, steps) != right
    return tried, differ
