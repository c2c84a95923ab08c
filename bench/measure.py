"""Builds the measured programs, runs them under QEMU, holds their answers together and prints instructions per call."""

import argparse
import hashlib
import os
import re
import shutil
import signal
import subprocess
import sys
import tempfile
from collections import namedtuple

import workloads      # first: it makes tests/reference known to the others
import answers
import plot
from clips_rules import as_written, at_its_best
from report import growth_panels, markdown, text, write_section

HERE = os.path.dirname(os.path.abspath(__file__))
ROOT = os.path.dirname(HERE)
BUILT = os.path.join(ROOT, "target", "bench")
ARCHIVE = os.path.join(ROOT, "target", "staticlib", "libmalletfrond_c.a")
CC = os.environ.get("CC", "gcc")
QEMU = "qemu-x86_64"

# The numbers of marks.h.
OPENING, ADDITION, REMOVAL, LISTING = 1, 2, 3, 4

# `rules` gives a matcher that reads no rule book the rules as text.
Matcher = namedtuple("Matcher", "name title rules counts_tokens")
OURS = Matcher("ours", "Malletfrond", None, True)
CLIPS = Matcher("clips", "CLIPS as written", as_written, False)
CLIPS_BEST = Matcher("clips-best", "CLIPS at its best", at_its_best, False)
PLAIN = Matcher("plain", "C, no proofs", None, True)
MATCHERS = [OURS, CLIPS, CLIPS_BEST, PLAIN]

# calls: (part, instructions) in order; output: what the program printed; blocks: (address, part, instructions) for a profile.
Run = namedtuple("Run", "calls output blocks")


# ------------------------------------------------------------------ building

def say(words):
    print(words, file=sys.stderr, flush=True)


def source(name):
    return os.path.join(HERE, name)


def build_plugin():
    """The plugin runs inside QEMU, so it is made for the processor at hand."""
    output = os.path.join(BUILT, "count.so")
    subprocess.run(["gcc", "-O2", "-shared", "-fPIC", "-fvisibility=hidden", "-o", output, source("count.c")], check=True)


def build_program(matcher, archive):
    if matcher is OURS:
        parts = [source("ours.c"), archive]
    elif matcher is PLAIN:
        parts = [source("plain.c")]
    else:
        parts = clips_parts(matcher)
    output = os.path.join(BUILT, matcher.name)
    subprocess.run([CC, "-O3", "-static", "-o", output, source("program.c"), *parts], check=True)


def clips_parts(matcher):
    folder = os.path.join(BUILT, "clips-6.30")
    build_clips(folder)
    parts = ["-w", "-DPROFILING_FUNCTIONS=0", "-DDEBUGGING_FUNCTIONS=0", "-I" + os.path.join(folder, "include")]
    if matcher is CLIPS_BEST:
        parts.append("-DABOVE")
    return parts + [source("clips.c"), os.path.join(folder, "libclips.a"), static_libm()]


def static_libm():
    """libm.a of Debian's cross compiler is a text that names folders of another system; the archive beside it is the library itself."""
    libc = subprocess.run([CC, "-print-file-name=libc.a"], check=True, capture_output=True, text=True).stdout.strip()
    folder = os.path.dirname(libc)
    found = [name for name in sorted(os.listdir(folder)) if re.fullmatch(r"libm-[0-9.]+\.a", name)]
    return os.path.join(folder, found[0]) if found else "-lm"


def build_clips(folder):
    if not os.path.exists(os.path.join(folder, "libclips.a")):
        say("bench: CLIPS is fetched and compiled, once; about a minute")
        subprocess.run([source("clips.sh"), folder], check=True, env=dict(os.environ, CC=CC))


def find_archive(wanted):
    """The archive to measure; it is made if it is not there and the Rattle kit is."""
    if wanted != ARCHIVE or os.path.exists(ARCHIVE):
        return os.path.abspath(wanted)
    if shutil.which("rt"):
        say("bench: the archive is made, for which every crate is proved; some minutes")
        subprocess.run(["tools/build", "malletfrond_c"], cwd=ROOT, check=False, stdout=sys.stderr)
    return ARCHIVE


# ----------------------------------------------------------------- measuring

def steady():
    """The command in front of QEMU that keeps addresses from changing from run to run, where the system allows it."""
    prefix = ["setarch", "-R"]
    return prefix if subprocess.run([*prefix, "true"], capture_output=True).returncode == 0 else []


def run(matcher, workload, blocks=False):
    """One run under QEMU, without environment and in a folder whose path has always the same length: the C library keeps the program's path in memory, and where
    CLIPS finds its memory enters the count of its opening."""
    with tempfile.TemporaryDirectory(dir="/tmp") as folder:
        shutil.copy(os.path.join(BUILT, matcher.name), os.path.join(folder, "program"))
        shutil.copy(os.path.join(BUILT, "count.so"), folder)
        workloads.write(workload, folder)
        names = ["rules.bk", "steps.bk"]
        if matcher.rules:
            with open(os.path.join(folder, "rules.clp"), "w") as file:
                file.write(matcher.rules(workload.book))
            names.append("rules.clp")
        plugin = "file=./count.so,out=count.txt" + (",blocks=1" if blocks else "")
        command = [*steady(), shutil.which(QEMU), "-cpu", "Nehalem", "-plugin", plugin, "./program", *names]
        done = subprocess.run(command, cwd=folder, env={}, stdin=subprocess.DEVNULL, capture_output=True, timeout=900)
        if done.returncode:
            sys.exit("bench: %s on %s ends with %d\n%s" % (matcher.title, workload.name, done.returncode, done.stderr.decode()))
        with open(os.path.join(folder, "count.txt")) as file:
            lines = [line.split() for line in file]
    calls = [(int(words[1]), int(words[2])) for words in lines if words[0] == "call"]
    pieces = [(int(words[1], 16), int(words[2]), int(words[3])) for words in lines if words[0] == "block"]
    return Run(calls, done.stdout, pieces)


def without_token_counts(output):
    return re.sub(rb"(?m)^([+-] \d+) \d+ ", rb"\1 ? ", output)


class Judge:
    """Holds every output to the sum of the right one, or to the output of the first matcher that counts tokens."""

    def __init__(self):
        self.right, self.wrong = {}, []

    def hear(self, matcher, workload, output):
        right = self.right.get(workload.name)
        if right is None and matcher.counts_tokens:
            sum_of_it = hashlib.sha256(output).hexdigest()
            if sum_of_it == workloads.OUTPUTS.get(workload.name, sum_of_it):
                self.right[workload.name] = right = output
        if right is None or output != (right if matcher.counts_tokens else without_token_counts(right)):
            self.wrong.append("%s on %s" % (matcher.title, workload.name))


def cells(measured):
    """The numbers of a row: add, the dearest, remove, the dearest, a line, the opening."""
    of = {part: [n for p, n in measured.calls if p == part] for part in (OPENING, ADDITION, REMOVAL, LISTING)}
    lines = sum(int(n) for n in re.findall(rb"(?m)^= (\d+)$", measured.output))

    def mean(numbers):
        return round(sum(numbers) / len(numbers)) if numbers else None
    return {"add": mean(of[ADDITION]), "most of add": max(of[ADDITION]), "remove": mean(of[REMOVAL]), "most of remove": max(of[REMOVAL]),
            "line": round(sum(of[LISTING]) / lines) if lines else None, "open": sum(of[OPENING])}


def after_filling(measured):
    """Add and remove of a growth workload: means of the calls after its first list, with which the filling ends."""
    parts = [part for part, _ in measured.calls]
    rest = measured.calls[parts.index(LISTING) + 1:]

    def mean(part):
        numbers = [n for p, n in rest if p == part]
        return round(sum(numbers) / len(numbers))
    return mean(ADDITION), mean(REMOVAL)


def measure_table(matchers, judge):
    """(workload, matcher, numbers) for the workloads; (workload, matcher, dearest addition, removal) for the single steps."""
    rows, dear = [], []
    for workload in workloads.named():
        for matcher in matchers:
            measured = run(matcher, workload)
            judge.hear(matcher, workload, measured.output)
            rows.append((workload.name, matcher.title, cells(measured)))
    for workload in workloads.dearest():
        for matcher in matchers:
            if matcher is CLIPS:
                continue      # no test of these books is helped by the fourth slot: one row for CLIPS is enough
            measured = run(matcher, workload)
            judge.hear(matcher, workload, measured.output)
            numbers = cells(measured)
            dear.append((workload.name, matcher.title, numbers["most of add"], numbers["most of remove"]))
    return rows, dear


def measure_growth(matchers, judge):
    """(what is doubled, matcher, [(size, add, remove)])."""
    series = []
    for title, points in workloads.growth():
        for matcher in matchers:
            found = []
            for point in points:
                measured = run(matcher, point.workload)
                judge.hear(matcher, point.workload, measured.output)
                found.append((point.size, *after_filling(measured)))
            series.append((title, matcher.title, found))
    return series


# ------------------------------------------------------------------- profile

def functions_of(program):
    """Addresses and names of the program's functions, ascending."""
    listed = subprocess.run(["nm", "-n", "-C", program], check=True, capture_output=True, text=True).stdout
    found = re.findall(r"(?m)^([0-9a-f]+) [tTwWiI] (.+)$", listed)
    return [(int(address, 16), name) for address, name in found]


def function_at(functions, address):
    low, high = 0, len(functions)
    while high - low > 1:
        middle = (low + high) // 2
        low, high = (middle, high) if functions[middle][0] <= address else (low, middle)
    start, name = functions[low]
    return name, address - start


def profile(matcher, workload):
    """Instructions by function, apart for additions, removals and lists; then the pieces of code that take most."""
    measured = run(matcher, workload, blocks=True)
    functions = functions_of(os.path.join(BUILT, matcher.name))
    by_function, by_piece = {}, {}
    for address, part, n in measured.blocks:
        if part in (ADDITION, REMOVAL, LISTING):
            name, offset = function_at(functions, address)
            by_function.setdefault(name, dict.fromkeys((ADDITION, REMOVAL, LISTING), 0))[part] += n
            by_piece[name, offset, address] = by_piece.get((name, offset, address), 0) + n
    total = sum(sum(parts.values()) for parts in by_function.values())
    print("%s on %s: instructions\n%14s %14s %14s %7s  function" % (matcher.title, workload.name, "add", "remove", "list", "share"))
    for name, parts in sorted(by_function.items(), key=lambda item: -sum(item[1].values())):
        if sum(parts.values()) * 1000 >= total:
            print("%14s %14s %14s %6.1f%%  %s" % (*(format(parts[p], ",") for p in parts), 100 * sum(parts.values()) / total, name))
    print("\n%14s %7s  piece (addresses of %s)" % ("instructions", "share", os.path.relpath(os.path.join(BUILT, matcher.name), ROOT)))
    for (name, offset, address), n in sorted(by_piece.items(), key=lambda item: -item[1])[:20]:
        print("%14s %6.1f%%  %x  %s + %d" % (format(n, ","), 100 * n / total, address, name, offset))


# ---------------------------------------------------------------------- main

def conditions():
    """With what the numbers were made: other versions give others."""
    def first_line(*command):
        return subprocess.run(command, check=True, capture_output=True, text=True).stdout.split("\n")[0]
    gcc = first_line(CC, "-dumpfullversion")
    qemu = re.search(r"version ([0-9.]+)", first_line(QEMU, "--version")).group(1)
    return "gcc %s -O3, static; CLIPS 6.30 at -O3; QEMU %s, processor Nehalem" % (gcc, qemu)


def check_workloads():
    for workload in [workloads.booka_doc()] + workloads.named():
        sums = tuple(hashlib.sha256(data).hexdigest() for data in (workload.book, workload.steps))
        if sums != workloads.FILES[workload.name]:
            sys.exit("bench: the files of %s are not those of the sums in workloads.py" % workload.name)


def arguments():
    a = argparse.ArgumentParser(prog="bench/run", description="x86-64 instructions per call, counted; see bench/README.md")
    what = a.add_mutually_exclusive_group()
    what.add_argument("--ours-only", action="store_true", help="the project's archive alone, without growth: for the edit loop")
    what.add_argument("--write", action="store_true", help="put the numbers into docs/PERFORMANCE.md and draw docs/growth.png")
    what.add_argument("--profile", metavar="WORKLOAD", help="instructions by function on one workload")
    what.add_argument("--check", type=int, metavar="COUNT", help="hold the archive and the C matcher to the reference on COUNT random programs; measures nothing")
    a.add_argument("--matcher", default="ours", choices=[m.name for m in MATCHERS], help="whose profile (default: ours)")
    a.add_argument("--archive", default=ARCHIVE, metavar="FILE", help="another archive than target/staticlib/libmalletfrond_c.a")
    return a.parse_args()


def asked_matchers(asked):
    if asked.profile:
        return [m for m in MATCHERS if m.name == asked.matcher]
    if asked.check is not None:
        return [OURS, PLAIN]
    return [OURS] if asked.ours_only else MATCHERS


def build(asked):
    """Builds the plugin and the programs; the matchers that there are, without ours where its archive is missing and the others say something alone."""
    os.makedirs(BUILT, exist_ok=True)
    build_plugin()
    matchers = asked_matchers(asked)
    archive = find_archive(asked.archive) if OURS in matchers else None
    if archive and not os.path.exists(archive):
        if matchers == [OURS] or asked.write:
            sys.exit("bench: no archive %s (tools/build malletfrond_c makes it)" % archive)
        say("bench: no archive %s: the others are run without it" % archive)
        matchers = [m for m in matchers if m is not OURS]
    for matcher in matchers:
        build_program(matcher, archive)
    return matchers


def check(matchers, count):
    commands = {m.title: [QEMU, os.path.join(BUILT, m.name)] for m in matchers}
    tried, differ = answers.compare(commands, count)
    for title, wrong in differ.items():
        print("%s: %d programs, %d differ from the reference" % (title, tried, wrong))
    sys.exit(1 if any(differ.values()) else 0)


def measure(matchers, growth_too):
    """Measures and prints; the results, or an end with the names of those that answered wrongly."""
    judge = Judge()
    doc = workloads.booka_doc()
    for matcher in matchers:
        judge.hear(matcher, doc, run(matcher, doc).output)
    rows, dear = measure_table(matchers, judge)
    series = measure_growth([m for m in matchers if m in (OURS, PLAIN)], judge) if growth_too else []
    print(text(conditions(), rows, dear, series))
    if judge.wrong:
        sys.exit("bench: WRONG ANSWERS: " + "; ".join(judge.wrong))
    return rows, dear, series


def main():
    signal.signal(signal.SIGPIPE, signal.SIG_DFL)      # `bench/run --profile booka | head` ends quietly
    asked = arguments()
    by_name = {w.name: w for w in workloads.everything()}
    if asked.profile and asked.profile not in by_name:
        sys.exit("bench: no workload %s; there are %s" % (asked.profile, ", ".join(by_name)))
    check_workloads()
    matchers = build(asked)
    if asked.profile:
        profile(matchers[0], by_name[asked.profile])
    elif asked.check is not None:
        check(matchers, asked.check)
    else:
        rows, dear, series = measure(matchers, growth_too=not asked.ours_only)
        if asked.write:
            docs = os.path.join(ROOT, "docs")
            write_section(os.path.join(docs, "PERFORMANCE.md"), markdown(conditions(), rows, dear, series))
            plot.draw(os.path.join(docs, "growth.png"), growth_panels(series))


main()
