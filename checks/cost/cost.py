#!/usr/bin/env python3
"""Counts the instructions of every export on fixed inputs by callgrind, and holds them against what is recorded.

    checks/cost/cost.py PROGRAM FOLDER [--record]

PROGRAM is cost.c with both libraries. counts.txt, beside this, has the instructions of each case and the bytes that C's
memcpy, memmove and memset moved for it. A case that grew by more than 2 in 100 is a failure; so is an export without a
case. Worst cases have a bound too: so many instructions and moved bytes at most for each piece of work, in MOST. The
last line is the verdict. --record writes counts.txt anew.
"""
import glob
import os
import re
import subprocess
import sys

import inputs

ROOT = os.path.dirname(os.path.dirname(os.path.dirname(os.path.abspath(__file__))))
COUNTS = os.path.join(os.path.dirname(os.path.abspath(__file__)), "counts.txt")
GROWTH = 1.02

# Of each worst case: the work, and how many instructions and moved bytes each piece of it may cost. FIXED is for a call.
FIXED = 5000
MOST = {
    "usm_table/cells": ("a cell or a byte of the table", 24),
    "usm_table/names": ("a column or a byte of the table", 3),
    "usm_cell/names": ("a byte of the names that are compared or of the table", 14),
    "usm_cell_at": ("a column or a byte of the text", 12),
    "usm_csv/size": ("a byte of the table or of the CSV", 11),
    "usm_csv/written": ("a byte of the table or of the CSV", 26),
    "usm_csv/names": ("a byte of the table or of the CSV", 12),
    "usm_salvage": ("a chunk", 130),
    "usm_salvage/payloads": ("a chunk", 250),
    "usm_extract": ("a chunk", 390),
    "usm_extract/payloads": ("a chunk", 600),
    "usm_list": ("a chunk", 290),
    "usm_list/payloads": ("a chunk", 400),
    "usm_index": ("a chunk", 390),
    "usm_index/payloads": ("a chunk", 600),
    "usm_profile": ("a chunk", 150),
    "usm_key_bits": ("a chunk", 280),
    "usm_statement": ("a chunk", 290),
    "usm_statement/payloads": ("a chunk", 400),
    "usm_apart/payloads": ("a chunk", 600),
    "usm_from_old": ("a byte of both films", 0.2),
    "usm_to_old": ("a byte of both films", 0.2),
    "usm_from_old/foreign": ("a byte of the film", 0.2),
    "usm_from_old/dubbed": ("a byte of the film", 6),
    "usm_seek": ("a step of halving", 24),
}


def count(program, folder, cases):
    """Of each case the instructions, and the bytes that C's functions moved."""
    for old in glob.glob(os.path.join(folder, "callgrind.out*")):
        os.remove(old)
    asked = "".join("%s %s %s %d %d\n" % case[:5] for case in cases)
    words = ["valgrind", "--tool=callgrind", "--collect-atstart=no", "--callgrind-out-file=" + os.path.join(folder, "callgrind.out")]
    done = subprocess.run(words + [program, folder], input=asked, capture_output=True, text=True)
    if done.returncode != 0:
        raise SystemExit("cost: the program fails:\n" + done.stderr)
    moved = dict((name, int(number)) for name, number in (line.split() for line in done.stdout.splitlines()))
    instructions = {}
    for dump in glob.glob(os.path.join(folder, "callgrind.out.*")):
        with open(dump) as f:
            text = f.read()
        name = re.search(r"^desc: Trigger: Client Request: (\S+)$", text, re.M)
        total = re.search(r"^(?:totals|summary): (\d+)", text, re.M)
        if name and total:
            instructions[name[1]] = int(total[1])
    return {case.name: (instructions[case.name], moved[case.name]) for case in cases}


def recorded():
    with open(COUNTS) as f:
        lines = [line.split() for line in f if not line.startswith("#")]
    return {name: (int(instructions), int(moved)) for name, instructions, moved in lines}


def said(words):
    return subprocess.run(words, capture_output=True, text=True, check=True).stdout.splitlines()[0]


def record(counts):
    with open(COUNTS, "w") as f:
        f.write("# Instructions of a call, and bytes that C's memcpy, memmove and memset moved for it; written by checks/cost/run --record.\n")
        f.write("# The libraries: %s. Counted by %s.\n" % (said(["rt", "version"]), said(["valgrind", "--version"])))
        f.writelines("%s %d %d\n" % (name, *numbers) for name, numbers in counts.items())


def exports():
    """The functions that the libraries export."""
    libraries = [os.path.join(ROOT, "target", "staticlib", name) for name in ("libusm.a", "libplayer.a")]
    listed = subprocess.run(["nm", "--defined-only", "--extern-only"] + libraries, capture_output=True, text=True, check=True).stdout
    return set(re.findall(r" T (usm_\w+)$", listed, re.M))


def grown(counts, before):
    """The cases that cost more than is recorded, in words; and those that cost less."""
    more, less = [], []
    for name, now in counts.items():
        if name not in before:
            more.append("%s is not recorded: checks/cost/run --record" % name)
            continue
        for what, new, old in zip(("instructions", "moved bytes"), now, before[name]):
            line = "%s: %d %s, where there were %d" % (name, new, what, old)
            if new > old * GROWTH:
                more.append(line)
            elif new * GROWTH < old:
                less.append(line)
    more += ["%s is recorded, and not counted any more" % name for name in before if name not in counts]
    return more, less


def beyond(counts, cases):
    """The worst cases beyond their bounds, and a line for each kind of work."""
    wrong, lines = [], {}
    for case in cases:
        if case.work is None:
            continue
        kind = re.sub(r"^worst/|/\d+$", "", case.name)
        what, most = MOST[kind]
        cost = sum(counts[case.name])
        if cost > FIXED + most * case.work:
            wrong.append("%s: %d for a work of %d, at most %d + %g for %s" % (case.name, cost, case.work, FIXED, most, what))
        lines.setdefault(kind, (what, most, []))[2].append("%.3g" % (cost / case.work))
    return wrong, ["%s: %s for %s, at most %g" % (kind, ", ".join(each), what, most) for kind, (what, most, each) in lines.items()]


def main():
    program, folder = sys.argv[1:3]
    os.makedirs(folder, exist_ok=True)
    cases = inputs.make(folder)
    counts = count(program, folder, cases)
    if sys.argv[3:] == ["--record"]:
        record(counts)
    more, less = grown(counts, recorded())
    wrong, lines = beyond(counts, cases)
    missing = exports() - {case.function for case in cases}
    print("instructions and moved bytes for each piece of work, in both sizes:")
    for line in lines:
        print("  " + line)
    for line in less:
        print("less: " + line)
    failures = ["MORE: " + line for line in more] + ["BEYOND: " + line for line in wrong]
    failures += ["NO CASE: %s" % name for name in sorted(missing)]
    for line in failures:
        print(line)
    print("cost: %d exports in %d cases, %d cost less, %d failures" % (len({case.function for case in cases}), len(cases), len(less), len(failures)))
    return 1 if failures else 0


if __name__ == "__main__":
    sys.exit(main())
