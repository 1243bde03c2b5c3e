#!/usr/bin/env python3
"""The command in little memory: every subcommand under limits from 16 MiB upwards gives an error or its result.

Two limits of a process are tried, on its addresses and on its data, and, where control groups can be made, one on the
memory of a group, for the commands that read a film in a window. The last line is the verdict.
"""
import hashlib
import os
import resource
import sys

from common import KEY, Skipped, fill_house, film_of, tools, usm, work_folder

MIB = 1 << 20
LIMITS = list(range(16, 64, 4)) + list(range(64, 257, 32))
LOADER = 127  # the status of the loader, which has its own words


def commands():
    film = "film0000.usm"
    return [
        ["info", film], ["keys", "1", "2", film], ["list", film], ["table", film], ["csv", film, "-o", "out"],
        ["extract", film, "-o", "out"], ["extract", film, "-k", KEY, "-o", "out"], ["extract", "films", "-k", KEY, "-j", "4", "-o", "out"],
        ["extract", film, "--video", "-"], ["pack", film, "-o", "packed.usm", "-k", KEY], ["salvage", "--all", film, "-o", "out"],
        ["to-old", "moved.usm", "-o", "out"], ["from-old", "builders.usm", "-o", "out"], ["profile", film], ["statement", "tenants", film], ["digest", film, "-k", KEY],
        ["bill", "house/holdings.csv"], ["bill", "house/holdings.csv", "--csv", "--ledger", "ledger"], ["bill", "house/holdings.csv", "--html", "page"],
        ["completions", "zsh"], ["--help"], ["info", "no-such-film"],
    ]


def fill(tools, folder):
    """A film of 40 MB with payloads of 8, films of some MB, and films that are moved."""
    os.makedirs(os.path.join(folder, "films"))
    film_of(tools, folder, 40 * MIB, 8 * MIB)
    film_of(tools, os.path.join(folder, "films"), 5 * MIB, MIB, 6)
    fill_house(os.path.join(folder, "house"), tools)
    with open(os.path.join(folder, "stream"), "wb") as f:
        f.write(bytes(range(256)) * (8 * MIB // 256))
    usm(tools, folder, "pack", "stream", "-o", "moved.usm")
    usm(tools, folder, "to-old", "moved.usm", "-o", "old")
    os.rename(os.path.join(folder, "old", "moved.usm"), os.path.join(folder, "builders.usm"))
    with open(os.path.join(folder, "tenants"), "w") as f:
        f.write("10,1\n20,2\n")


class Trials:
    def __init__(self, tools, tally, work):
        self.tools, self.tally, self.folder = tools, tally, os.path.join(work, "folder")
        fill(tools, self.folder)
        self.there = set(self.names())

    def names(self):
        return [os.path.relpath(os.path.join(place, name), self.folder) for place, _, names in os.walk(self.folder) for name in names]

    def made(self):
        """The digests of the files that a run has made."""
        found = {}
        for name in self.names():
            if name not in self.there and not name.startswith("ledger"):
                with open(os.path.join(self.folder, name), "rb") as f:
                    found[name] = hashlib.sha256(f.read()).hexdigest()
        return found

    def tidy(self):
        for name in self.names():
            if name not in self.there:
                os.remove(os.path.join(self.folder, name))

    def answer(self, words, begin=None):
        self.tidy()
        done = usm(self.tools, self.folder, *words, preexec_fn=begin)
        return done, (done.returncode, done.stdout, self.made())

    def judge(self, what, words, done, found, right):
        if found == right:
            return True
        status, _, made = found
        said = done.stderr.decode(errors="replace").strip()
        self.tally.check(status in (1, 2, LOADER), "%s: %s: status %d: %s" % (what, words, status, said))
        self.tally.check(bool(said), "%s: %s: it says nothing" % (what, words))
        self.tally.check(all(made[name] == right[2].get(name) for name in made), "%s: %s: half of %s" % (what, words, sorted(made)))
        return False

    def limit(self, words, kind, name):
        _, right = self.answer(words)
        least = None
        for mib in LIMITS:
            done, found = self.answer(words, lambda: resource.setrlimit(kind, (mib * MIB, mib * MIB)))
            is_right = self.judge("%s %d MiB" % (name, mib), words, done, found, right)
            self.tally.check(True, "")
            least = least or (mib if is_right else None)
        print("  %s: from %s MiB of %s" % (" ".join(words), least, name), flush=True)


def group_of(mib):
    """A control group with so much memory."""
    for root, limit in (("/sys/fs/cgroup/memory", "memory.limit_in_bytes"), ("/sys/fs/cgroup", "memory.max")):
        place = os.path.join(root, "usm-memory-%d" % os.getpid())
        try:
            os.mkdir(place)
            with open(os.path.join(place, limit), "w") as f:
                f.write(str(mib * MIB))
            return place
        except OSError:
            if os.path.isdir(place):
                os.rmdir(place)
    raise Skipped("no control group can be made")


def try_group(trials):
    """The commands that read in a window, on a film that is much larger than the group's memory."""
    film_of(trials.tools, trials.folder, 150 * MIB, 32 << 10)
    for words in ["info", "film0000.usm"], ["list", "film0000.usm"], ["keys", "1", "2", "film0000.usm"], ["profile", "film0000.usm"], ["table", "film0000.usm"], ["digest", "film0000.usm", "-k", KEY], ["extract", "film0000.usm", "-k", KEY, "-o", "out"], ["extract", "film0000.usm", "-o", "out"], ["bill", "house/holdings.csv"]:
        _, right = trials.answer(words)
        for mib in 16, 24, 32:
            place = group_of(mib)

            def begin():
                with open(os.path.join(place, "cgroup.procs"), "w") as f:
                    f.write(str(os.getpid()))

            _, found = trials.answer(words, begin)
            os.rmdir(place)
            trials.tally.check(found == right, "a group of %d MiB: %s: status %d" % (mib, words, found[0]))


def main():
    asked, tally = tools("memory")
    with work_folder() as work:
        trials = Trials(asked, tally, work)
        for words in commands():
            trials.limit(words, resource.RLIMIT_AS, "addresses")
            trials.limit(words, resource.RLIMIT_DATA, "data")
        try:
            try_group(trials)
        except Skipped as why:
            tally.skip(why)
    return tally.verdict()


if __name__ == "__main__":
    sys.exit(main())
