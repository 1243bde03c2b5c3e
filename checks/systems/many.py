#!/usr/bin/env python3
"""10,000 films, one in ten of them damaged, extracted by two at once: the counts are right, and all others are extracted.

The time is said. The last line is the verdict.
"""
import hashlib
import os
import re
import sys
import tempfile
import time

from common import film_of, tools, usm

FILMS, PART = 10000, 10


def damage(path, kind):
    """Ways in which an upload is no film: cut, emptied, another beginning, a size that leads past the end."""
    with open(path, "r+b") as f:
        length = os.fstat(f.fileno()).st_size
        if kind == 0:
            f.truncate(length - 20)
        elif kind == 1:
            f.truncate(0)
        elif kind == 2:
            f.write(b"CRIX")
        else:
            f.seek(4)
            f.write(b"\x7F\xFF\xFF\xFF")


def digests(folder, names):
    found = set()
    for name in names:
        with open(os.path.join(folder, name), "rb") as f:
            found.add(hashlib.sha256(f.read()).hexdigest())
    return found


def main():
    asked, tally = tools("many")
    memory = "/dev/shm" if os.path.isdir("/dev/shm") else None
    with tempfile.TemporaryDirectory(dir=memory, prefix="usm-many-") as work:
        films, out = os.path.join(work, "films"), os.path.join(work, "out")
        os.mkdir(films)
        film_of(asked, films, 12000, 2000, FILMS)
        names = sorted(os.listdir(films))
        tally.check(len(names) == FILMS, "%d films are made" % len(names))
        bad = names[3::PART]
        for number, name in enumerate(bad):
            damage(os.path.join(films, name), number % 4)
        for jobs in "1", "2":
            out = os.path.join(work, "out" + jobs)
            failed = os.path.join(work, "failed" + jobs)
            began = time.monotonic()
            done = usm(asked, work, "extract", "films", "-j", jobs, "-k", "1", "-o", out, "--quiet", "--summary", "--failed", failed)
            took = time.monotonic() - began
            said = done.stderr.decode().splitlines()
            summary = "usm: %d films: %d done, %d refused, 0 failed" % (FILMS, FILMS - len(bad), len(bad))
            tally.check(done.returncode == 1, "-j %s: status %d" % (jobs, done.returncode))
            tally.check(said[-1:] == [summary], "-j %s: the summary is %r" % (jobs, said[-1:]))
            refused = [re.match(r"usm: films/(\S+): refused (\d+) ", line) for line in said[:-1]]
            tally.check(all(refused) and [line[1] for line in refused] == bad, "-j %s: others are refused, or in another order" % jobs)
            with open(failed) as f:
                tally.check(f.read().split() == ["films/" + name for name in bad], "-j %s: the list of those that failed" % jobs)
            good = [os.path.splitext(name)[0] for name in names if name not in set(bad)]
            made = sorted(os.listdir(out))
            tally.check(made == sorted(name + ending for name in good for ending in (".m2v", ".adx")), "-j %s: %d files are made" % (jobs, len(made)))
            for ending in ".m2v", ".adx":
                tally.check(len(digests(out, [name for name in made if name.endswith(ending)])) == 1, "-j %s: streams differ" % jobs)
            print("  %d films, %d of them damaged, -j %s: %.1f s; load %s" % (FILMS, len(bad), jobs, took, "%.1f" % os.getloadavg()[0]))
    return tally.verdict()


if __name__ == "__main__":
    sys.exit(main())
