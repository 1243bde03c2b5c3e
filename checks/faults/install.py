#!/usr/bin/env python3
"""Makes every system call on the folder of an installation fail once, and kills it there once, one place after the other.

    checks/faults/install.py --faulty PROGRAM [--every N]

Calls below the prefix count, of all processes that are started. host/place.sh is tried at each place with three files, and
./install, which puts all its files by it, at each N-th (60 where none is given): a run of it takes seconds. Its man
pages are made once, before. Afterwards all files are those of the installation, or all are as they were before, and
nothing else is left; SIGKILL may come between two names, and may leave hidden ones. The last line is the verdict.
"""
import argparse
import os
import re
import shutil
import signal
import sys
import tempfile
import time

from faults import ROOT, Run, contents, renew

INSTALL = [os.path.join(ROOT, "install"), "/usr"]
PLACE = os.path.join(ROOT, "host", "place.sh")
ENDS = (signal.SIGKILL, signal.SIGHUP)
HIDDEN = re.compile(r"\.usm-install-\d+-(new|old)-")

# In the place of help2man: the page that was made before. Nothing of it lies below the prefix.
PAGES = """#!/bin/sh
for word; do
    case $word in --output=*) cp "PAGES/$(basename "${word#--output=}")" "${word#--output=}" ;; esac
done
"""


# Three files, by what ./install puts its own by.
THREE = """set -euo pipefail
. %s
there=$DESTDIR/usr
trap tidy EXIT
put 755 /bin/true bin/true
put 644 /etc/passwd lib/one
put 644 /etc/group lib/other/two
put_link one lib/link
place
""" % PLACE


class Trials:
    def __init__(self, tools, place):
        self.tools, self.place = tools, place
        self.command = INSTALL
        self.template, self.folder = os.path.join(place, "template"), os.path.join(place, "folder")
        self.environment = dict(os.environ, DESTDIR=self.folder)
        self.places = self.tried = self.lost = 0

    def run(self, words):
        renew(self.template, self.folder)
        return Run(self.tools.faulty, words + ["--below", os.path.join(self.folder, "usr")], self.command, self.folder, self.environment, 600)

    def make_pages(self):
        """The pages of an installation, once, and what gives them from then on."""
        run = self.run([])
        if run.status() != 0:
            raise SystemExit("install: it does not run: " + run.err)
        pages, programs = os.path.join(self.place, "pages"), os.path.join(self.place, "programs")
        shutil.copytree(os.path.join(self.folder, "usr", "share", "man", "man1"), pages)
        os.mkdir(programs)
        with open(os.path.join(programs, "help2man"), "w") as f:
            f.write(PAGES.replace("PAGES", pages))
        os.chmod(f.name, 0o755)
        self.environment["PATH"] = programs + ":" + self.environment["PATH"]

    def faults(self, run, before, after, whole, end):
        if run.is_stuck:
            return ["it hangs"]
        left = [path for path in after if path not in before and path not in whole]
        hidden = [path for path in left if HIDDEN.match(os.path.basename(path))]
        wrong = ["%s is written in part" % path for path in whole if after.get(path) not in (whole[path], before.get(path))]
        wrong += ["%s is left" % path for path in left if end != signal.SIGKILL or path not in hidden]
        wrong += ["%s is lost" % path for path in before if after.get(path) not in (before[path], whole.get(path))]
        are_new = [after.get(path) == whole[path] for path in whole]
        are_old = [after.get(path) == before.get(path) for path in whole]
        if end != signal.SIGKILL and not all(are_new) and not all(are_old):
            wrong.append("%d of %d files are new" % (sum(are_new), len(whole)))
        if end:
            return wrong
        if run.status() == 0:
            return wrong + ([] if all(are_new) else ["its status is 0, and files are missing"])
        said = [line for line in run.err.splitlines() if not line.startswith("install: put ")]
        return wrong + ([] if any("usr" in line for line in said) else ["status %s, and its message names no file: %r" % (run.status(), said)])

    def check(self, words, call, before, whole, end=None):
        run = self.run(words)
        self.tried += 1
        wrong = self.faults(run, before, contents(self.folder), whole, end)
        # What can't be removed stays, and what can't be put back is lost for this run.
        if run.failed and run.failed.name in ("unlinkat", "unlink", "rmdir"):
            wrong = [line for line in wrong if not line.endswith(" is left")]
        if wrong:
            self.lost += 1
            print("  LOST: %s at %s: %s" % (" ".join(words[:3]), run.failed or call, "; ".join(wrong[:3])), flush=True)

    def try_all(self, name, every):
        began, tried, lost = time.monotonic(), self.tried, self.lost
        run = self.run([])
        before, whole = contents(self.template), contents(self.folder)
        if run.status() != 0 or not run.calls:
            raise SystemExit("install: it does not run: " + run.err)
        chosen = run.calls[::every]
        for call in chosen:
            for error in call.errors()[:1]:
                self.check(["--fail", str(call.number), str(error), "--only", call.system], call, before, whole)
            for end in ENDS:
                self.check(["--signal", str(call.number), str(int(end))], call, before, whole, end)
        self.places += len(chosen)
        print("%s: %d of %d places, %d faults, %d lost; %.0f s" % (name, len(chosen), len(run.calls), self.tried - tried, self.lost - lost, time.monotonic() - began), flush=True)


    def try_twice(self, name, every):
        """In an empty folder, and over what is there already."""
        shutil.rmtree(self.template)
        os.mkdir(self.template)
        self.try_all(name, every)
        self.run([])
        renew(self.folder, self.template)
        age(self.template)
        self.try_all(name + " over an earlier one", every)


def age(folder):
    """Every file has other bytes than a new one."""
    for place, _, files in os.walk(folder):
        for name in files:
            with open(os.path.join(place, name), "wb") as f:
                f.write(b"an earlier " + name.encode())


def main():
    words = argparse.ArgumentParser(description="Faults at every system call of ./install on its folder.")
    words.add_argument("--faulty", required=True)
    words.add_argument("--every", type=int, default=60)
    asked = words.parse_args()
    asked.faulty = os.path.abspath(asked.faulty)
    with tempfile.TemporaryDirectory() as place:
        trials = Trials(asked, place)
        os.mkdir(trials.template)
        trials.make_pages()
        trials.command = ["bash", "-c", THREE]
        trials.try_twice("three files", 1)
        trials.command = INSTALL
        trials.try_twice("install", asked.every)
    print("install: %d places, %d faults tried, %d lost" % (trials.places, trials.tried, trials.lost))
    return 1 if trials.lost or not trials.tried else 0


if __name__ == "__main__":
    sys.exit(main())
