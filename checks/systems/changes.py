#!/usr/bin/env python3
"""Films that grow, shrink, are emptied, are replaced or vanish while they are read: before each system call in turn.

The answer is that of the film as it was or as it is, or an error, and an error leaves no file. The last line is the verdict.
"""
import os
import shutil
import sys

from common import KEY, contents, copy_films, fill_house, film_of, tools, work_folder
from faults import Run, begin_of

CHANGES = {
    "grows": "printf more >> FILM",
    "shrinks": "truncate -s -100 FILM",
    "is emptied": "truncate -s 0 FILM",
    "is replaced": "cp other FILM.new && mv FILM.new FILM",
    "vanishes": "rm -f FILM",
}


def commands():
    """Commands, and the film that changes under each."""
    film = "film0000.usm"
    return [
        (["extract", film, "-k", KEY, "-o", "out"], film),
        (["extract", film, "-o", "out"], film),
        (["digest", film], film),
        (["list", film], film),
        (["profile", film], film),
        (["pack", film, "-o", "packed.usm"], film),
        (["salvage", "--all", film, "-o", "out"], film),
        (["bill", "house/holdings.csv", "--csv"], "house/cutscene_04.usm"),
        (["bill", "house/holdings.csv", "--csv", "--ledger", "ledger"], "house/cutscene_04.usm"),
    ]


def fill(tools, template):
    os.mkdir(template)
    film_of(tools, template, 60000, 9000)
    copy_films(template, "song.usm")
    os.rename(os.path.join(template, "song.usm"), os.path.join(template, "other"))
    fill_house(os.path.join(template, "house"), tools)


class Trials:
    def __init__(self, tools, tally, work):
        self.tools, self.tally = tools, tally
        self.template, self.folder = os.path.join(work, "template"), os.path.join(work, "folder")
        fill(tools, self.template)

    def renew(self):
        shutil.rmtree(self.folder, ignore_errors=True)
        shutil.copytree(self.template, self.folder)

    def answer(self, words, film, more=()):
        """The status, what is printed, and the files that are made; and the calls."""
        run = Run(self.tools.faulty, list(more), [self.tools.usm] + words, self.folder)
        kept = {"other", film, film + ".new"}
        made = {path: data for path, data in contents(self.folder).items() if path not in kept and not path.startswith(("house", "film0000.usm", "ledger"))}
        return run, (run.status(), run.out, made)

    def changed(self, words, film, change):
        """The answer for the film after a change, and the calls."""
        self.renew()
        os.system("cd %s && %s" % (self.folder, change))
        run, answer = self.answer(words, film)
        return run.calls, answer

    def is_error(self, words, run, found, missing):
        """Whether it is an error, which leaves no file. A bill leaves the film out, and is right for all others."""
        if words[0] == "bill" and run.status() == 1:
            return "cutscene" in run.err and found[1] == missing[1]
        return run.status() == 2 and not found[2] and len(run.messages()) >= 1

    def try_change(self, words, film, name, line):
        change = line.replace("FILM", film)
        calls, before = self.changed(words, film, "true")
        answers = before, self.changed(words, film, change)[1]
        missing = self.changed(words, film, "rm " + film)[1]
        # How a program starts is no matter of the film.
        for call in calls[begin_of(calls) - 1:]:
            self.renew()
            run, found = self.answer(words, film, ["--do", str(call.number), change])
            what = "%s: the film %s before call %s" % (" ".join(words), name, call)
            is_right = found in answers or self.is_error(words, run, found, missing)
            self.tally.check(is_right, "%s: %s %d, %s, files %s" % (what, *run.end, run.err.strip(), sorted(found[2])))


def main():
    asked, tally = tools("changes")
    with work_folder() as work:
        trials = Trials(asked, tally, work)
        for words, film in commands():
            for name, line in CHANGES.items():
                trials.try_change(words, film, name, line)
    return tally.verdict()


if __name__ == "__main__":
    sys.exit(main())
