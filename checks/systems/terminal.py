#!/usr/bin/env python3
"""A reader of standard output that goes away: a terminal that hangs up, a pipe that is closed, a device that is full.

Whatever becomes of the output, the status says so, no file is half, and none is left behind. The last line is the verdict.
"""
import fcntl
import os
import pty
import shutil
import signal
import subprocess
import sys
import termios
import time

from common import KEY, contents, copy_films, fill_house, film_of, tools, usm, work_folder

BROKEN_BEGINNINGS = (b"", b"usm: ")


def readers():
    """A call of each subcommand that prints."""
    film = "film0000.usm"
    return [
        ["info", film], ["list", film], ["list", "--json", film], ["table", film], ["keys", "1", "2", film], ["digest", film],
        ["profile", film], ["statement", "tenants", film], ["statement", "--csv", "tenants", film], ["csv", film, "-o", "out"],
        ["extract", film, "-o", "out"], ["extract", film, "--video", "-"], ["pack", "song.video", "-o", "-"], ["salvage", "--all", film, "-o", "out"],
        ["bill", "house/holdings.csv"], ["bill", "house/holdings.csv", "--csv"], ["bill", "house/holdings.csv", "--json"],
        ["completions", "bash"], ["--help"], ["extract", "--help"],
    ]


def fill(tools, folder):
    os.mkdir(folder)
    film_of(tools, folder, 60000, 500)
    copy_films(folder, "song.video")
    fill_house(os.path.join(folder, "house"), tools)
    with open(os.path.join(folder, "tenants"), "w") as f:
        f.write("10,1\n20,2\n")


class Trials:
    def __init__(self, tools, tally, work):
        self.tools, self.tally = tools, tally
        self.template, self.folder = os.path.join(work, "template"), os.path.join(work, "folder")
        fill(tools, self.template)

    def renew(self):
        shutil.rmtree(self.folder, ignore_errors=True)
        shutil.copytree(self.template, self.folder)

    def run(self, words, **how):
        self.renew()
        return subprocess.run([self.tools.usm] + words, cwd=self.folder, stderr=subprocess.PIPE, stdin=subprocess.DEVNULL, timeout=60, **how)

    def whole(self, words):
        """The files that a command makes."""
        self.renew()
        usm(self.tools, self.folder, *words)
        return contents(self.folder)

    def judge_files(self, what, whole):
        """Those that are made are all there, or none is."""
        before, now = contents(self.template), contents(self.folder)
        self.tally.check(now in (before, whole), "%s leaves %s" % (what, sorted(set(now) - set(before))))

    def closed_pipe(self, words):
        whole = self.whole(words)
        reading, writing = os.pipe()
        os.close(reading)
        done = self.run(words, stdout=writing)
        os.close(writing)
        self.tally.check(done.returncode == 2 and done.stderr == b"", "a closed pipe: %s: status %d, %r" % (words, done.returncode, done.stderr))
        self.judge_files("a closed pipe: %s" % words, whole)

    def full_device(self, words):
        whole = self.whole(words)
        with open("/dev/full", "wb") as full:
            done = self.run(words, stdout=full)
        self.tally.check(done.returncode == 2 and b"No space left" in done.stderr, "/dev/full: %s: status %d, %r" % (words, done.returncode, done.stderr))
        self.judge_files("/dev/full: %s" % words, whole)

    def no_messages(self, words):
        """Standard error is full, or closed: that is no reason to stop."""
        with open("/dev/full", "wb") as full:
            self.renew()
            done = subprocess.run([self.tools.usm] + words + ["no-such-film"], cwd=self.folder, stdout=subprocess.DEVNULL, stderr=full, timeout=60)
        self.tally.check(done.returncode == 2, "standard error is full: %s: status %d" % (words, done.returncode))

    def hang_up(self, words, seconds, is_ignored):
        """The terminal on which a slow run prints goes away after some time."""
        whole = self.whole(words)
        self.renew()
        ours, theirs = pty.openpty()

        def begin():
            os.setsid()
            fcntl.ioctl(1, termios.TIOCSCTTY, 0)
            if is_ignored:
                signal.signal(signal.SIGHUP, signal.SIG_IGN)

        report = os.path.join(os.path.dirname(self.folder), "report")
        slow = [self.tools.faulty, report, "--slow", "1000", "--"]
        run = subprocess.Popen(slow + [self.tools.usm] + words, cwd=self.folder, stdin=theirs, stdout=theirs, stderr=theirs, preexec_fn=begin)
        os.close(theirs)
        time.sleep(seconds)
        os.close(ours)
        try:
            run.wait(60)
        except subprocess.TimeoutExpired:
            run.kill()
            run.wait()
            self.tally.check(False, "a terminal goes away: %s hangs" % words)
            return
        self.judge_files("a terminal goes away after %.2f s: %s" % (seconds, words), whole)


def main():
    asked, tally = tools("terminal")
    with work_folder() as work:
        trials = Trials(asked, tally, work)
        for words in readers():
            trials.closed_pipe(words)
            trials.full_device(words)
        for words in ["info"], ["extract", "-o", "out"], ["digest"]:
            trials.no_messages(words)
        for is_ignored in False, True:
            for words in ["list", "film0000.usm"], ["extract", "film0000.usm", "-k", KEY], ["bill", "house/holdings.csv", "--html", "page"]:
                for step in range(12):
                    trials.hang_up(words, 0.03 * step, is_ignored)
    return tally.verdict()


if __name__ == "__main__":
    sys.exit(main())
