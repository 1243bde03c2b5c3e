#!/usr/bin/env python3
"""Disks that are full, read-only, slow, or say that a sync failed.

On a full disk every command that writes is run with a little more room each time, from almost none up to where it
succeeds. Whatever the room, its files are there whole or not at all, what was there before is there still, and nothing
else is left. The last line is the verdict. Disks are mounted, so this needs root.
"""
import os
import shutil
import subprocess
import sys

from common import KEY, Mounted, Skipped, contents, copy_films, fill_house, film_of, remount_read_only, tools, usm, work_folder

OLD = b"what was there before"


def fill_source(tools, folder):
    os.mkdir(folder)
    film_of(tools, folder, 100000, 20000)
    copy_films(folder, "old.usm", "song.usm", "song.video", "song.audio")
    with open(os.path.join(folder, "film0000.usm"), "rb") as f:
        film = f.read()
    with open(os.path.join(folder, "cut.usm"), "wb") as f:
        f.write(film[:-3000])
    fill_house(os.path.join(folder, "house"), tools)


def writers(disk):
    """Commands that write to a disk, and the files of theirs that are there before."""
    out = ["-o", disk]
    film = os.path.join(disk, "film.usm")
    bill = ["bill", "house/holdings.csv", "--csv"]
    return [
        (["extract", "film0000.usm"] + out, []),
        (["extract", "film0000.usm", "-k", KEY] + out, []),
        (["extract", "film0000.usm", "--force"] + out, ["film0000.m2v", "film0000.adx"]),
        (["pack", "song.video", "song.audio", "-o", film], []),
        (["pack", "film0000.usm", "-o", film, "--force"], ["film.usm"]),
        (["salvage", "cut.usm"] + out, []),
        (["from-old", "old.usm"] + out, []),
        (["csv", "film0000.usm"] + out, []),
        (bill + ["--html", os.path.join(disk, "page.html")], ["page.html"]),
        (bill + ["--ledger", os.path.join(disk, "ledger")], []),
        (["profile", "cut.usm", "--failed", os.path.join(disk, "failed")], ["failed"]),
    ]


def fill_disk(disk, free):
    """Leaves so many bytes."""
    room = os.statvfs(disk)
    left = room.f_bavail * room.f_frsize
    if left > free:
        with open(os.path.join(disk, "filler"), "wb") as f:
            try:
                f.write(bytes(left - free))
                f.flush()
                os.fsync(f.fileno())
            except OSError:
                pass


def judge_full(tally, what, done, before, after, whole):
    status = done.returncode
    tally.check(status in (0, 1, 2), "%s: status %d" % (what, status))
    made = {path: data for path, data in after.items() if before.get(path) != data}
    if status in (0, 1):
        tally.check(made == whole, "%s: status %d, and %s are there, not %s" % (what, status, sorted(made), sorted(whole)))
        return
    ledger = {path for path in made if path.startswith("ledger")}
    tally.check(set(made) <= ledger, "%s: status %d leaves %s" % (what, status, sorted(made)))
    tally.check(set(before) <= set(after), "%s: lost %s" % (what, sorted(set(before) - set(after))))
    said = done.stderr.decode(errors="replace").strip().splitlines()
    tally.check(any(line.startswith("usm: ") and ("No space left" in line or "full" in line) for line in said), "%s: it says %r" % (what, said))


def whole_of(tools, source, disk, words, there):
    """What a command makes where there is room."""
    with Mounted(disk, 8192):
        fill_there(disk, there)
        before = contents(disk)
        done = usm(tools, source, *words)
        after = contents(disk)
    return done, {path: data for path, data in after.items() if before.get(path) != data}


def fill_there(disk, there):
    for name in there:
        with open(os.path.join(disk, name), "wb") as f:
            f.write(OLD)


def try_full(tools, tally, source, disk):
    for words, there in writers(disk):
        is_ledger = "--ledger" in words
        right, whole = whole_of(tools, source, disk, words, there)
        for kilobytes in range(0, 160, 4):
            with Mounted(disk, 512):
                fill_there(disk, there)
                fill_disk(disk, 1024 * kilobytes)
                before = contents(disk)
                done = usm(tools, source, *words)
                after = contents(disk)
                what = "%s with %d KiB" % (" ".join(words), kilobytes)
                if is_ledger:
                    judge_ledger(tools, tally, source, disk, words, done, right, what)
                else:
                    judge_full(tally, what, done, before, after, whole)
            if done.returncode == right.returncode:
                break
        else:
            tally.check(False, "%s never has room" % " ".join(words))


def judge_ledger(tools, tally, source, disk, words, done, right, what):
    """A ledger on a full disk gives the right bill or an error, and is right once there is room."""
    tally.check(done.returncode == 2 or done.stdout == right.stdout, "%s: another bill" % what)
    os.remove(os.path.join(disk, "filler"))
    again = usm(tools, source, *words)
    tally.check(again.stdout == right.stdout, "%s: afterwards %r" % (what, again.stderr))


def try_read_only(tools, tally, source, disk):
    for words, there in writers(disk):
        with Mounted(disk, 512):
            fill_there(disk, there)
            remount_read_only(disk)
            before = contents(disk)
            done = usm(tools, source, *words)
            said = done.stderr.decode(errors="replace")
            tally.check(done.returncode == 2, "read-only: %s: status %d" % (words, done.returncode))
            tally.check("Read-only file system" in said or "unable to open database file" in said, "read-only: %s says %r" % (words, said))
            tally.check(contents(disk) == before, "a read-only disk has changed")
    # Films that lie there are read.
    with Mounted(disk, 4096):
        there = os.path.join(disk, "films")
        shutil.copytree(source, there)
        remount_read_only(disk)
        for words in (["info", "film0000.usm"], ["digest", "film0000.usm"], ["bill", "house/holdings.csv", "--csv"]):
            tally.check(usm(tools, there, *words).stdout == usm(tools, source, *words).stdout != b"", "read-only: %s" % words)


def try_slow(tools, tally, source, work):
    """Each call waits 2 ms: the answer is the same."""
    for number, words in enumerate((["extract", ".", "-j", "2", "-k", KEY], ["bill", "house/holdings.csv", "--csv"])):
        answers = []
        for slow in [], [tools.faulty, os.path.join(work, "report"), "--slow", "2000", "--"]:
            out = os.path.join(work, "slow%d%d" % (number, bool(slow)))
            os.mkdir(out)
            more = ["-o", out] if words[0] == "extract" else []
            done = subprocess.run(slow + [tools.usm] + words + more, cwd=source, capture_output=True, timeout=300)
            answers.append((contents(out), done.stdout.replace(out.encode(), b"OUT")))
        tally.check(answers[0] == answers[1] and any(answers[0]), "slow: %s gives another answer" % words)


def main():
    asked, tally = tools("disks")
    with work_folder() as work:
        source, disk = os.path.join(work, "source"), os.path.join(work, "disk")
        fill_source(asked, source)
        try:
            try_full(asked, tally, source, disk)
            try_read_only(asked, tally, source, disk)
        except Skipped as why:
            tally.skip(why)
        try_slow(asked, tally, source, work)
    return tally.verdict()


if __name__ == "__main__":
    sys.exit(main())
