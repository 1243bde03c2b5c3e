#!/usr/bin/env python3
"""Makes every system call of the command fail once, and kills the command there once, one place after the other.

    checks/faults/faults.py --usm COMMAND --films PROGRAM --faulty PROGRAM [--only NAME] [--every N] [--own]

`faulty` (faulty.c) runs the command and makes the fault; this tries every fault on a fresh folder, and judges what is
left. A case is a run of the command: what it makes is learnt from a run without a fault. After a fault

- every file that the case makes is there whole, or is as it was before; those of one film together;
- no other file has changed, and none is left behind;
- the status is 0 only where all is made, and all that the command prints is printed;
- else there is one line on standard error, which names a file.

What can't be had is named where it is allowed: see `Judge`. The last line is the verdict, and the status is 0 only where
nothing is lost. --every N tries each N-th place alone, --own leaves out how the program starts.
"""
import argparse
import errno
import os
import re
import shutil
import signal
import subprocess
import sys
import tempfile
import time

ROOT = os.path.dirname(os.path.dirname(os.path.dirname(os.path.abspath(__file__))))
FILMS = os.path.join(ROOT, "host", "usm", "tests")
HOUSE = os.path.join(ROOT, "docs", "house")
KEY = "0123456789ABCDEF"
LONGEST = 60  # seconds that a run may take
ENDS = (signal.SIGKILL, signal.SIGHUP)

# ---- system calls

HEADER = "/usr/include/x86_64-linux-gnu/asm/unistd_64.h"


def call_names():
    with open(HEADER) as f:
        return {int(number): name for name, number in re.findall(r"#define __NR_(\w+) (\d+)", f.read())}


NAMES = call_names()

# What each call is made to give; a call that is not named here gives EIO.
SPACE = [errno.ENOSPC, errno.EIO, errno.EDQUOT]
MEMORY = [errno.ENOMEM]
UNKNOWN = [errno.EPERM]  # as a sandbox says it
ERRORS = {
    "openat": [errno.EMFILE, errno.EIO], "openat2": [errno.EMFILE, errno.EIO, errno.ENOSYS],
    "read": [errno.EIO, errno.EINTR], "pread64": [errno.EIO, errno.EINTR],
    "write": SPACE + [errno.EINTR], "pwrite64": SPACE + [errno.EINTR], "copy_file_range": SPACE + [errno.EINTR],
    "fsync": SPACE, "fdatasync": SPACE, "ftruncate": [errno.EIO], "fallocate": SPACE,
    "linkat": SPACE, "renameat2": SPACE, "rename": SPACE, "mkdir": SPACE, "unlink": [errno.EIO, errno.EROFS],
    "statx": [errno.EIO, errno.ENOSYS], "newfstatat": [errno.EIO, errno.ENOMEM], "fstat": [errno.EIO],
    "mmap": MEMORY, "munmap": MEMORY, "mprotect": MEMORY, "mremap": MEMORY, "brk": MEMORY, "sigaltstack": MEMORY,
    "poll": [errno.ENOMEM, errno.EINTR], "clone": [errno.EAGAIN], "clone3": [errno.EAGAIN], "getrandom": [errno.ENOSYS, errno.EINTR],
    "rt_sigaction": UNKNOWN, "rt_sigprocmask": UNKNOWN, "prlimit64": UNKNOWN, "sched_getaffinity": UNKNOWN,
    "fcntl": [errno.EMFILE, errno.EIO], "getdents64": [errno.EIO, errno.ENOMEM], "getcwd": [errno.ENOENT],
}
CREATES = os.O_CREAT | 0o20000000  # or a file without a name


class Call:
    """A system call of a run, as faulty reports it."""

    def __init__(self, line):
        words = line.rstrip("\n").split(" ", 6)
        self.number = int(words[0])
        self.system = words[1]
        self.name = NAMES.get(int(words[1]), words[1])
        self.args = [int(word, 16) for word in words[2:6]]
        self.path = words[6]

    def errors(self):
        creates = self.name == "openat" and self.args[2] & CREATES
        return ERRORS.get(self.name, [errno.EIO]) + (SPACE[:1] + SPACE[2:] if creates else [])

    def is_output(self):
        """Whether it is on standard output or on standard error, which are pipes here."""
        return self.path.startswith("pipe:")

    def __str__(self):
        return "%d %s %s" % (self.number, self.name, self.path)


class Run:
    """A run of the command under faulty: its calls, its status, and what it wrote."""

    def __init__(self, faulty, words, command, folder, environment=None, longest=LONGEST):
        report = os.path.join(os.path.dirname(folder), "report")
        self.is_stuck = False
        try:
            done = subprocess.run([faulty, report] + words + ["--"] + command, cwd=folder, capture_output=True, timeout=longest,
                                  stdin=subprocess.DEVNULL, env=environment)
            self.out, self.err = done.stdout, done.stderr.decode(errors="replace")
            if done.returncode != 0:
                raise SystemExit("faults: faulty itself fails with %d: %s" % (done.returncode, self.err))
        except subprocess.TimeoutExpired:
            self.is_stuck, self.out, self.err = True, b"", ""
        with open(report) as f:
            lines = f.readlines()
        # What the command started may go on for a moment after it.
        ends = [line.split() for line in lines if line.startswith(("exit ", "signal "))]
        self.end = (ends[0][0], int(ends[0][1])) if ends else ("signal", 0)
        self.calls = [Call(line) for line in lines if line[0].isdigit()]
        failed = [int(line.split()[1]) for line in lines if line.startswith("failed ")]
        self.failed = self.calls[failed[0] - 1] if failed else None

    def status(self):
        return self.end[1] if self.end[0] == "exit" else None

    def messages(self):
        """The lines on standard error that are no notes."""
        return [line for line in self.err.splitlines() if not re.match(r"usm: (note: |\d+ films?: )", line)]


# ---- folders


def contents(folder):
    """All files below a folder, with what is in them; hidden ones too."""
    found = {}
    for place, folders, files in os.walk(folder):
        for name in files:
            path = os.path.join(place, name)
            with open(path, "rb") as f:
                found[os.path.relpath(path, folder)] = f.read()
    return found


def renew(template, folder):
    shutil.rmtree(folder, ignore_errors=True)
    shutil.copytree(template, folder, symlinks=True)


# ---- cases


class Case:
    """A run of the command, in a folder of its own."""

    def __init__(self, name, words, fill, group=lambda path: "", without=(), films=(), ledger=None, list=None):
        # `group` says of which film a file is, by its path.
        self.name, self.words, self.fill, self.group = name, words, fill, group
        self.without = [word for what in without for word in ("--without", what)]
        # Of a bill: its films, each of which it may leave out, and the file of its ledger. The list of those that failed.
        self.films, self.ledger, self.list = films, ledger, list


def fill_films(folder, tools, *names):
    for name in names:
        shutil.copy(os.path.join(FILMS, name), folder)


def fill_large(folder, tools):
    """A film whose payloads the kernel copies."""
    subprocess.run([tools.films, folder, "1", "200000", "20000"], check=True)


def fill_outputs(folder, *names):
    """Files that are there before."""
    for name in names:
        with open(os.path.join(folder, name), "wb") as f:
            f.write(b"what was there before as " + name.encode())


def fill_house(folder, tools):
    shutil.copytree(HOUSE, folder, dirs_exist_ok=True)
    an_hour_ago = time.time() - 3600
    for place, _, files in os.walk(folder):
        for name in files:
            os.utime(os.path.join(place, name), (an_hour_ago, an_hour_ago))


def fill_known_house(folder, tools):
    fill_house(folder, tools)
    subprocess.run([tools.usm, "bill", "holdings.csv", "--ledger", "ledger", "--csv"], cwd=folder, check=True, capture_output=True)


def house_films():
    return tuple(sorted(os.path.relpath(os.path.join(place, name), HOUSE) for place, _, names in os.walk(HOUSE) for name in names if name.endswith(".usm")))


def stem(path):
    return os.path.splitext(path)[0]


def cases():
    def song(folder, tools):
        fill_films(folder, tools, "song.usm")

    def song_again(folder, tools):
        song(folder, tools)
        fill_outputs(folder, "lark.m2v", "lark.adx")

    def large(folder, tools):
        fill_large(folder, tools)

    def large_again(folder, tools):
        fill_large(folder, tools)
        fill_outputs(folder, "film0000.m2v", "film0000.adx")

    def many(folder, tools):
        os.mkdir(os.path.join(folder, "films"))
        fill_films(os.path.join(folder, "films"), tools, "song.usm", "f.usm", "old.usm")
        fill_outputs(folder, "failed")

    def streams(folder, tools):
        fill_films(folder, tools, "song.video", "song.audio")

    def long_streams(folder, tools):
        fill_large(folder, tools)
        fill_films(folder, tools, "song.audio")

    def streams_again(folder, tools):
        streams(folder, tools)
        fill_outputs(folder, "film.usm")

    def cut(folder, tools):
        with open(os.path.join(FILMS, "song.usm"), "rb") as f:
            film = f.read()
        with open(os.path.join(folder, "cut.usm"), "wb") as f:
            f.write(film[:3000])

    def house_again(folder, tools):
        fill_house(folder, tools)
        fill_outputs(folder, "page.html")

    old_ways = ("tmpfile",)
    oldest_ways = ("tmpfile", "exchange", "link", "noreplace", "copy")
    bill = ["bill", "holdings.csv", "--csv"]
    extract = ["extract", "song.usm", "-k", KEY]
    films = house_films()
    return [
        Case("extract", extract + ["-o", "out"], song),
        Case("extract by force", extract + ["--force"], song_again),
        Case("extract as stored", ["extract", "film0000.usm"], large),
        Case("extract as stored by force", ["extract", "film0000.usm", "--force"], large_again),
        Case("extract with hidden names", extract, song, without=old_ways),
        Case("extract by force with hidden names", extract + ["--force"], song_again, without=old_ways),
        Case("extract by force without exchange", extract + ["--force"], song_again, without=oldest_ways),
        Case("extract many", ["extract", "-j", "2", "films", "--tree", "-o", "out", "--summary", "--failed", "failed", "--force"], many, group=stem, list="failed"),
        Case("extract one stream", ["extract", "song.usm", "--video", "picture", "--audio", "sound"], song),
        Case("pack", ["pack", "song.video", "song.audio", "-o", "film.usm", "-k", KEY], streams),
        Case("pack of many payloads", ["pack", "film0000.usm", "song.audio", "-o", "film.usm", "-k", KEY], long_streams),
        Case("pack by force", ["pack", "song.video", "song.audio", "-o", "film.usm", "--force"], streams_again),
        Case("salvage", ["salvage", "cut.usm"], cut),
        Case("from-old", ["from-old", "old.usm", "-o", "out"], lambda folder, tools: fill_films(folder, tools, "old.usm")),
        Case("csv", ["csv", "song.usm", "-o", "out"], song, group=stem),
        Case("bill", bill, fill_house, films=films),
        Case("bill with a page", bill + ["--html", "page.html"], house_again, films=films),
        Case("bill with a new ledger", bill + ["--ledger", "ledger"], fill_house, films=films, ledger="ledger"),
        Case("bill with a ledger", bill + ["--ledger", "ledger"], fill_known_house, films=films, ledger="ledger"),
    ]


# ---- judging

# Calls that are about no file: what is said then names none.
OF_THE_PROCESS = {"mmap", "munmap", "mprotect", "mremap", "brk", "clone", "clone3", "getrandom", "sigaltstack", "socketpair", "recvfrom", "getcwd", "rt_sigaction", "rt_sigprocmask", "sched_getaffinity"}


class Judge:
    """What is right after a fault, by what a run without one does."""

    def __init__(self, case, run, before, after, incomplete):
        self.case = case
        self.status, self.out, self.err = run.status(), run.out, run.err
        self.before = before
        self.made = {path: data for path, data in after.items() if before.get(path) != data and not self.is_ledger(path)}
        # What a bill prints and writes that leaves one film out.
        self.incomplete = [out for out, _ in incomplete]
        self.alike = {path: [alike(data)] + [alike(files.get(path, b"")) for _, files in incomplete] for path, data in self.made.items()}
        self.begins = begin_of(run.calls)
        self.tally = {}

    def is_ledger(self, path):
        return self.case.ledger is not None and path.startswith(self.case.ledger)

    def count(self, what):
        self.tally[what] = self.tally.get(what, 0) + 1

    def state(self, path, now):
        """Whether a file that is made is new, as it was before, or neither."""
        if now == self.before.get(path):
            return "old"
        if now is None:
            return "gone"
        is_list = path == self.case.list and is_list_of(now, self.before)
        return "new" if is_list or alike(now) in self.alike[path] else "half"

    def states(self, after):
        """The states of the files that are made, by the film that they are of."""
        films = {}
        for path in self.made:
            films.setdefault(self.case.group(path), {})[path] = self.state(path, after.get(path))
        return films

    def others(self, after):
        """Files that were there and are lost or changed, and files that are left behind."""
        changed = [path for path, data in self.before.items() if path not in self.made and not self.is_ledger(path) and after.get(path) != data]
        left = [path for path in after if path not in self.before and path not in self.made and not self.is_ledger(path)]
        return changed, left

    def faults(self, run, call, after, end):
        """What is wrong. `end` is the signal that was sent, if one was."""
        if run.is_stuck:
            return ["it hangs"]
        films = self.states(after)
        wrong = self.faults_of_others(call, after, end)
        for film in films.values():
            wrong += self.faults_of_film(film, after, end)
        states = {state for film in films.values() for state in film.values()}
        self.count("whole" if states <= {"new"} else "none" if states <= {"old"} else "some")
        return wrong + (self.faults_of_end(run, end) if end else self.faults_of_status(run, call, states))

    def faults_of_others(self, call, after, end):
        changed, left = self.others(after)
        hidden = [path for path in left if re.fullmatch(r"\.usm-\d+-\d+\.part", os.path.basename(path))]
        wrong = ["%s is changed" % path for path in changed]
        # Nothing can be done about a name after SIGKILL, nor about one that can't be removed.
        if hidden and (end == signal.SIGKILL or call.name == "unlink"):
            self.count("a hidden name left")
            return wrong + ["%s is left" % path for path in left if path not in hidden]
        return wrong + ["%s is left" % path for path in left]

    def faults_of_film(self, film, after, end):
        """The files of one film are new or as before, all of them."""
        wrong = ["%s is written in part" % path for path, state in film.items() if state == "half"]
        states = set(film.values())
        if states in ({"new"}, {"old"}):
            return wrong
        # Names are given one after the other, and without an exchange an old file is moved first: SIGKILL may come between.
        if end == signal.SIGKILL:
            self.count("between two names")
        else:
            wrong += ["%s is %s" % item for item in film.items()]
        return wrong + ["%s is lost" % path for path in film if path in self.before and self.before[path] not in after.values()]

    def faults_of_end(self, run, end):
        if run.end in (("signal", end), ("exit", self.status)):
            return []
        return ["it ends by %s %d" % run.end]

    def faults_of_status(self, run, call, states):
        if call.number < self.begins and run.end != ("exit", self.status):
            # The loader and Rust's own start have their own words.
            self.count("not begun")
            return [] if states <= {"old"} else ["it makes files and does not begin"]
        status = run.status()
        if status is None:
            return ["it ends by signal %d" % run.end[1]]
        if status == self.status and (call.name in OF_THE_PROCESS or call.is_output() or run.messages() == messages_of(self.err)):
            wrong = [] if states <= {"new"} else ["its status is %d, and files are missing" % status]
            return wrong + ([] if run.out == self.out else ["its status is %d, and its output is another" % status])
        if status not in (1, 2):
            return ["its status is %d: %s" % (status, run.err.strip())]
        if call.is_output():
            return []
        return self.faults_of_message(run, call) + self.faults_of_bill(run, status)

    def faults_of_message(self, run, call):
        new = [line for line in run.messages() if line not in messages_of(self.err)]
        if not new:
            return ["it says nothing"]
        if call.name in OF_THE_PROCESS:
            return []
        if len(new) > 1 and not self.case.films:
            return ["it says more than one thing: %r" % new]
        known = list(self.before) + list(self.made) + [self.case.ledger or "standard output", "holdings.csv", "standard output"]
        names = {os.path.basename(path) for path in known} | {os.path.dirname(path) for path in known if os.path.dirname(path)} | {"./", ": .: ", ": out"}
        if any(name in line for name in names for line in new):
            return []
        return ["its message names no file: %r" % new]

    def faults_of_bill(self, run, status):
        """A bill that leaves a film out is right for all others."""
        if not self.case.films or status == 2:
            return []
        return [] if run.out in self.incomplete else ["the bill is wrong"]


# What the system says of its errors, the longest first, and what the command says of a film that changes.
REASONS = re.compile(b"|".join(
    sorted((re.escape(os.strerror(number)).encode() for number in errno.errorcode), key=len, reverse=True)
    + [b"it changed while it was read"]))


def alike(data):
    """A page without the reasons for which films are left out, which are those of the fault."""
    return REASONS.sub(b"REASON", data)


def is_list_of(data, files):
    """Whether it is a list of files or folders, each of which is there."""
    names = data.decode().splitlines()
    is_there = lambda name: any(file == name or file.startswith(name + "/") for file in files)
    return bool(names) and data.endswith(b"\n") and all(map(is_there, names))


def messages_of(err):
    return [line for line in err.splitlines() if not re.match(r"usm: (note: |\d+ films?: )", line)]


def begin_of(calls):
    """The first call of the command's own: after Rust has set the stack on which it would handle an overflow."""
    stacks = [call.number for call in calls if call.name == "sigaltstack"]
    return stacks[1] + 1 if len(stacks) > 1 else 1


# ---- the trials


class Trials:
    def __init__(self, tools, place):
        self.tools, self.every, self.with_start = tools, tools.every, not tools.own
        self.template, self.folder = os.path.join(place, "template"), os.path.join(place, "folder")
        self.places = self.tried = 0
        self.lost = []

    def run(self, case, words):
        renew(self.template, self.folder)
        return Run(self.tools.faulty, words + case.without, [self.tools.usm] + case.words, self.folder)

    def learn(self, case):
        """What the case does without a fault."""
        shutil.rmtree(self.template, ignore_errors=True)
        os.mkdir(self.template)
        case.fill(self.template, self.tools)
        incomplete = [self.without_film(case, film) for film in case.films]
        run = self.run(case, [])
        return Judge(case, run, contents(self.template), contents(self.folder), incomplete), run.calls

    def without_film(self, case, film):
        renew(self.template, self.folder)
        os.remove(os.path.join(self.folder, film))
        out = subprocess.run([self.tools.usm] + case.words, cwd=self.folder, capture_output=True).stdout
        return out, contents(self.folder)

    def check(self, case, judge, words, call, end=None):
        run = self.run(case, words)
        self.tried += 1
        made = run.failed or call
        wrong = judge.faults(run, made, contents(self.folder), end)
        if case.ledger:
            wrong += self.ledger_faults(case, judge)
        if wrong:
            self.lost.append((case, words, made, wrong))
            print("  LOST: %s: %s at %s: %s" % (case.name, " ".join(words[:3]), made, "; ".join(wrong)), flush=True)

    def ledger_faults(self, case, judge):
        """What a ledger gives after a fault."""
        done = subprocess.run([self.tools.usm] + case.words, cwd=self.folder, capture_output=True)
        if done.returncode == judge.status and done.stdout == judge.out:
            return []
        return ["the ledger gives status %d: %s" % (done.returncode, done.stderr.decode(errors="replace").strip())]

    def try_case(self, case):
        began, tried, lost = time.monotonic(), self.tried, len(self.lost)
        judge, calls = self.learn(case)
        if judge.status not in (0, 1) or not (judge.made or judge.out):
            raise SystemExit("faults: %s does not run: %s" % (case.name, judge.err))
        # How a program starts is always the same, and is tried once.
        begins = 1 if self.with_start and not self.places else judge.begins
        chosen = [call for call in calls if call.number >= begins][::self.every]
        for call in chosen:
            for error in call.errors():
                self.check(case, judge, ["--fail", str(call.number), str(error), "--only", call.system], call)
            for end in ENDS:
                self.check(case, judge, ["--signal", str(call.number), str(int(end))], call, end)
        self.places += len(chosen)
        print("%s: %d places, %d faults, %d lost; %s; %.0f s" % (
            case.name, len(chosen), self.tried - tried, len(self.lost) - lost,
            ", ".join("%s %d" % item for item in judge.tally.items() if item[1]), time.monotonic() - began), flush=True)


def main():
    words = argparse.ArgumentParser(description="Faults at every system call of the command.")
    words.add_argument("--usm", required=True)
    words.add_argument("--films", required=True)
    words.add_argument("--faulty", required=True)
    words.add_argument("--only")
    words.add_argument("--every", type=int, default=1)
    words.add_argument("--own", action="store_true")
    asked = words.parse_args()
    for tool in "usm", "films", "faulty":
        setattr(asked, tool, os.path.abspath(getattr(asked, tool)))
    chosen = [case for case in cases() if asked.only in (None, case.name)]
    with tempfile.TemporaryDirectory() as place:
        trials = Trials(asked, place)
        for case in chosen:
            trials.try_case(case)
    print("faults: %d cases, %d places, %d faults tried, %d lost" % (len(chosen), trials.places, trials.tried, len(trials.lost)))
    return 1 if trials.lost or not trials.tried else 0


if __name__ == "__main__":
    sys.exit(main())
