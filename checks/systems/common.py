"""What the parts of this folder share: the tools, folders with films, runs, and a tally with a verdict."""
import argparse
import os
import shutil
import subprocess
import sys
import tempfile

sys.dont_write_bytecode = True  # the import leaves no folder behind
sys.path.insert(0, os.path.join(os.path.dirname(os.path.abspath(__file__)), "..", "faults"))
from faults import FILMS, HOUSE, KEY, contents, fill_house  # noqa: F401: the parts import them from here


class Skipped(Exception):
    """Something that this machine does not have."""


class Tally:
    """How often something was tried, and what was wrong."""

    def __init__(self, name):
        self.name, self.tried, self.wrong, self.skipped = name, 0, 0, 0

    def check(self, holds, what):
        self.tried += 1
        if not holds:
            self.wrong += 1
            print("  WRONG: " + what, flush=True)

    def skip(self, why):
        self.skipped += 1
        print("SKIPPED: %s: %s" % (self.name, why), flush=True)

    def verdict(self):
        print("%s: %d tried, %d wrong" % (self.name, self.tried, self.wrong))
        return 1 if self.wrong or not self.tried else 0


def tools(name):
    words = argparse.ArgumentParser()
    for tool in "usm", "films", "faulty":
        words.add_argument("--" + tool, required=True)
    asked = words.parse_args()
    for tool in "usm", "films", "faulty":
        setattr(asked, tool, os.path.abspath(getattr(asked, tool)))
    return asked, Tally(name)


def film_of(tools, folder, size, payload, count=1):
    subprocess.run([tools.films, folder, str(count), str(size), str(payload)], check=True)


def usm(tools, folder, *words, **more):
    return subprocess.run([tools.usm, *words], cwd=folder, capture_output=True, stdin=subprocess.DEVNULL, timeout=120, **more)


def copy_films(folder, *names):
    for name in names:
        shutil.copy(os.path.join(FILMS, name), folder)


class Mounted:
    """A small file system, until the end of the block: in memory, or ext4 in a file."""

    def __init__(self, place, kilobytes, kind="tmpfs"):
        self.place, self.kilobytes, self.kind = place, kilobytes, kind

    def __enter__(self):
        os.makedirs(self.place, exist_ok=True)
        if self.kind == "tmpfs":
            words = ["-t", "tmpfs", "-o", "size=%dk" % self.kilobytes, "tmpfs", self.place]
        else:
            image = self.place + ".image"
            with open(image, "wb") as f:
                f.truncate(1024 * self.kilobytes)
            subprocess.run(["mkfs.ext4", "-q", "-F", image], check=True, capture_output=True)
            words = ["-o", "loop", image, self.place]
        done = subprocess.run(["mount"] + words, capture_output=True, text=True)
        if done.returncode != 0:
            raise Skipped("no file system can be mounted: " + done.stderr.strip())
        return self.place

    def __exit__(self, *_):
        subprocess.run(["umount", self.place], check=True)


def remount_read_only(place):
    subprocess.run(["mount", "-o", "remount,ro", place], check=True)


def work_folder():
    return tempfile.TemporaryDirectory(prefix="usm-systems-")
