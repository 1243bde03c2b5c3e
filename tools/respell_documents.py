#!/usr/bin/env python3
"""Gives the definitions and lemmas that documents name the spelling of tools/respell.py.

usage: python3 tools/respell.py --dry >NAMES     in the repository as it was before respell.py
       python3 tools/respell_documents.py NAMES  here

    `maskedAudio`, `no-second-answer`  ->  `masked_audio`, `no_second_answer`

Words of antt in code type or in blocks are respelled, in every .md file that a clone has. A word that port.py had respelled
before (`keysOf`, `tableAt`) is not in NAMES; it becomes the word that the crates declare now. docs/PROMISES.md is made by
.ci/promises.
"""
import glob
import re
import subprocess
import sys

names = {}
for line in open(sys.argv[1], encoding="utf-8"):
    words = line.split()
    if len(words) == 2 and re.match(r"[a-z][\w'-]*$", words[0]) and words[0] != words[1]:
        names[words[0]] = words[1]

declared = set()
for path in glob.glob("crates/*/specs/**/*.antt", recursive=True) + glob.glob("crates/*/proofs/**/*.antt", recursive=True):
    with open(path, encoding="utf-8") as file:
        declared.update(re.findall(r"(?m)^(?:(?:pub|abbrev|unfoldable) +)*([a-z][\w']*)(?: +:|$)", file.read()))


def today(word):
    """A word in today's spelling, where the crates have it."""
    snake = re.sub(r"([a-z0-9])([A-Z])", r"\1_\2", word).lower()
    return names.get(word) or (snake if snake in declared else word)


def respelled(code):
    if code in names:
        return names[code]
    # A dash inside a longer piece of code may be a minus sign, so only words with a capital letter are names there.
    return re.sub(r"(?<![\w-])[a-z][\w']*[A-Z][\w']*", lambda word: today(word.group(0)), code)


changed = 0
for path in subprocess.run(["git", "ls-files", "-z", "*.md"], check=True, capture_output=True, text=True).stdout.split("\0"):
    if not path or "/out/" in path or path in ("docs/PROMISES.md", "docs/PORT.md"):
        continue
    with open(path, encoding="utf-8", newline="") as file:
        text = file.read()
    lines, inside = [], False
    for line in text.split("\n"):
        if line.startswith("```"):
            inside = not inside
        elif inside:
            line = respelled(line)
        else:
            line = re.sub(r"`([^`]+)`", lambda span: f"`{respelled(span.group(1))}`", line)
        lines.append(line)
    if lines != text.split("\n"):
        changed += 1
        with open(path, "w", encoding="utf-8", newline="") as file:
            file.write("\n".join(lines))
print(changed, "documents")
