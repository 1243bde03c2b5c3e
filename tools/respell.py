#!/usr/bin/env python3
"""Brings the repository's own definitions and lemmas to today's spelling.

usage: python3 tools/respell.py [--dry] in the repository, once, after port.py

    maskedAudio, mpeg-codec, first-stays  ->  masked_audio, mpeg_codec, first_stays

A word of the repository that antt's files declare, a variable or a field is written in snake case, in crates/*/specs,
crates/*/proofs, the clauses of crates/*/src and must-fail/*.edit. Types, facts and modules keep their capital, and what Rattle
names (below `tie.`, `goal.`, `c.`) keeps the spelling that Rattle gives it. A word that the kit has too, by an import, stays.
"""
import collections, glob, os, re, sys

DRY = "--dry" in sys.argv
W = r"[^\s(){}.;,@\"«»\[\]\\:]+"
DECL = re.compile(r"(?m)^ {0,4}(?:(?:pub|abbrev|unfoldable|open|private) +)*(" + W + r")(?: +\{[^}]*\})*(?: +|\n +):(?=\s)")
USE = re.compile(r"(?m)^ *(?:pub +)?(?:ghost )?use +([^\s;{]+?)(?:\.\{([^}]*)\})?(?: +as +(\S+?))?;? *$")

def read(p):
    with open(p, encoding="utf-8", newline="") as f: return f.read()

crates = sorted(c for c in os.listdir("crates") if os.path.isdir(os.path.join("crates", c)))
files = [p for c in crates for p in glob.glob(f"crates/{c}/**/*", recursive=True) if os.path.isfile(p) and "/out/" not in p]
antt = [p for p in files if p.endswith(".antt")]
rts = [p for p in files if p.endswith(".rt")]
edits = [p for p in files if p.endswith(".edit")]

def snake(n):
    tail = re.search(r"['₀-₉]*$", n).group(0)
    b = n[: len(n) - len(tail)]
    b = re.sub(r"([a-z0-9])([A-Z])", r"\1_\2", b).lower() if not b[0].isupper() else b
    return b.replace("-", "_") + tail

own = collections.defaultdict(set)
for p in antt:
    t = read(p)
    for m in DECL.finditer(t):
        n = m.group(1)
        rest = t[m.end(): m.end() + 60]
        if re.match(r"\s*(tie|goal)\.", rest) and p.endswith("/Proof.antt"):
            continue
        own[n].add(p)
    # fields of a record
    for m in re.finditer(r"(?m)^  +(?:pub +)?(" + W + r") +: ", t):
        pass
kit = collections.defaultdict(set)
for p in antt + rts:
    for m in USE.finditer(read(p)):
        mod, names, _ = m.groups()
        head = mod.split(".")[:2]
        mine = head[0] == "Rattle" and len(head) > 1 and head[1] in crates
        if not mine and names:
            for n in names.split(","):
                kit[n.strip().split(" as ")[0].strip()].add(mod)
want = {}
for n in own:
    if "◌" in n or n[0] in "{(-" or not re.match(r"[a-z]", n):
        continue
    s = snake(n)
    if s != n:
        if n in kit:
            print("stays, the kit has it:", n, sorted(kit[n])[:2]); continue
        want[n] = s
for p in antt:
    for line in read(p).split("\n"):
        for w in re.findall(W, line.split("--")[0]):
            if re.match(r"[a-z]", w) and re.search(r"[a-z][A-Z]", w) and w not in want and w not in kit:
                want[w] = snake(w)
tokens = {p: set(re.findall(W, read(p))) for p in antt + rts}
def meet(a, b):
    return [p for p, ts in tokens.items() if a in ts and b in ts]
back = collections.defaultdict(list)
for n, s in want.items(): back[s].append(n)
for s, ns in sorted(back.items()):
    there = [x for x in ([s] if s in own or s in kit else [])]
    dashed = [n for n in ns if "-" in n]
    camel = [n for n in ns if "-" not in n]
    # A lemma that would have its function's name gets `_lem`.
    if len(ns) > 1 or there:
        for n in dashed:
            want[n] = s + "_lem"
        for n in camel:
            if there and meet(n, s):
                print("look: both are named in", meet(n, s)[:3], n, s)
        print("fall together:", ns, there, "->", [want[n] for n in ns])
# A lemma or a variable of a file has the word that a definition gets: it gets `_lem`, here and where it is imported from here.
HERE = collections.defaultdict(dict)
text = {p: read(p) for p in antt}
for n, s in sorted(want.items()):
    for p in meet(n, s):
        if not p.endswith(".antt") or want[n] != s:
            continue
        brought = [m for m in USE.finditer(text[p]) if m.group(2) and s in [x.split(" as ")[0].strip() for x in m.group(2).split(",")]]
        binder = re.search(r"[(λ](?:[^()\n:.]* )?" + re.escape(s) + r"(?: [^()\n:.]*)?(?:\.| :)", text[p])
        if not brought and not binder and p not in own.get(s, ()):
            continue
        if brought:
            print("look: imported beside it", p, n, s, [m.group(1) for m in brought])
        HERE[p][s] = s + "_lem"
        bits = p.split("/")
        module = "Rattle." + ".".join(bits[1:])[: -len(".antt")]
        for q in antt:
            for m in USE.finditer(text[q]):
                if m.group(1) == module and m.group(2) and s in [x.strip() for x in m.group(2).split(",")]:
                    HERE[q][s] = s + "_lem"
        print("in", p, s, "->", s + "_lem")
print(len(want), "names")
if DRY:
    for n in sorted(want)[:4000]: print(n, want[n])
    raise SystemExit
TOK = re.compile(r"--[^\n]*|\"(?:[^\"\\]|\\.)*\"|«[^»]*»|" + W)
def turn_antt(t, want=want):
    def f(m):
        w = m.group(0)
        if w.startswith("--"):
            return re.sub(r"(?<![\w-])(" + W + r")(?![\w-])", lambda k: want.get(k.group(0), k.group(0)) if re.search("[A-Z-]", k.group(0)[1:]) and re.search(r"[a-z][A-Z]", k.group(0)) else k.group(0), w)
        # A field or a step keeps the source's name, whatever a lemma is called.
        if t[max(0, m.start() - 1): m.start()] == "." and want.get(w, "").endswith("_lem"):
            return snake(w)
        return want.get(w, w)
    return TOK.sub(f, t)
def clauses(t):
    # only the text of ghost use lines and of clauses' braces, which may go over several lines
    out, i = [], 0
    for m in re.finditer(r"(?m)^ *ghost use [^\n]*$|^ *(?:requires|ensures|ghost)\*?(?: \w+)? \{", t):
        if m.start() < i:
            continue
        end, depth = m.end(), m.group(0).count("{") - m.group(0).count("}")
        while depth > 0 and end < len(t):
            depth += (t[end] == "{") - (t[end] == "}")
            end += 1
        out.append(t[i: m.start()]); out.append(turn_antt(t[m.start(): end])); i = end
    out.append(t[i:])
    return "".join(out)
n = 0
for p in antt + rts + edits:
    t = read(p)
    if p.endswith(".antt"): u = turn_antt(t, {**want, **HERE.get(p, {})})
    elif p.endswith(".rt"): u = clauses(t)
    else:
        lines = t.split("\n"); of = ""
        for i, l in enumerate(lines):
            if l.startswith("file: "): of = l[6:].strip()
            elif l.startswith(("old: ", "new: ")):
                k, b = l[:5], l[5:]
                lines[i] = k + (turn_antt(b) if of.endswith(".antt") else clauses(b))
        u = "\n".join(lines)
    if u != t:
        n += 1
        with open(p, "w", encoding="utf-8", newline="") as f: f.write(u)
print(n, "files")
