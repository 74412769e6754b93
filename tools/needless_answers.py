#!/usr/bin/env python3
"""Drops answers that the check finds alone: of each proofs/**/Answers.antt of a crate, what `rt check` and `rt check --margin` do without.

    tools/needless_answers.py CRATE_DIR

What a check still needs is put back. Run `rt tidy` in the crate afterwards.
"""
import pathlib
import re
import subprocess
import sys

crate = pathlib.Path(sys.argv[1]).resolve()

def check(*flags):
    r = subprocess.run(["rt", "check", *flags], cwd=crate, capture_output=True, text=True)
    return r.returncode, r.stdout + r.stderr

def chunks(text):
    out, cur, pend = [], [], []
    for line in text.splitlines(keepends=True):
        m = re.match(r"(pub |abbrev |unfoldable )*([^\s:]+) :", line)
        if m and not line.startswith((" ", "use ", "--")):
            if cur: out.append(cur)
            cur = [m.group(2), pend + [line]]
            pend = []
        elif cur and (line.startswith("--")):
            pend.append(line)
        elif cur:
            cur[1] += pend + [line]; pend = []
        else:
            pend.append(line)
    if cur: out.append(cur)
    return out, pend

def split(text):
    lines = text.splitlines(keepends=True)
    k = 0
    while k < len(lines) and (lines[k].startswith(("use ", "--", "open ")) or not lines[k].strip() or lines[k].startswith((" ", "\t")) or lines[k].startswith("}")):
        k += 1
    # comments directly before the first chunk go with it
    head = "".join(lines[:k])
    parts, _ = chunks("".join(lines[k:]))
    return head, parts

files = {f: f.read_text() for f in sorted(crate.glob("proofs/**/Answers.antt"))}
rc, log = check()
if rc: sys.exit("crate does not check: " + log[-600:])
for f in files: f.unlink()
rc, log = check("--allow-holes")
open_goals = {}
cur = None
for line in log.splitlines():
    m = re.search(r"write (\./proofs/\S+/Answers\.antt) with these lines", line)
    if m: cur = crate / m.group(1)[2:]; open_goals[cur] = set(); continue
    if re.match(r"(help|note|warning|error)", line) and "Answers.antt" not in line: cur = cur
    m = re.match(r"\s+pub (\S+) : goal\.(\S+)", line)
    if m and cur: open_goals[cur].add(m.group(1))
if re.search(r"\berror\b", log) and not open_goals:
    for f, t in files.items(): f.write_text(t)
    sys.exit("no goals parsed: " + log[-1500:])
n_drop = n_files = 0
for f, t in files.items():
    goals = open_goals.get(f)
    if not goals:
        n_files += 1
        head, parts = split(t)
        n_drop += len([p for p in parts if f"goal.{p[0]}" in "".join(p[1])])
        continue
    head, parts = split(t)
    mine = [p[0] for p in parts if f"goal.{p[0]}" in "".join(p[1])]
    keep = []
    # an open goal may be a clause of a whole answer
    def wanted(name):
        return any(g == name or g.startswith(name + "-clause-") or g.startswith(name + "-") and name + "-clause" in g or name.startswith(g) for g in goals)
    drop = [n for n in mine if not wanted(n)]
    body = "".join("".join(p[1]) for p in parts if p[0] not in drop)
    n_drop += len(drop)
    f.write_text(head + body)
rc, log = check()
rc2, log2 = check("--margin")
def restore(log):
    hit = 0
    for f, t in files.items():
        fn = str(f.relative_to(crate).parent)
        key = "./" + fn + "/Answers.antt"
        if key in log and (not f.exists() or f.read_text() != t):
            f.write_text(t); hit += 1; print("   put back", fn)
    return hit
for _ in range(3):
    if rc == 0 and rc2 == 0: break
    if not restore(log + log2):
        print("cannot tell which; all put back"); print((log + log2)[-2500:])
        for f, t in files.items(): f.write_text(t)
        break
    rc, log = check(); rc2, log2 = check("--margin")
left = sum(1 for f in files if f.exists())
print(f"{crate.name}: {len(files)} files -> {left}; answers dropped (first count) {n_drop}; check rc={rc} margin rc={rc2}")
# empty folders go
for d in sorted(crate.glob("proofs/**/"), key=lambda p: -len(str(p))):
    if d.is_dir() and not any(d.iterdir()): d.rmdir()
