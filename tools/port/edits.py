#!/usr/bin/env python3
"""edits.py CRATE.. : the must-fail edits whose old text does not stand exactly once (top of a clone)."""
import glob, sys, re, os
def parse(f):
    t = open(f, encoding="utf-8").read()
    out, file, cur = [], None, None
    for l in t.split("\n"):
        m = re.match(r"(file|old|new):(?: (.*))?$", l)
        if m and m[1] == "file":
            file = m[2]; cur = None
        elif m:
            if m[1] == "old": out.append([file, "", None])
            out[-1][1 if m[1] == "old" else 2] = m[2] or ""
            cur = 1 if m[1] == "old" else 2
        elif cur and out:
            out[-1][cur] += "\n" + l
    return out
if __name__ == "__main__":
    for c in sys.argv[1:]:
        good = bad = 0
        for f in sorted(glob.glob(f"crates/{c}/must-fail/**/*.edit", recursive=True)):
            ok = True
            for file, old, new in parse(f):
                p = f"crates/{c}/{file}"
                n = open(p, encoding="utf-8").read().count(old.rstrip("\n")) if os.path.exists(p) else -1
                if n != 1:
                    ok = False
                    print(f"{f}: {n} times in {file}:\n   old: {old}\n   new: {new}")
            good += ok; bad += not ok
        print(f"== {c}: {good} fit, {bad} do not")
