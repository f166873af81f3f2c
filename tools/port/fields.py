#!/usr/bin/env python3
"""Record fields in a crate's proofs that are spelled with dashes still: fields.py CRATE.. (top of a clone)."""
import re, os, sys, glob
fields = set()
for f in glob.glob("crates/*/specs/**/*.antt", recursive=True) + glob.glob("crates/*/proofs/*.antt"):
    t = open(f, encoding="utf-8").read()
    for m in re.finditer(r"(?m)^( *)(?:pub )?record .*where\n((?:(?:\1  .*)?\n)+)", t):
        fields |= set(re.findall(r"(?m)^ +(?:pub )?([\w'-]+)(?: [\w'-]+)* : ", m[2]))
for c in sys.argv[1:]:
    for f in glob.glob(f"crates/{c}/**/*.antt", recursive=True):
        t = open(f, encoding="utf-8").read()
        def sub(m):
            s = m[2].replace("-", "_")
            return m[1] + s if s in fields and m[2] not in fields else m[0]
        n = re.sub(r"((?:[{;]|--.*\n)\s+)([\w']+(?:-[\w']+)+)(?= = )", sub, t)
        # a projection
        n = re.sub(r"(\.)([\w']+(?:-[\w']+)+)(?![\w'-])", lambda m: sub(m) if ".antt" in f and not f.endswith("Answers.antt") else m[0], n)
        if n != t:
            open(f, "w", encoding="utf-8").write(n)
            print(f)
