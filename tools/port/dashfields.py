#!/usr/bin/env python3
# dashfields.py CRATE (clone's top): after a check, turns `a-b = ` to `a_b = ` in files where the log says `a-b` is not a field of a record; checks again until none
import re,sys,os,subprocess
c=sys.argv[1]; base=f"crates/{c}"
for n in range(25):
    log=open(f"/tmp/check-{c}.log",encoding="utf-8").read()
    hit=False
    for m in re.finditer(r"(?m)^\./(\S+?):(\d+):\d+: error: .*?`([a-z][^`\s]*-[^`\s]*)` is not a field of record",log):
        p=os.path.join(base,m[1]); t=open(p,encoding="utf-8").read()
        u=re.sub(r"(?<![^\s{;(])"+re.escape(m[3])+r"(?= =\s)",m[3].replace("-","_"),t)
        if u!=t: open(p,"w",encoding="utf-8").write(u); hit=True; print(p,m[3])
    if not hit: break
    r=subprocess.run(["rt","check"],cwd=base,stdout=subprocess.PIPE,stderr=subprocess.STDOUT,text=True)
    open(f"/tmp/check-{c}.log","w").write(r.stdout)
print("\n".join(l[:250] for l in log.split("\n") if re.search(r": error|^logic=",l))[:3000])
