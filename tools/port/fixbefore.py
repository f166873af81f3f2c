#!/usr/bin/env python3
# fixbefore.py CRATE F..: tries other counts of .before where a place is of another type
import re,sys,os,subprocess
crate=sys.argv[1]; fs=sys.argv[2:]
base=os.path.abspath(f"crates/{crate}")
def check():
    out={}
    args=["rt","check"]
    for f in fs: args+=["--only",f"{crate}::{f}"] if False else []
    r=subprocess.run(["rt","check"],cwd=base,stdout=subprocess.PIPE,stderr=subprocess.STDOUT,text=True)
    open(f"/tmp/check-{crate}.log","w").write(r.stdout)
    return r.stdout
order=[0,1,-1,2,-2,3,-3,4,-4,5]
tried={}  # (path,line,col) -> [orig count, idx]
log=open(f"/tmp/check-{crate}.log").read()
for rnd in range(12):
    hits=[]
    for m in re.finditer(r"(?m)^\./(proofs/(\S+)/(?:Answers|Invariants)\.antt):(\d+):(\d+): error: .*?the two types differ only where one has `(\S+Lts\.\S+)`\n(.*)",log):
        if fs and m[2] not in fs: continue
        hits.append((m[1],int(m[3]),int(m[4]),m[5],m[6]))
    if not hits: break
    changed=False
    for path,L,C,exp,rest in hits:
        p=os.path.join(base,path)
        lines=open(p,encoding="utf-8").read().split("\n")
        l=lines[L-1]
        mm=re.match(r"\(?([^\s(){}.;,@]+)((?:\.before)*)(?=[\s(){};,\]]|$)",l[C-1:])
        if not mm: 
            if (path,L,C) not in tried: print("no place at",path,L,C,l[C-1:C+30]); tried[(path,L,C)]=None
            continue
        key=(path,L,C)
        cur=mm[2].count(".before")
        if key not in tried: tried[key]=[cur,0]
        if tried[key] is None: continue
        orig,idx=tried[key]
        idx+=1
        while idx<len(order) and orig+order[idx]<0: idx+=1
        if idx>=len(order):
            new=orig; tried[key]=None; print("gave up",path,L,C)
        else:
            new=orig+order[idx]; tried[key]=[orig,idx]; changed=True
        a=C-1+mm.start(1)
        lines[L-1]=l[:a]+mm[1]+".before"*new+l[C-1+mm.end():]
        open(p,"w",encoding="utf-8").write("\n".join(lines))
    if not changed: break
    log=check()
    print("round",rnd,len(hits))
