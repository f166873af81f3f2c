#!/usr/bin/env python3
# drop.py CRATE [F..]: takes the answers that the log /tmp/check-CRATE.log has errors at out of proofs/F/Answers.antt (with helpers that fail and all that cites them)
import re,sys,os,shutil
crate=sys.argv[1]; only=sys.argv[2:]
log=open(f"/tmp/check-{crate}.log",encoding="utf-8").read()
base=f"crates/{crate}"
errs={}
for m in re.finditer(r"(?m)^\./(proofs/(\S+)/Answers\.antt):(\d+):(\d+): error",log):
    if only and m[2] not in only or not os.path.exists(os.path.join(base,m[1])): continue
    errs.setdefault(m[1],set()).add(int(m[3]))
HEAD=re.compile(r"^(?:(?:pub|abbrev|unfoldable) )*([^\s(){}.;,@]+)(?: \{[^{}]*\})* :(?=\s)")
for path,lines in errs.items():
    p=os.path.join(base,path)
    text=open(p,encoding="utf-8").read().split("\n")
    # items: start lines
    starts=[]
    for i,l in enumerate(text):
        m=HEAD.match(l)
        if m and not l.startswith((" ","use","--")): starts.append((i,m[1]))
    # include comments above
    items=[]
    for k,(i,n) in enumerate(starts):
        b=i
        while b>0 and text[b-1].startswith("--"): b-=1
        items.append([b,i,n])
    for k,it in enumerate(items):
        it.append(items[k+1][0] if k+1<len(items) else len(text))
    bad=set()
    for L in lines:
        for b,i,n,e in items:
            if b<=L-1<e: bad.add(n)
    again=True
    while again:
        again=False
        for b,i,n,e in items:
            if n in bad: continue
            body="\n".join(text[i:e])
            for x in list(bad):
                if re.search(r"(?<![^\s(){};,@\[\]|])"+re.escape(x)+r"(?![^\s(){};,@\[\]|])",body):
                    bad.add(n); again=True;break
    save=f"/tmp/table/saved/{crate}/{path}"
    os.makedirs(os.path.dirname(save),exist_ok=True)
    if not os.path.exists(save): shutil.copy(p,save)
    keep=[]
    first=items[0][0] if items else len(text)
    out=text[:first]
    for b,i,n,e in items:
        if n not in bad: out+=text[b:e]
    if all(n in bad for _,_,n,_ in items): os.remove(p)
    else: open(p,"w",encoding="utf-8").write("\n".join(out))
    print(path,"dropped:",sorted(bad))
