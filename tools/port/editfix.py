#!/usr/bin/env python3
# editfix.py CRATE..  (at a clone's top): brings old:/new: of edits whose old text doesn't stand to today's spelling by rules; says which still don't stand
import sys,os,glob,re
def snake(n):
    return re.sub(r"(?<=[a-z0-9])[A-Z]+",lambda m:"_"+m[0].lower(),n).replace("-","_")
def turn(t,antt):
    t=t.replace('′',"'")
    if antt or True:
        t=t.replace("⌜ ","").replace(" ⌝","").replace("⌜","").replace("⌝","")
        t=re.sub(r"\bnegℤ\b","neg_ℤ",t)
        for _ in range(4):
            t=re.sub(r"\(([^\s()]+) \.([A-Za-z0-9_-]+)\)",lambda m:f"{m[1]}.{m[2]}",t)
            t=re.sub(r"(\((?:[^()]|\([^()]*\))*\)|[^\s()]+) \.([A-Za-z][A-Za-z0-9_-]*)",r"\1.\2",t)
        # names to snake case: lower first letter, has an inner capital or a dash between letters
        t=re.sub(r"(?<![^\s(){},;.@\[\]])[a-z][^\s(){}.;,@\"\[\]|]*",lambda m:m[0] if re.match(r"(eq-|lt-|le-|ne-|leb-|ltb-|eqb-)",m[0]) else snake(m[0]),t)
        t=re.sub(r"\(now ([^\s()]+)\)",r"\1.now",t)
        t=re.sub(r"\bnow ([a-z_]+)\b",r"\1.now",t)
        t=t.replace("(t.now)","t.now")
    return t
def blocks(t):
    parts=re.split(r"(?m)^(file|old|new):",t)
    return parts
for c in sys.argv[1:]:
    for p in sorted(glob.glob(f"crates/{c}/must-fail/**/*.edit",recursive=True)):
        t=open(p,encoding="utf-8").read()
        parts=blocks(t)
        f=None; changed=False
        i=1
        while i<len(parts):
            k,v=parts[i],parts[i+1]
            if k=="file": f=v.strip()
            if k=="old":
                src=open(f"crates/{c}/{f}",encoding="utf-8").read() if os.path.exists(f"crates/{c}/{f}") else ""
                def strip(x):
                    x=x[1:] if x.startswith((" ","\n")) else x
                    return x.rstrip("\n")
                n=src.count(strip(v))
                if n!=1:
                    v2=turn(v,f.endswith(".antt") or "requires" in v or "ensures" in v or "⌜" in v)
                    n2=src.count(strip(v2))
                    if n2==1:
                        parts[i+1]=v2
                        if i+3<len(parts) and parts[i+2]=="new": parts[i+3]=turn(parts[i+3],True)
                        changed=True
                        print("mended",p); print(parts[i+1].rstrip()); print(parts[i+3].rstrip())
                    else: print("STILL",p,f,n,n2,"\n   ",strip(v2))
                elif i+3<len(parts) and parts[i+2]=="new" and f.endswith(".antt"):
                    w=turn(parts[i+3],True)
                    if w!=parts[i+3]: print("look at new: of",p,"\n  ",parts[i+3].strip(),"\n  ",w.strip()); parts[i+3]=w; changed=True
            i+=2
        if changed:
            out=parts[0]
            for j in range(1,len(parts),2): out+=parts[j]+":"+parts[j+1]
            open(p,"w",encoding="utf-8").write(out)
