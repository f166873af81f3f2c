#!/usr/bin/env python3
# fidel.py BASE [CRATE..]: clauses and definitions now beside those of BASE, both with spelling taken out
import re,os,sys,glob,subprocess,collections
base=sys.argv[1]; only=sys.argv[2:]
def git_files(c):
    out=subprocess.run(["git","ls-tree","-r","--name-only",base,f"crates/{c}/"],capture_output=True,text=True).stdout.split("\n")
    return [f for f in out if f]
def git_show(f): return subprocess.run(["git","show",f"{base}:{f}"],capture_output=True,text=True).stdout
MAP={"option·getd":"getor","trailingzeros":"counttrailingzeros","option·getor":"getor","negℤ":"negℤ","getd":"getor","veclen":"length","beqb":"eqb"}
def tok(t):
    if re.match(r"[A-Za-zℤℕ]",t):
        t=re.sub(r"_lem\b","",t)
        t=re.sub(r"[-_]","",t).lower().replace("′","'")
        t=re.sub(r"lem(?=$)","",t) if t.endswith("lem") and len(t)>5 else t
        return ".".join(MAP.get(x,x) for x in t.split("."))
    return t
def norm(text,antt=True):
    text=re.sub(r"(?m)(?:^|(?<=\s))(--|//).*$","",text)
    text=text.replace("′","'").replace("⌜","").replace("⌝","").replace("«","").replace("»","").replace("Bool·","").replace("Option·","")
    text=re.sub(r"(?<![^\s(){},;])_([^\s_(){},;]+)_(?![^\s(){},;.])",r"◌\1◌",text)
    for _ in range(4):
        text=re.sub(r"\(\s*now \(([\w']+) \.entry\)\s*\)",r"\1.now",text)
        text=re.sub(r"\(\s*now \(([\w']+) \.exit\)\s*\)",r"\1.new",text)
        text=re.sub(r"\bnow \(([\w']+) \.entry\)",r"\1.now",text)
        text=re.sub(r"\bnow \(([\w']+) \.exit\)",r"\1.new",text)
        text=re.sub(r"\(now ([\w']+)\)",r"\1.now",text)
        text=re.sub(r"(?<![.\w])now ([\w']+)",r"\1.now",text)
        text=re.sub(r"([\w']+) ?\.old\b",r"\1.now",text)
        text=re.sub(r"\(([\w']+) \.entry\)",r"\1",text)
    text=re.sub(r"\s+\.(?=[A-Za-z0-9])",".",text)
    text=re.sub(r"\)\s*\.(?=[A-Za-z0-9])",").",text)
    text=re.sub(r"(?<=[^\s])\)\.",").",text)
    text=text.replace(")."," .").replace("(", " ").replace(")"," ")
    text=re.sub(r"\s+\.(?=[A-Za-z0-9])",".",text)
    text=re.sub(r"([{};,])",r" \1 ",text)
    text=re.sub(r"; }","}",text)
    toks=[tok(t) for t in text.split()]
    s=" ".join(toks)
    s=re.sub(r"; \}","}",s)
    s=re.sub(r" ([;,])",r"\1",s)
    s=re.sub(r"rattle·(\w+)·specs\.specs",r"rattle.\1.specs",s); s=s.replace("rattle·","rattle.")
    return s
def clauses(text):
    text=re.sub(r"(?m)^\s*//.*$","",text)
    out=[]
    for m in re.finditer(r"\b(requires|ensures|ghost invariant|invariant)(\*?)(?: \w+)?\s*\{",text):
        d=0;i=m.end()-1
        while True:
            d+=text[i]=="{"; d-=text[i]=="}"
            i+=1
            if d==0: break
        b=text[m.end():i-1].strip()
        fn=None
        f=list(re.finditer(r"\bfn (\w+)",text[:m.start()]))
        fn=f[-1][1] if f else ""
        l=re.match(r"λ (\w+)\.\s*",b)
        if l and m[1]=="ensures":
            b=b[l.end():]
            b=re.sub(r"(?<![\w.'])"+l[1]+r"(?![\w'])","result",b)
        out.append((tok(fn),m[1],norm(b)))
    return out
HEAD=re.compile(r"^((?:(?:pub|abbrev|unfoldable|opaque) )*)([^\s(){}:;,]+)((?: \{[^{}]*\})*) :(?=\s)")
def items(text):
    text=re.sub(r"(?m)^\s*--.*$","",text)
    lines=text.split("\n")
    res=[];cur=[]
    blocks=[]
    for l in lines:
        if l and not l[0].isspace() and not l.startswith("use ") :
            if cur: blocks.append(cur)
            cur=[l]
        elif cur or l.strip(): cur.append(l)
    if cur: blocks.append(cur)
    # join: signature blocks followed by equations (same name)
    out=[];i=0
    def flush(it):
        if it: out.append(it)
    it=None
    for b in blocks:
        l=b[0]
        if l.startswith(("use ","pub use ","pub mod","mod ")): flush(it); it=None; continue
        m=HEAD.match(l)
        if re.match(r"(pub )?(module)(?=\s|$)",l):
            flush(it); it=None
            t="\n".join(b)
            mm=re.search(r"\bwhere\b",t)
            head=t[:mm.end()]
            inner=t[mm.end():]
            ind=[len(x)-len(x.lstrip()) for x in inner.split("\n") if x.strip()]
            k=min(ind) if ind else 0
            inner="\n".join(x[k:] for x in inner.split("\n"))
            out.append(("module","module",norm(head),""))
            out+=items(inner)
            continue
        if re.match(r"(pub )?(record|data)(?=\s|$)",l):
            flush(it); 
            n=(re.match(r"(?:pub )?(?:record|data) (\S+)","\n".join(b).replace("\n"," ")) or [0,"?"])[1]
            it=[tok(n),"type","\n".join(b),""]; continue
        if m:
            flush(it)
            it=[tok(m[2]),"def" if re.search(r"abbrev|unfoldable",m[1]) else "thm","\n".join(b),""]
            continue
        if it: it[3]+="\n".join(b)+"\n"
    flush(it)
    r=[]
    for it in out:
        if isinstance(it,tuple): r.append(it); continue
        n,k,sig,body=it
        sig=re.sub(r"^((?:(?:pub|abbrev|unfoldable|opaque) )*)","",sig)
        body=re.sub(r"(?m)^unfolding .*$","",body)
        r.append((n,k,norm(sig),norm(body) if k in("def",) else ""))
    return r
cr=only or sorted(os.listdir("crates"))
for c in cr:
    old=collections.Counter(); new=collections.Counter()
    oldi={};newi={}
    for f in git_files(c):
        if f.endswith(".rt"):
            for x in clauses(git_show(f)): old[x]+=1
        if f.endswith(".antt") and f.startswith(f"crates/{c}/specs/"):
            for n,k,s,b in items(git_show(f)): oldi.setdefault(n,[]).append((k,s,b,f))
    for f in glob.glob(f"crates/{c}/src/**/*.rt",recursive=True):
        for x in clauses(open(f,encoding="utf-8").read()): new[x]+=1
    for f in glob.glob(f"crates/{c}/specs/**/*.antt",recursive=True)+glob.glob(f"crates/{c}/proofs/*.antt"):
        for n,k,s,b in items(open(f,encoding="utf-8").read()): newi.setdefault(n,[]).append((k,s,b,f))
    for x in (old-new): print(c,"CLAUSE - ",x)
    for x in (new-old): print(c,"CLAUSE + ",x)
    for n in oldi:
        if n=="module": continue
        for k,s,b,f in oldi[n]:
            c2=newi.get(n,[])
            if not c2: print(c,"GONE",k,n,f); continue
            if not any((s==s2 and b==b2) for k2,s2,b2,_ in c2):
                print(c,"DIFF",k,n); print("   -",s,"|",b)
                for k2,s2,b2,_ in c2: print("   +",s2,"|",b2)
