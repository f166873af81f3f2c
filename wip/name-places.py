#!/usr/bin/env python3
"""Names a proof context's places once in each clause: `let start = c .before .before .. in`, for clauses that write two long chains or more.
    wip/name-places.py [--write] [--omega] CRATE..
--omega: clauses with `omega` too, which reads every name in scope and may fail with one more (a clause of laying did): `rt dev` says which to put back.
Then tools/wrap and rt fmt."""
import re,sys,glob,collections
LONG=6
CH=re.compile(r'(?<![\w.·-])c((?:\s+\.before)+)(?![\w-])(?:(\s+)\.([\w-]+))?')
ID=r'[\w₀-₉·′-]'

def place_name(field):
    if field in ('args','pre'): return 'start'
    if field=='loop': return 'at-loop'
    if re.fullmatch(r'loop-?\d+|loop\d+',field or ''): return 'at-'+field
    if field is None: return None
    return 'at-'+field

def chains(body):
    out=[]
    for m in CH.finditer(body):
        out.append((m.start(),m.end(1),m.group(1).count('before'),m.group(3)))
    return out

class Namer:
    def __init__(self,text):
        self.words=set(re.findall(r'(?<![.\w₀-₉·′-])[A-Za-z_]'+ID+'*',text))
        self.made=0; self.clauses=0
    def free(self,n,extra):
        # a name that the file uses for something else is not taken
        for cand in (n,'the-'+n.replace('at-',''),n+'-place'):
            if cand not in self.words and cand not in extra: return cand
        return None
    def rewrite(self,body,indent,inline):
        """body: an expression whose c is free. Returns the new body, or None."""
        if "omega" in body and "--omega" not in sys.argv: return None  # it reads every name in scope, and may fail with one more
        cs=chains(body)
        long=[x for x in cs if x[2]>=LONG]
        if len(long)<2: return None
        fields=collections.defaultdict(collections.Counter)
        for s,e,k,f in cs:
            if f: fields[k][f]+=1
        names={};used=set()
        for k in sorted({x[2] for x in cs}):
            f=None
            if 'args' in fields[k] or 'pre' in fields[k]: f='args'
            elif fields[k]:
                f=sorted(fields[k].items(),key=lambda kv:(-kv[1],kv[0]))[0][0]
            n=place_name(f)
            if n: 
                n=self.free(n,used)
                if n: names[k]=n; used.add(n)
        count=collections.Counter(x[2] for x in cs)
        # steps are the places that are met twice, and between two of them as many more as keep each walk short
        def plan(chosen):
            chosen=sorted(chosen); left=0; prev=0
            for k in chosen:
                if k-prev>=LONG: left+=1
                prev=k
            for k in count:
                if k not in chosen:
                    base=max([q for q in chosen if q<k],default=0)
                    if k-base>=LONG: left+=count[k]
            return left
        chosen=[k for k in names if k>=LONG and count[k]>=2]
        while True:
            now=plan(chosen)
            rest=[k for k in names if k not in chosen and k>=2]
            best=min(((plan(chosen+[k]),-count[k],k) for k in rest),default=None)
            if best is None or best[0]>=now: break
            chosen.append(best[2])
        chosen.sort()
        if not chosen or plan(chosen)>=len(long): return None
        # a start of which only the arguments are used is named by them
        only={k for k in chosen if names[k]=='start' and k==chosen[-1] and set(fields[k])=={'args'} and not any(
            x[2]==k and not x[3] for x in cs) and not any(x[2]>k for x in cs) and self.free('args',used)}
        out=[];pos=0
        for s,e,k,f in cs:
            out.append(body[pos:s])
            if k in only: out.append('args'); e=re.compile(r'\s+\.args').match(body,e).end()
            elif k in chosen: out.append(names[k])
            else:
                base=[q for q in chosen if q<k]
                if base: out.append(names[base[-1]]+' .before'*(k-base[-1]))
                else: out.append(body[s:e])
            pos=e
        out.append(body[pos:])
        new=''.join(out)
        for nm in ['args']+[names[k] for k in chosen]:
            new=re.sub(r'(?<=[\s(])\('+re.escape(nm)+r'\)(?=[\s),;]|$)',nm,new)
        lets=[];prev=None
        for k in chosen:
            lets.append('let %s = %s%s%s in'%('args' if k in only else names[k],'c' if prev is None else names[prev],' .before'*(k-(prev or 0)),
                ' .args' if k in only else ''))
            prev=k
        self.made+=len(chosen); self.clauses+=1
        if inline: return ' '.join(lets)+' '+new
        pad='\n'+' '*indent
        return pad+pad.join(lets)+pad+new.strip('\n').lstrip() if not new.startswith('\n') else pad+pad.join(lets)+new

def depth_eq(line):
    """index of ' =' of a clause head at depth 0, or -1"""
    d=0
    for i,ch in enumerate(line):
        if ch in '({[': d+=1
        elif ch in ')}]': d-=1
        elif ch=='=' and d==0 and i>0 and line[i-1]==' ' and (i+1==len(line) or line[i+1]==' '): return i
        elif ch==':' and d==0 and i>0 and line[i-1]==' ': return -1
    return -1

def joined(lines,keep):
    """joins lines that wrapping had broken, where they fit again"""
    out=[lines[0]]
    for l in lines[1:]:
        a=out[-1].rstrip(); b=l.strip()
        if (not keep and a.strip() and b and not re.search(r'(\bin|\bwhere|[({\[,;=→])$',a) and not re.match(r'(let\b|in\b|where\b|[)}\]])',b)
            and len(a)+1+len(b)<=140 and '--' not in a and not re.search(r'\blet\b.*=$',a)):
            out[-1]=a+' '+b
        else: out.append(l)
    return out

def lambdas(text,namer):
    """bodies of `λ c ..` in parentheses"""
    pos=0;res=''
    pat=re.compile(r'\(λ c(?: [\w₀-₉·′-]+)*\.\s')
    while True:
        m=pat.search(text,pos)
        if not m: return res+text[pos:]
        i=m.end();d=1
        while d and i<len(text):
            if text[i] in '([{': d+=1
            elif text[i] in ')]}': d-=1
            i+=1
        body=text[m.end():i-1]
        new=namer.rewrite(body,0,True) if 'λ c' not in body else None
        res+=text[pos:m.end()]+(new if new is not None else body)
        pos=i-1

def run(path,write):
    text=open(path,encoding='utf8').read()
    if len([1 for x in chains(text) if x[2]>=LONG])<2: return 0,0
    namer=Namer(text)
    lines=text.split('\n')
    # clause spans: a head line with '=' at depth 0, its body the deeper lines below it, up to `where` or the next head
    out=[];i=0
    stack=[] # (indent, params have c)
    n=len(lines)
    def ind(l): return len(l)-len(l.lstrip())
    while i<n:
        l=lines[i]
        if not l.strip() or l.lstrip().startswith('--') or l.startswith('use '):
            out.append(l);i+=1;continue
        k=ind(l)
        eq=depth_eq(l)
        m=re.match(r'\s*(?:pub |abbrev |unfoldable )*[\w·′-]',l)
        if eq<0 or not m or l.lstrip().startswith(('let ','record')):
            out.append(l);i+=1;continue
        while stack and stack[-1][0]>=k: stack.pop()
        head=l[:eq+1]
        has=bool(re.search(r'(?<![\w.-])c(?![\w-])',head.split('=')[0])) or any(s[1] for s in stack)
        # body lines
        j=i+1
        body=[l[eq+1:]]
        ends_where=bool(re.search(r'\bwhere$',l.rstrip()))
        if not ends_where:
            while j<n and lines[j].strip() and ind(lines[j])>k:
                if re.fullmatch(r'\s*where',lines[j]): break
                body.append(lines[j]);j+=1
                if re.search(r'\bwhere$',lines[j-1].rstrip()): ends_where=True;break
        tail=''
        if ends_where:
            mm=re.search(r'\s+where$',body[-1].rstrip())
            tail=body[-1][mm.start():]; body[-1]=body[-1][:mm.start()]
        stack.append((k,has))
        btext='\n'.join(body)
        if any(x.lstrip().startswith('--') for x in body): new=None
        elif has and not re.search(r'λ c\b(?!-)',btext): new=namer.rewrite(btext,k+4,False)
        else: new=None
        if new is None and 'λ c' in btext: 
            nb=lambdas(btext,namer)
            new=None
            if nb!=btext: btext=nb
        if new is not None:
            nl=(head+new).split('\n')
            nl=joined(nl,False)
            nl[-1]+=tail
            out+=nl
        else:
            nl=(head+btext).split('\n'); nl[-1]+=tail
            out+=nl
        i=j
    new='\n'.join(out)
    b=len([1 for x in chains(text) if x[2]>=LONG]);a=len([1 for x in re.finditer(r'(?:\s\.before){6,}',new)])
    if namer.clauses and write: open(path,'w',encoding='utf8').write(new)
    return b,(a if namer.clauses else b)

if __name__=='__main__':
    write='--write' in sys.argv
    T=[0,0]
    for cr in [a for a in sys.argv[1:] if not a.startswith('--')]:
        B=A=0
        for f in sorted(glob.glob('crates/%s/proofs/**/*.antt'%cr,recursive=True)):
            b,a=run(f,write); B+=b;A+=a
        print(cr,B,A);T[0]+=B;T[1]+=A
    print(T)
