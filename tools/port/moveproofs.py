#!/usr/bin/env python3
"""moveproofs.py CRATE DEF.. [--only FILE]: moves the theorems of crates/CRATE/specs that rest on the definitions DEF (and those that rest on
these) to crates/CRATE/proofs, statements unchanged, and mends the `use` lines of all crates. A file specs/X.antt gives proofs/X.antt.
Prints each theorem that moved. DEF may also be a theorem: it moves itself if written `+name`."""
import re,os,sys,glob
W = r'[^\s(){}.;,@"«»\[\]|]+'
HEAD = re.compile(r"^(?:(?:pub|abbrev|unfoldable) )*(" + W + r")(?: \{[^{}]*\})* :(?=\s)")
crate=sys.argv[1]; seeds=[a for a in sys.argv[2:]]
files=[p for p in glob.glob(f'crates/{crate}/specs/**/*.antt',recursive=True) if '/declared/' not in p and not p.endswith('Lib.antt')]
def items(text):
    lines=text.split('\n'); out=[]; cur=[]; started=False
    def start(l): return bool(HEAD.match(l)) or re.match(r"(?:(?:pub|abbrev|unfoldable) )*(use|record|data|module|open|ruleset|mod)\b",l)
    for i,l in enumerate(lines):
        if start(l) or (l.startswith('--') and started and not lines[i-1].strip()):
            if cur and started:
                out.append('\n'.join(cur)); cur=[]; started=False
        cur.append(l)
        if start(l): started=True
    if cur: out.append('\n'.join(cur))
    return out
class It: pass
allitems={}
for p in files:
    t=open(p,encoding='utf-8').read()
    L=[]
    for c in items(t):
        it=It(); it.text=c; it.file=p
        ls=c.split('\n'); k=0
        while k<len(ls) and (ls[k].startswith('--') or not ls[k].strip()): k+=1
        code='\n'.join(ls[k:]); it.code=code; it.lead='\n'.join(ls[:k])
        it.names=set(); it.kind='other'
        m=HEAD.match(code)
        if re.match(r'(pub )?use\b|(pub )?mod\b',code) or not code.strip(): it.kind='use'
        elif m:
            it.names={m[1]}
            defn=re.match(r'(?:pub )?(abbrev|unfoldable)\b|(?:abbrev|unfoldable) pub',code) or re.match(r'(abbrev|unfoldable)\b',code)
            it.kind='def' if defn else 'thm'
            # a definition without mark whose type ends in a Type or data
            it.pub=bool(re.match(r'(abbrev |unfoldable )*pub\b',code))
        elif re.match(r'(?:pub )?module\b',code):
            it.kind='thm'
            it.names={HEAD.match(l.strip())[1] for l in code.split('\n') if re.match(r'  \S',l) and HEAD.match(l.strip())}
            if re.search(r'(?m)^  (pub )?(abbrev|unfoldable|record|data)\b',code): it.kind='def'
            it.pub=True
        elif re.match(r'(?:pub )?(record|data)\b',code):
            it.kind='def'; it.names={re.match(r'(?:pub )?(?:record|data) ('+W+')',code)[1]}
        plain=re.sub(r'(?m)--.*$','',code)
        it.words=set(re.findall(W,plain))|{w for w in re.split(r'[\s(){}\[\];,@]+',plain)}
        L.append(it)
    allitems[p]=L
flat=[it for L in allitems.values() for it in L]
hot={s.lstrip('+') for s in seeds}
moved=set()
for it in flat:
    if it.names & {s[1:] for s in seeds if s.startswith('+')}: moved.add(id(it)); hot|=it.names
again=True
while again:
    again=False
    for it in flat:
        if id(it) in moved or it.kind=='use': continue
        if it.words & hot and not it.names<=hot or (it.kind=='thm' and it.words&(hot-it.names)):
            if it.kind=='thm': moved.add(id(it)); hot|=it.names; again=True
            elif it.kind=='def' and not it.names<=hot and os.environ.get('DEFS'): hot|=it.names; again=True
# private helpers used only by moved
again=True
while again:
    again=False
    for it in flat:
        if id(it) in moved or it.kind!='thm' or getattr(it,'pub',True): continue
        users=[u for u in flat if u is not it and u.file==it.file and u.kind!='use' and u.words&it.names]
        if users and all(id(u) in moved for u in users): moved.add(id(it)); again=True
out={}
for p,L in allitems.items():
    mv=[it for it in L if id(it) in moved]
    if not mv: continue
    rel=os.path.relpath(p,f'crates/{crate}/specs'); mod='.'.join(rel[:-5].split('/'))
    target=f'crates/{crate}/proofs/'+os.path.basename(p)
    names=set().union(*[it.names for it in mv])
    words=set().union(*[it.words for it in mv])
    keep=[it for it in L if id(it) not in moved]
    # private items that both use
    for it in keep:
        if it.kind in('def','thm') and it.names&words:
            if not re.match(r'(abbrev |unfoldable )*pub\b',it.code) and it.names:
                print('made pub:',sorted(it.names))
                new=re.sub(r'^((?:abbrev |unfoldable )*)',r'\1pub ',it.code,count=1)
                it.text=it.text.replace(it.code,new); it.code=new
    uses=[it for it in L if it.kind=='use']
    need=sorted(n for it in keep if it.kind in('def','thm') for n in it.names if n in words)
    head='-- Theorems of specs/'+rel+', kept here: a wrong definition is refused by them.\n'+'\n'.join(it.code.rstrip() for it in uses if it.code.strip())
    if need: head+=f'\nuse Rattle.{crate}.specs.{mod}.{{{", ".join(need)}}}'
    out[p]=(target,head,mv,keep,names,mod)
movedmods={}
for p,(target,head,mv,keep,names,mod) in out.items():
    nm=os.path.basename(target)[:-5]
    movedmods[mod]=(nm,names)
    print(f'specs/{mod} -> proofs/{nm}: {", ".join(sorted(names))}')
    open(target,'w',encoding='utf-8').write(head+'\n\n'+'\n'.join(it.text.strip('\n')+'\n' for it in mv))
    open(p,'w',encoding='utf-8').write(re.sub(r'\n{3,}','\n\n','\n'.join(it.text for it in keep)).rstrip('\n')+'\n')
    lib=f'crates/{crate}/proofs/Lib.antt'
    t=open(lib,encoding='utf-8').read() if os.path.exists(lib) else ''
    if f'pub mod {nm}\n' not in t: open(lib,'w',encoding='utf-8').write(t+f'pub mod {nm}\n')
# use lines
USE=re.compile(r'^(\s*(?:ghost )?(?:pub )?use )Rattle\.'+re.escape(crate)+r'\.specs\.([A-Za-z_.0-9]+)\.\{([^}]*)\}(;?)[ ]*$',re.M)
for q in glob.glob('crates/*/**/*',recursive=True):
    if not q.endswith(('.antt','.rt')) or '/out/' in q: continue
    t=open(q,encoding='utf-8').read()
    def f(m):
        if m[2] not in movedmods: return m[0]
        nm,names=movedmods[m[2]]
        a=[x.strip() for x in m[3].split(',') if x.strip()]
        mvd=[x for x in a if x.split(' as ')[0].strip() in names]
        if not mvd: return m[0]
        st=[x for x in a if x not in mvd]
        own=q.startswith(f'crates/{crate}/proofs/{nm}.antt')
        r=[]
        if st: r.append(f'{m[1]}Rattle.{crate}.specs.{m[2]}.{{{", ".join(st)}}}{m[4]}')
        if not own and not q.startswith(f'crates/{crate}/specs/'): r.append(f'{m[1]}Rattle.{crate}.proofs.{nm}.{{{", ".join(mvd)}}}{m[4]}')
        return '\n'.join(r)
    u=USE.sub(f,t)
    if u!=t: open(q,'w',encoding='utf-8').write(u); print('use lines:',q)
    for mod in movedmods:
        for l in re.findall(rf'.*\b{crate}\.specs\.{re.escape(mod)} as .*',t): print('ALIAS',q,l)
