#!/usr/bin/env python3
"""Fills offered proof files of safe-and-ending functions: loop invariant (lengths of lent slices), measure, search needs."""
import os,re,sys
crate=sys.argv[1]
root=f"crates/{crate}"
CONST={"COLUMNS":"10","MATRIX":"4"}
def source(mod,fn):
    f=f"{root}/src/{mod}.rt" if mod else f"{root}/src/main.rt"
    s=open(f).read()
    m=re.search(r"\bfn %s\b(?:<[^>]*>)?\((.*?)\)\s*(?:->[^{]*?)?(?:\n\s*(?:requires|ensures).*?)?\s*\{\n(.*?)\n}\n"%fn,s,re.S)
    return m.group(1),m.group(2)
for d,_,fs in os.walk(f"{root}/proofs"):
    if "Proof.antt" not in fs: continue
    p=os.path.join(d,"Proof.antt")
    s=open(p).read()
    if not re.search(r"= \?",s): continue
    parts=os.path.relpath(d,f"{root}/proofs").split("/")
    mod,fn=(parts[0],parts[1]) if len(parts)==2 else ("",parts[0])
    params,body=source(mod,fn)
    uses=[l for l in s.split("\n") if l.startswith("use ") and (".Statement." in l or l.endswith(".Tie as tie"))]
    out=[]
    extra={"use borrow.Author.Needs.{needs}"}
    muts=re.findall(r"(\w+): &mut \[",params)
    loops=re.findall(r"while (.*?) \{",body)
    invs=re.findall(r"abbrev (Inv-\S+) : [^\n]*\n\1\s+([^=]*?)\s*=\s*\?",s)
    mus=re.findall(r"abbrev (μ-\S+) : [^\n]*\n\1\s+([^=]*?)\s*=\s*\?",s)
    mid=[]
    for k,(name,binders) in enumerate(invs):
        b=binders.split()
        facts=[f"(length {m} ≡ length {m}₀)" for m in muts if m in b and m+"₀" in b]
        inv=" × ".join(facts) if facts else "Unit {0}"
        if facts: extra|={"use lib.ListN.{length}","use mathlib.Core.Path.{_≡_}"}
        mid.append(f"abbrev {name} : tie.{name.replace('Inv-','InvT-')}\n{name} {binders} = {inv}\n")
        cond=loops[k] if k<len(loops) else "?"
        m=re.match(r"(\w+) > 0$",cond)
        if m: mu=m.group(1)
        else:
            m=re.match(r"(\w+) < (.*)$",cond)
            x,y=m.group(1),m.group(2)
            if y.endswith(".len()"):
                mu=f"length {y[:-6]} - {x}"; extra|={"use lib.ListN.{length}","use Prim.Native.Nat.{_-_}"}
                if y[:-6] not in b and y[:-6]+"₀" in b: mu=f"length {y[:-6]}₀ - {x}"
            else:
                y=CONST.get(y,y); mu=f"{y} - {x}"; extra|={"use Prim.Native.Nat.{_-_}"}
                if y not in b and y+"₀" in b: mu=f"{y}₀ - {x}"
        mname=mus[k][0]
        mid.append(f"abbrev {mname} : tie.{mname.replace('μ-','MeasureT-')}\n{mname} {mus[k][1]} = {mu}\n")
    needs=dict((n,a) for n,a in re.findall(r"^(\S+) (c(?: κs)?) = (?:\?|search needs)$",s,re.M))
    spec=re.search(r"pub (\S+-spec) : .*?\n\1 =\s*tie\.close\s*\(tie\.spec(.*)\)\s*$",s,re.S)
    if not spec:
        print("NO SPEC",p); continue
    args=spec.group(2).split()
    new=[]
    for a in args:
        if a in needs: new.append(f"(λ {needs[a]}. search needs)")
        else: new.append(a)
    what="is safe and ends" if invs else "is safe"
    full="::".join([crate]+parts)
    text=f"-- `{full}` {what}.\n"+"\n".join(sorted(extra)+uses)+"\n\n"+"\n".join(mid)+("\n" if mid else "")+f"pub {spec.group(1)} : {{M : Type 1}} → statement M\n{spec.group(1)} =\n    tie.close\n    (tie.spec {' '.join(new)})\n"
    open(p,"w").write(text)
    print("filled",p)
