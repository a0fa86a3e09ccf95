#!/usr/bin/env python3
"""Breaks proof lines over LIMIT characters. usage: breaklines.py FILE.. ; breaks after ` $`, before ` → `, ` ∙ `, ` ⊛ `, then after `, ` or between arguments `) (`."""
import sys,re
LIMIT=1000; AIM=400
def cuts(l):
    """positions where a break may stand, with a rank (lower is better)"""
    out=[]
    for m in re.finditer(r' \$ ',l): out.append((m.start()+3,0))
    for m in re.finditer(r' (→|∙|⊛|∵) ',l): out.append((m.start()+1,1))
    for m in re.finditer(r' ∷ ',l): out.append((m.start()+3,3))
    for m in re.finditer(r'\) \((?=and-then|load|Unit|List|zs|ys|c \.before|omega|λ)',l): out.append((m.start()+2,2))
    for m in re.finditer(r' (?=l₀ l₁|l₁₀ |l₂₀ |l₃₀ )',l): out.append((m.start()+1,4))
    for m in re.finditer(r'\) \(',l): out.append((m.start()+2,5))
    for m in re.finditer(r', \(',l): out.append((m.start()+2,6))
    return sorted(out)
def brk(l):
    ind=len(l)-len(l.lstrip(' '))
    body=l[ind:]
    # declaration line `name : type` or `name args = body`: continue four deeper
    cont=ind+4 if re.match(r'(abbrev |pub |unfoldable )*[^ ]+.* [:=] ',body) or body.startswith('module _') else ind
    if re.match(r'(move|look|returns|assigns|asks-all|lend|by|use1|nothing|branch|calls|drop|split|land|keep|rewrite|free|leave|fsplit|join)',body): cont=ind
    res=[];start=0;cs=cuts(body)
    while len(body)-start>AIM*1.5:
        cand=[c for c in cs if start+60<c[0]<=start+AIM]
        if not cand:
            cand=[c for c in cs if c[0]>start+60][:1]
            if not cand: break
        best=min(cand,key=lambda c:(c[1],-c[0]))
        res.append(body[start:best[0]].rstrip(' ')); start=best[0]
    res.append(body[start:])
    return [' '*ind+res[0]]+[' '*max(cont,ind)+r for r in res[1:]]
for f in sys.argv[1:]:
    L=open(f).read().split('\n'); out=[]
    for l in L:
        if len(l)>LIMIT and not l.startswith('use ') and not l.lstrip().startswith('--'): out+=brk(l)
        else: out.append(l)
    open(f,'w').write('\n'.join(out))
