#!/usr/bin/env python3
"""Removes names that a proof file imports and does not use. usage: unused.py FILE.."""
import re,sys
for f in sys.argv[1:]:
    s=open(f).read(); L=s.split('\n')
    body='\n'.join(l for l in L if not l.startswith('use ') and not l.lstrip().startswith('--'))
    toks=set(re.findall(r"[^\s(){}\[\],;]+",body))
    parts=set()
    for t in toks:
        parts.add(t)
        for p in re.split(r'\.',t): parts.add(p)
    def used(n):
        a=n.split(' as ')[-1].strip()
        if a in parts: return True
        sym=a.strip('_')
        return not re.match(r'[A-Za-z#]',sym) and sym!='' and sym in body
    out=[];ch=False
    for l in L:
        m=re.match(r'(use \S+?)\.\{(.*)\}$',l)
        if m:
            ns=[n.strip() for n in m.group(2).split(',')]
            k=[n for n in ns if used(n)]
            if len(k)<len(ns):
                ch=True; print(f.split('/proofs/')[-1],[n for n in ns if n not in k])
                if not k: continue
                l='%s.{%s}'%(m.group(1),', '.join(k))
        else:
            m=re.match(r'use (\S+) as (\S+)$',l)
            if m and m.group(2) not in parts and not any(t.startswith(m.group(2)+'.') for t in toks):
                ch=True; print(f.split('/proofs/')[-1],l); continue
        out.append(l)
    if ch: open(f,'w').write('\n'.join(out))
