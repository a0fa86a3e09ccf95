#!/usr/bin/env python3
# Puts needs that are answered by `search needs` or `omega arith` into the call of tie.spec, as λ.
# usage: inline_needs.py FILE..   (Proof.antt files in the offered layout: NAME : tie.Need-…, NAME c = …, … (tie.spec …))
import re, sys
for f in sys.argv[1:]:
    s = open(f).read(); o = s
    m = re.search(r'\(\s*tie\.spec\b([^()]*)\)', s)
    if not m: continue
    args = m.group(1).split()
    got = {}
    for mm in re.finditer(r'^([a-z0-9-]+) : tie\.Need-\1(?: [^\n]*)?\n\1 (c(?: κs)?) =(?: |\n    )(search needs|omega arith)\n\n', s, re.M):
        n, b, a = mm.groups()
        if args.count(n) == 1 and len(re.findall(r'(?<![\w-])' + re.escape(n) + r'(?![\w-])', s)) == 3:
            got[n] = (mm.group(0), f'(λ {b}. {a})')
    if not got: continue
    for n, (text, lam) in got.items(): s = s.replace(text, '', 1)
    m = re.search(r'\(\s*tie\.spec\b([^()]*)\)', s)
    lines = ['(tie.spec']; 
    for a in m.group(1).split():
        w = got[a][1] if a in got else a
        if len(lines[-1]) + 1 + len(w) > 150: lines.append(w)
        else: lines[-1] += ' ' + w
    s = s[:m.start()] + '\n    '.join(lines) + ')' + s[m.end():]
    open(f, 'w').write(s); print(f, len(o.split('\n')), '->', len(s.split('\n')))
