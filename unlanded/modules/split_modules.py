#!/usr/bin/env python3
"""Splits a crate's src/lib.rt into modules.  usage: split_modules.py CRATE_DIR PLAN.json
PLAN: {"crate": "type1", "modules": {"bytes": {"doc": "...", "fns": [..]}, ..}}.  Structs, consts, impls and all other functions stay in lib.rt."""
import sys, re, os, json, subprocess, glob
crate_dir, plan = sys.argv[1], json.load(open(sys.argv[2]))
crate = plan['crate']; dash = crate.replace('_','-')
mods = plan['modules']
where = {f: m for m, d in mods.items() for f in d['fns']}
src = os.path.join(crate_dir, 'src/lib.rt')
L = open(src).read().split('\n')
# items
items = []; i = 0; pend = []
START = re.compile(r'^(pub )?(fn|struct|const|impl)\b ?([A-Za-z_0-9]*)')
while i < len(L):
    l = L[i]
    m = START.match(l)
    if m:
        j = i
        if m.group(2) == 'const' and l.rstrip().endswith(';'):
            pass
        else:
            while L[j] != '}': j += 1
        items.append((m.group(2), m.group(3), pend + L[i:j+1])); pend = []; i = j+1; continue
    if l.startswith('//'):
        pend.append(l); i += 1; continue
    if l == '':
        if pend: items.append(('text', '', pend)); pend = []
        i += 1; continue
    items.append(('use', '', pend + [l])); pend = []; i += 1
ghost = [it[2][-1] for it in items if it[0]=='use' and it[2][-1].startswith('ghost use')]
uses = [it[2][-1] for it in items if it[0]=='use' and it[2][-1].startswith('use ')]
head = items[0][2][:-1] if items[0][0]=='use' else []
consts = {it[1]: it for it in items if it[0]=='const'}
structs = [it[1] for it in items if it[0]=='struct']
fns = {it[1]: it for it in items if it[0]=='fn'}
for f in where: assert f in fns, f
def toks(t): return set(re.findall(r"[^\s(){}\[\],.;:]+", t))
def wants(name, t, tk):
    sym = name.strip('_')
    if name == '[]': return '[]' in t
    return sym in tk or (not re.match(r'[A-Za-z]', sym) and sym in t)
def ghost_for(t):
    tk = toks(t); out = []
    for g in ghost:
        m = re.match(r'ghost use (\S+?)\.\{(.*)\};', g)
        if m:
            ns = [n for n in m.group(2).split(', ') if wants(n, t, tk)]
            if ns: out.append('ghost use %s.{%s};' % (m.group(1), ', '.join(ns)))
        else:
            n = re.match(r'ghost use .* as (\S+);', g).group(1)
            if n in tk: out.append(g)
    return out
def nocomment(t): return '\n'.join(x for x in t.split('\n') if not x.startswith('//'))
def uses_for(t, me):
    tk = toks(t); out = []
    for u in uses:
        n = u[4:-1].split('::')[-1].split(' as ')[-1]
        if n in tk: out.append(u)
    for n in structs + list(consts):
        if n in tk and me is not None and const_in.get(n) != me: out.append('use crate::%s;' % n)
    for f in fns:
        if re.search(r'(?<![\w.:])%s\(' % f, t):
            w = where.get(f)
            if w == me: continue
            if w is None: out.append('use crate::%s;' % f)
            else: out.append('use %s%s::%s;' % ('' if me is None else 'crate::', w, f))
    return sorted(set(out))
def users(c):
    return {where.get(n) if k == 'fn' else None for k, n, ls in items if k in ('fn','impl','struct') and re.search(r'\b%s\b' % c, nocomment('\n'.join(ls)))}
const_in = {}
for c in list(consts):
    u = users(c)
    if len(u) == 1 and None not in u: const_in[c] = u.pop()
for m, d in mods.items():
    body = []
    cs = [ '\n'.join(ls) for k, n, ls in items if k == 'const' and const_in.get(n) == m ]
    if cs: body.append('\n\n'.join(cs) if any(len(x.split('\n'))>2 for x in cs) else '\n'.join(cs))
    for k, n, ls in items:
        if k == 'fn' and where.get(n) == m:
            ls = list(ls)
            ls = [re.sub(r'^fn ', 'pub(crate) fn ', x) for x in ls]
            body.append('\n'.join(ls))
    t = '\n\n'.join(body); tn = nocomment(t)
    # own names are not uses of themselves
    heads = '\n'.join(['// ' + d['doc']] + ghost_for(tn) + uses_for(tn, m))
    open(os.path.join(crate_dir, 'src', m + '.rt'), 'w').write(heads + '\n\n' + t + '\n')
rest = []
for k, n, ls in items:
    if k == 'use': continue
    if k == 'fn' and n in where: continue
    if k == 'const' and n in const_in: continue
    if k == 'text' and any(x.startswith('// ----') for x in ls): continue
    rest.append('\n'.join(ls))
t = '\n\n'.join(rest); tn = nocomment(t)
u = uses_for(tn, None)
open(src, 'w').write('\n'.join(head + ghost_for(tn)) + '\n\n' + '\n'.join('mod %s;' % m for m in sorted(mods)) + '\n\n' + '\n'.join(x for x in u) + '\n\n' + t + '\n')
# proofs
P = os.path.join(crate_dir, 'proofs')
for f, m in where.items():
    if os.path.isdir(os.path.join(P, f)):
        os.makedirs(os.path.join(P, m), exist_ok=True)
        subprocess.check_call(['git', 'mv', os.path.join(P, f), os.path.join(P, m, f)])
alldirs = [f for f in where]
pat = re.compile(r'(Rattle·%s·proofs\.proofs\.)(%s)(?=[.\s])' % (re.escape(crate), '|'.join(sorted(alldirs, key=len, reverse=True))))
pat2 = re.compile(r'(calls-%s·)(%s)(?![\w\-·])' % (re.escape(dash), '|'.join(re.escape(f.replace('_','-')) for f in sorted(alldirs, key=len, reverse=True))))
pat3 = re.compile(r'`%s::(%s)`' % (crate, '|'.join(alldirs)))
by_dash = {f.replace('_','-'): m for f, m in where.items()}
for fn in glob.glob(os.path.join(P, '**/*.antt'), recursive=True):
    s = open(fn).read()
    n = pat.sub(lambda x: x.group(1) + where[x.group(2)] + '.' + x.group(2), s)
    n = pat2.sub(lambda x: x.group(1) + by_dash[x.group(2)] + '·' + x.group(2), n)
    n = pat3.sub(lambda x: '`%s::%s::%s`' % (crate, where[x.group(1)], x.group(1)), n)
    if n != s: open(fn, 'w').write(n)
