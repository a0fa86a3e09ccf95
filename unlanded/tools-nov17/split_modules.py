#!/usr/bin/env python3
"""Splits a crate's src/lib.rt into modules, and moves and renames its proofs.

usage: split_modules.py REPO PLAN.json [--dry] [--lenient]     (then `rt fmt`, `rt check CRATE`)
  --dry      writes nothing
  --lenient  a function that the plan lacks stays in lib.rt, and one that lib.rt lacks is left out, each with a note

PLAN: crate       the crate's name
      edits       edits of src/lib.rt made first: {"old": TEXT, "new": TEXT} (or "re": REGEX), each must stand "count"
                  times (default 1); "optional": may be absent; "done": TEXT that says that the edit was made already
      laws        proofs/X.antt renamed: a law file's name may not be a module's name in other letter case;
                  "MODULE/Y": it becomes proofs/MODULE/Y.antt, which may cite that module's private functions
      modules     NAME: {"doc": its first comment, "fns": [..], "consts": [..]}
      stays       functions that stay in lib.rt
      docs        edits of other files: {"file", "old", "new"}, each made where it stands, with a note where it does not
      wide        contract lines of more characters than this are broken (0: none)
Every function of lib.rt stands in `modules` or in `stays`, and every name of the plan in lib.rt: else nothing is
written and the script says what is missing. Structs, impls and all other constants stay in lib.rt. A function that another
module uses, or a proof outside of its module cites, becomes pub(crate), no other does. The order within a module is that of lib.rt.
"""
import glob, json, os, re, sys

args = [a for a in sys.argv[1:] if not a.startswith('--')]
dry, lenient = '--dry' in sys.argv, '--lenient' in sys.argv
repo, plan = args[0], json.load(open(args[1]))
crate = plan['crate']
dash = crate.replace('_', '-')
home = os.path.join(repo, 'crates', crate)
src = os.path.join(home, 'src')
proofs = os.path.join(home, 'proofs')
mods = plan['modules']
faults = []


def fault(*words):
    faults.append(' '.join(str(w) for w in words))


def stop_at_faults():
    if faults:
        sys.exit('split_modules: nothing was written:\n  ' + '\n  '.join(faults))


lib = os.path.join(src, 'lib.rt')
text = open(lib).read()
for m in mods:
    if re.search(r'^mod %s;' % m, text, re.M):
        fault('lib.rt has `mod %s;` already' % m)
stop_at_faults()

# ---- edits of the source
for e in plan.get('edits', []):
    if e.get('done') and e['done'] in text:
        continue
    want = e.get('count', 1)
    if 're' in e:
        new, n = re.subn(e['re'], e['new'], text, flags=re.M)
    else:
        new, n = text.replace(e['old'], e['new']), text.count(e['old'])
    if n == 0 and e.get('optional'):
        continue
    if n != want:
        fault('edit stands %d times, not %d:' % (n, want), repr(e.get('re') or e['old']))
        continue
    text = new

# ---- items: (kind, name, lines), comments that stand right before an item belong to it
L = text.rstrip('\n').split('\n')
START = re.compile(r'^(?:pub(?:\([a-z]+\))? )?(fn|struct|enum|const|impl|type)\b ?([A-Za-z_0-9]*)')
items, pend, i = [], [], 0
while i < len(L):
    l = L[i]
    m = START.match(l)
    if m:
        j = i
        if not (m.group(1) in ('const', 'type') and l.rstrip().endswith(';')):
            while L[j] != '}':
                j += 1
        items.append((m.group(1), m.group(2), pend + L[i:j + 1]))
        pend, i = [], j + 1
    elif l.startswith('//') or l.startswith('#['):
        pend.append(l)
        i += 1
    elif l == '':
        if pend:
            items.append(('text', '', pend))
            pend = []
        i += 1
    elif re.match(r'(ghost use|use|mod) ', l):
        j = i
        while not L[j].rstrip().endswith(';'):
            j += 1
        items.append(('use', '', pend + [' '.join(x.strip() for x in L[i:j + 1])]))
        pend, i = [], j + 1
    else:
        sys.exit('split_modules: line %d of lib.rt is no item: %r' % (i + 1, l))
if pend:
    items.append(('text', '', pend))
head = items[0][2][:-1] if items[0][0] == 'use' else items[0][2] if items[0][0] == 'text' else []
use_lines = [it[2][-1] for it in items if it[0] == 'use']
ghost = [u for u in use_lines if u.startswith('ghost use')]
uses = [u for u in use_lines if u.startswith('use ')]
old_mods = [u for u in use_lines if u.startswith('mod ')]
consts = [n for k, n, _ in items if k == 'const']
types = [n for k, n, _ in items if k in ('struct', 'enum', 'type')]
fns = {n: ls for k, n, ls in items if k == 'fn'}
if len(fns) != sum(1 for it in items if it[0] == 'fn'):
    fault('a function has two definitions')

# ---- the plan against the source
if lenient:
    for d in list(mods.values()) + [plan]:
        for key, have in (('fns', fns), ('stays', fns), ('consts', consts)):
            for f in [f for f in d.get(key, []) if f not in have]:
                print('note: lib.rt has no %s: left out of the plan' % f)
                d[key].remove(f)
    planned = [f for d in mods.values() for f in d.get('fns', [])] + plan.setdefault('stays', [])
    for f in fns:
        if f not in planned:
            print('note: the plan does not have %s: it stays in lib.rt' % f)
            plan['stays'].append(f)
where = {}
for m, d in mods.items():
    for f in d.get('fns', []):
        if f in where:
            fault('%s is in two modules' % f)
        where[f] = m
        if f not in fns:
            fault('lib.rt has no function %s (plan: module %s)' % (f, m))
        elif any(x.startswith('pub fn') for x in fns[f]):
            fault('%s is public: it must stay in lib.rt' % f)
for f in plan.get('stays', []):
    if f not in fns:
        fault('lib.rt has no function %s (plan: stays)' % f)
    if f in where:
        fault('%s stays, and is in module %s' % (f, where[f]))
for f in fns:
    if f not in where and f not in plan.get('stays', []):
        fault('the plan does not have function %s' % f)
const_in = {}
for m, d in mods.items():
    for c in d.get('consts', []):
        const_in[c] = m
        if c not in consts:
            fault('lib.rt has no constant %s (plan: module %s)' % (c, m))
laws = plan.get('laws', {})
files = {os.path.basename(p)[:-5] for p in glob.glob(os.path.join(proofs, '*.antt'))}
for a, b in laws.items():
    if a not in files and b not in files:
        fault('proofs/%s.antt is missing (plan: laws)' % a)
    if a in files and b in files:
        fault('proofs has both %s.antt and %s.antt' % (a, b))
    if '/' in b and (b.count('/') > 1 or b.split('/')[0] not in mods):
        fault('the plan has no module for %s' % b)
after = {laws.get(f, f) for f in files}
for m in mods:
    for n in list(after) + types + [f for f in fns if f not in where]:
        if n.lower() == m.lower():
            fault('module %s and %s have the same letters: the kit refuses it' % (m, n))
stop_at_faults()


# ---- contracts and code of an item
def parts(ls):
    """The lines of code, and the lines of contracts."""
    code, said, inside = [], [], False
    for x in ls:
        if x.startswith('//'):
            continue
        if inside or re.match(r'\s*(requires|ensures|invariant|decreases|ghost) ?\{', x):
            said.append(x)
            inside = not x.rstrip().endswith('}')
        else:
            code.append(re.sub(r'//.*', '', x))
    return '\n'.join(code), '\n'.join(said)


WORD = r"[^\s(){}\[\],.;:⌜⌝]+"


def params(ls):
    sig = []
    for x in ls:
        if x.startswith('//'):
            continue
        if x.startswith('    requires') or x.startswith('    ensures') or x == '{':
            break
        sig.append(x)
    return set(re.findall(r'([a-z_0-9]+):', '\n'.join(sig)))


def ghost_words(its):
    """Words of contracts that are no parameters and stand behind no dot."""
    out = set()
    for ls in its:
        said = parts(ls)[1]
        mine = params(ls)
        for m in re.finditer(WORD, said):
            if m.start() and said[m.start() - 1] == '.':
                continue
            if m.group(0) not in mine:
                out.add(m.group(0))
        if '[]' in said:
            out.add('[]')
    return out


def ghost_for(its):
    tk, out = ghost_words(its), []
    for g in ghost:
        m = re.match(r'ghost use (\S+?)\.\{(.*)\};', g)
        if m:
            ns = []
            for n in m.group(2).split(', '):
                shown = n.split(' as ')[-1]
                if shown in tk or shown.strip('_') in tk:
                    ns.append(n)
            if ns:
                out.append('ghost use %s.{%s};' % (m.group(1), ', '.join(ns)))
        else:
            m = re.match(r'ghost use (\S+?)(?: as (\S+))?;', g)
            n = m.group(2) or m.group(1).split('.')[-1]
            if n in tk:
                out.append(g)
    return out


def calls(f, code):
    return re.search(r'(?<![\w.:])%s\(' % f, re.sub(r'\bfn %s\(' % f, '', code))


def uses_for(its, me):
    code = '\n'.join(parts(ls)[0] for ls in its)
    tk = set(re.findall(r'(?<![\w:.])[A-Za-z_]\w*', code))
    out = set()
    for u in uses:
        if u[4:-1].split('::')[-1].split(' as ')[-1] in tk:
            out.add(u)
    for n in types + consts:
        w = const_in.get(n)
        if n in tk and w != me:
            out.add('use %s%s;' % ('' if me is None else 'crate::', '%s::%s' % (w, n) if w else n))
    for f in fns:
        w = where.get(f)
        if w != me and calls(f, code):
            out.add('use %s%s;' % ('' if me is None else 'crate::', '%s::%s' % (w, f) if w else f))
    # a local name that is called as a module's function, as `bank::call`, is no use
    return sorted(out)


def depth_at(s):
    d, out = 0, []
    for ch in s:
        if ch in ')]}⌝':
            d -= 1
        out.append(d)
        if ch in '([{⌜':
            d += 1
    return out


def broken(l, wide):
    """A contract's line in lines of at most `wide` characters, broken at the outermost place near the middle."""
    if not wide or len(l) <= wide:
        return [l]
    d = depth_at(l)
    best = None
    for p in range(60, min(len(l) - 40, wide)):
        if l[p] != ' ' or l[p - 1] == 'λ':
            continue
        rest = l[p + 1:]
        if l[:p].endswith('→'):
            cost = 0
        elif rest.startswith('× ') or l[:p].endswith('&&'):
            cost = 0
        elif rest.startswith('('):
            cost = 0.5
        else:
            continue
        cost += d[p]
        far = abs(p - len(l) / 2)
        if best is None or (cost, far) < best[0]:
            best = ((cost, far), p)
    if best is None:
        print('note: a contract line of %d characters was left: %s..' % (len(l), l[:60].strip()))
        return [l]
    p = best[1]
    return broken(l[:p], wide) + broken('        ' + l[p + 1:].lstrip(), wide)


def laid(ls):
    out, inside = [], False
    for x in ls:
        c = re.match(r'\s*(requires|ensures) ?\{', x) and not x.startswith('//')
        if inside or c:
            inside = not x.rstrip().endswith('}')
            out += broken(x, plan.get('wide', 0))
        else:
            out.append(x)
    return out


shared = set()
for k, n, ls in items:
    if k in ('fn', 'impl'):
        me = where.get(n) if k == 'fn' else None
        code = parts(ls)[0]
        for f in fns:
            if where.get(f) not in (None, me) and calls(f, code):
                shared.add(f)


# functions that proofs outside of their module cite
def module_of(p):
    first = os.path.relpath(p, proofs).split(os.sep)[0].removesuffix('.antt')
    if first in laws:
        return laws[first].split('/')[0] if '/' in laws[first] else None
    return where.get(first[1:].split('+')[0] if first.startswith('+') else first)


for p in sorted(glob.glob(os.path.join(proofs, '**/*.antt'), recursive=True)):
    for f in re.findall(r'Rattle·%s·proofs\.proofs\.(\w+)' % re.escape(crate), open(p).read()):
        if f in where and where[f] != module_of(p) and f not in shared:
            print('note: proofs/%s cites %s::%s, which is pub(crate) for that only' % (os.path.relpath(p, proofs), where[f], f))
            shared.add(f)


def shown(k, n, ls):
    """An item of a module: pub(crate) where another module uses it."""
    pub = k == 'const' or n in shared
    return '\n'.join(laid([re.sub(r'^(fn|const) ', r'pub(crate) \1 ', x) if pub else x for x in ls]))


written = {}
for m, d in mods.items():
    mine = [(k, n, ls) for k, n, ls in items if (k == 'const' and const_in.get(n) == m) or (k == 'fn' and where.get(n) == m)]
    its = [ls for _, _, ls in mine]
    top = ['// ' + x for x in (d['doc'] if isinstance(d['doc'], list) else [d['doc']])] + ghost_for(its) + uses_for(its, m)
    gap = '\n' if len(top) == 1 and mine[0][2][0].startswith('//') or len(top) > 1 else ''
    written[m] = '\n'.join(top) + '\n' + gap + '\n\n'.join(shown(*it) for it in mine) + '\n'
rest = []
for k, n, ls in items:
    if k == 'use' or (k == 'fn' and n in where) or (k == 'const' and n in const_in):
        continue
    if k == 'text':
        if ls == head or any(x.startswith('// ----') for x in ls):
            continue
    rest.append((k, n, ls))
rest.sort(key=lambda it: it[0] == 'fn')  # types and constants first
its = [ls for _, _, ls in rest]
written['lib'] = '\n'.join(
    head + ghost_for(its) + [''] + sorted(old_mods + ['mod %s;' % m for m in mods]) + [''] + uses_for(its, None) + ['']
) + '\n' + '\n\n'.join('\n'.join(laid(ls)) for _, _, ls in rest) + '\n'

# ---- must-fail edits: the file in which `old:` now stands
edits_new = {}
for p in sorted(glob.glob(os.path.join(home, 'must-fail/*.edit'))):
    ls = open(p).read().split('\n')
    at = next((i for i, x in enumerate(ls) if x.startswith('file:')), None)
    if at is None or not ls[at].startswith('file: src/lib.rt'):
        continue
    olds = [x[5:] for x in ls if x.startswith('old: ')]
    fit = [f for f in written if all(written[f].count(o) == 1 for o in olds)]
    any_ = [f for f in written if any(o in written[f] for o in olds)]
    if len(fit) != 1 or any_ != fit:
        if len(any_) > 1 and len(fit) == 1:
            print('note: %s: `old:` stands in %s, once in %s only' % (os.path.basename(p), any_, fit[0]))
        if len(fit) != 1:
            fault('%s: `old:` stands once in %s; it stands in %s' % (os.path.basename(p), fit or 'no file', any_ or 'none'))
            continue
    if fit[0] != 'lib':
        ls[at] = 'file: src/%s.rt' % fit[0]
        edits_new[p] = '\n'.join(ls)

# ---- proofs: folders
moves = []
for a, b in laws.items():
    if a in files:
        moves.append((os.path.join(proofs, a + '.antt'), os.path.join(proofs, b + '.antt')))
        if os.path.isdir(os.path.join(proofs, a)):
            moves.append((os.path.join(proofs, a), os.path.join(proofs, b)))
cycles = {}
for e in sorted(os.listdir(proofs)):
    p = os.path.join(proofs, e)
    if not os.path.isdir(p):
        continue
    if e.startswith('+'):
        ms = {where.get(f) for f in e[1:].split('+')}
        if len(ms) != 1:
            fault('the cycle %s is in modules %s: one module should have it' % (e, ms))
        elif None not in ms:
            cycles[e] = ms.pop()
            moves.append((p, os.path.join(proofs, cycles[e], e)))
    elif e in where:
        moves.append((p, os.path.join(proofs, where[e], e)))
    elif e not in fns and e not in files and e not in types:
        fault('proofs/%s is of no function' % e)

# ---- proofs: names
alt = '|'.join(re.escape(n) for n in sorted(list(where) + list(cycles), key=len, reverse=True))
alt_dash = '|'.join(re.escape(f.replace('_', '-')) for f in sorted(where, key=len, reverse=True))
of = dict(where)
of.update(cycles)
by_dash = {f.replace('_', '-'): m for f, m in where.items()}
END = r'(?![\w+\-·′])'
subs = [
    (re.compile(r'(Rattle·%s·proofs\.proofs\.)(%s)(?![\w+])' % (re.escape(crate), alt)), lambda m: m.group(1) + of[m.group(2)] + '.' + m.group(2)),
    (re.compile(r'((?:calls-|#)%s·)(%s)%s' % (re.escape(dash), alt_dash, END)), lambda m: m.group(1) + by_dash[m.group(2)] + '·' + m.group(2)),
    (re.compile(r'`%s::(%s)`' % (crate, '|'.join(sorted(where, key=len, reverse=True)))), lambda m: '`%s::%s::%s`' % (crate, where[m.group(1)], m.group(1))),
]
if laws:
    subs.append((re.compile(r'(Rattle·%s·proofs\.proofs\.)(%s)(?![\w+])' % (re.escape(crate), '|'.join(laws))), lambda m: m.group(1) + laws[m.group(2)].replace('/', '.')))
    subs.append((re.compile(r'^((?:pub )?mod )(%s)$' % '|'.join(laws), re.M), None))
changed, nodes = {}, {}
for p in glob.glob(os.path.join(proofs, '**/*.antt'), recursive=True):
    s = n = open(p).read()
    for r, by in subs:
        if by is None:
            if p == os.path.join(proofs, 'Lib.antt'):
                n = r.sub(lambda m: m.group(1) + laws[m.group(2)], n)
                for x in re.findall(r'^(?:pub )?mod \w+/\w+$', n, re.M):
                    nodes.setdefault(x.split()[-1].split('/')[0], []).append('pub mod ' + x.split('/')[1])
                mod_lines = sorted(x for x in n.split('\n') if re.match(r'(pub )?mod \w+$', x))
                n = '\n'.join(mod_lines + [x for x in n.split('\n') if not re.match(r'(pub )?mod ', x)])
        else:
            n = r.sub(by, n)
    if n != s:
        changed[p] = n

# ---- other crates may cite only what stays
for p in glob.glob(os.path.join(repo, 'crates/*/**/*.antt'), recursive=True):
    if p.startswith(proofs + os.sep):
        continue
    s = open(p).read()
    m = re.search(r'Rattle·%s\.proofs\.(%s)(?![\w+])' % (re.escape(crate), '|'.join([alt] + list(laws))), s)
    if m:
        fault('%s cites %s, which moves' % (os.path.relpath(p, repo), m.group(0)))
stop_at_faults()
docs = {}
for e in plan.get('docs', []):
    p = os.path.join(repo, e['file'])
    s = docs.get(p) or open(p).read()
    if e['old'] in s:
        docs[p] = s.replace(e['old'], e['new'])
    elif e['new'] not in s:
        print('note: %s has no %r' % (e['file'], e['old']))

if not dry:
    for p, n in docs.items():
        open(p, 'w').write(n)
    for p, n in changed.items():
        open(p, 'w').write(n)
    for p, n in edits_new.items():
        open(p, 'w').write(n)
    for a, b in moves:
        os.makedirs(os.path.dirname(b), exist_ok=True)
        # proofs/run is moved to proofs/run/run by way of another name
        tmp = a + '.moving'
        os.rename(a, tmp)
        os.makedirs(os.path.dirname(b), exist_ok=True)
        os.rename(tmp, b)
    for m, ls in nodes.items():
        p = os.path.join(proofs, m + '.antt')
        had = open(p).read() if os.path.exists(p) else ''
        open(p, 'w').write('\n'.join(sorted(ls)) + '\n' + had)
    for m, t in written.items():
        open(os.path.join(src, m + '.rt'), 'w').write(t)
for m, t in written.items():
    print('%-14s %5d lines, longest contract line %d' % (m + '.rt', t.count('\n'), max(len(x) for x in t.split('\n') if not re.match(r'(ghost )?use |//', x))))
print('%d folders and files of proofs moved, %d changed, %d must-fail edits point to another file' % (len(moves), len(changed), len(edits_new)))
