import re,sys
flags=set((sys.argv[1] if len(sys.argv)>1 else "none").split(","))
import subprocess
subprocess.run('cd $WORK/t && git checkout -q crates/type1 crates/type1_to_type2 crates/type2 crates/bank',shell=True,check=True)
P='$WORK/t/crates/%s/src/lib.rt'
def load(c):
    t=open(P%c).read()
    t=re.sub(r'\n    +(requires|ensures) \{ .*?⌝ \}(?=\n)', '', t, flags=re.S)
    return re.sub(r'\nghost use[^\n]*','',t)
def save(c,t): open(P%c,'w').write(t)
t=load('type1')
def rep(a,b,n=None):
    global t
    assert a in t,a
    t=t.replace(a,b)
if 'tok' in flags:
    rep('struct Tok {\n    st: St,\n','struct Tok {\n    n: usize,\n')
    rep('fn found(st: St, n: usize,','fn found(n: usize,'); rep('    let mut s = st;\n    s.operands = n;\n    Tok {\n        st: s,\n','    Tok {\n        n,\n')
    rep('found(st, n,','found(n,'); rep('v: u8, n: usize, st: St) -> Tok','v: u8, n: usize) -> Tok'); rep('encrypted, v, n, st)','encrypted, v, n)')
    rep('        s = t.st;\n','        s.operands = t.n;\n')
if 'tokn' in flags: # token takes n not st
    rep('encrypted: bool, st: St, ops: &mut [f64; 256]) -> Tok','encrypted: bool, held: usize, ops: &mut [f64; 256]) -> Tok'); rep('let mut n = st.operands;\n    while i < code','let mut n = held;\n    while i < code'); rep('token(code, i, key, e, s, ops)','token(code, i, key, e, s.operands, ops)')
if 'plainlet' in flags:
    i=t.index('fn plain('); j=t.index('// ---- subroutines')
    b=t[i:j]
    cp='h' if 'plaincopy' in flags else 'st'
    b=re.sub(r'            return (\w+)\((.*?)\);\n', lambda m: ('            let h = st;\n' if cp=='h' else '')+'            let r = %s(%s);\n            return r;\n'%(m.group(1), re.sub(r'\bst\b',cp,m.group(2))), b, flags=re.S)
    t=t[:i]+b+t[j:]
if 'regroup' in flags:
    rep('''    if is_last(st, edges, across) {
        let mut s = st;
        s.changed = false;
        return made(s, 0);
    }
    new_group(room, st, edges, across, cmds)
}''','''    regroup(room, st, edges, across, cmds)
}

fn regroup(
    room: usize,
    st: St,
    edges: &mut [f64; 1024],
    across: &mut [bool; 512],
    cmds: &mut [u64],
) -> Ran
{
    if is_last(st, edges, across) {
        let mut s = st;
        s.changed = false;
        return made(s, 0);
    }
    new_group(room, st, edges, across, cmds)
}''')
    rep('''    let c = commit(room, st, edges, across, cmds);
    if c.flow != 0 {
        return c;
    }
    enter_point(kind, x, y, c.st, cmds)''','''    if st.changed {
        let h = st;
        let c = regroup(room, h, edges, across, cmds);
        if c.flow != 0 {
            return c;
        }
        return enter_point(kind, x, y, c.st, cmds);
    }
    enter_point(kind, x, y, st, cmds)''')
    rep('''    let c = commit(room, at_point(rx, ry, st), edges, across, cmds);
    if c.flow != 0 {
        return c;
    }
    enter_curve(px, py, qx, qy, rx, ry, c.st, cmds)''','''    let s = at_point(rx, ry, st);
    if s.changed {
        let h = s;
        let c = regroup(room, h, edges, across, cmds);
        if c.flow != 0 {
            return c;
        }
        return enter_curve(px, py, qx, qy, rx, ry, c.st, cmds);
    }
    enter_curve(px, py, qx, qy, rx, ry, s, cmds)''')
if 'open' in flags:
    rep('''    if st.opened {
        return line_to(dx, dy, room, st, edges, across, cmds);
    }
    let o = open_subpath(room, st, edges, across, cmds);
    if o.flow != 0 {
        return o;
    }
    line_to(dx, dy, room, o.st, edges, across, cmds)''','''    let mut s = st;
    if !st.opened {
        let h = st;
        let o = open_subpath(room, h, edges, across, cmds);
        if o.flow != 0 {
            return o;
        }
        s = o.st;
    }
    line_to(dx, dy, room, s, edges, across, cmds)''')
    i=t.index('fn curve_by('); i=t.index('\n{\n',i); j=t.index('\n}\n',i)
    t=t[:i]+'''
{
    let mut s = st;
    if !st.opened {
        let h = st;
        let o = open_subpath(room, h, edges, across, cmds);
        if o.flow != 0 {
            return o;
        }
        s = o.st;
    }
    curve_to(dx1, dy1, dx2, dy2, dx3, dy3, room, s, edges, across, cmds)'''+t[j:]
if 'unify' in flags:
    exec(open('$WORK/tc/unify.py').read())
save('type1',t)
t=load('type1_to_type2')
if 'waits' in flags:
    rep("    waits: u8,","    waits: u64,"); rep("fn batch(op: u8,","fn batch(op: u64,"); rep("const T2_RLINETO: u8","const T2_RLINETO: u64"); rep("const T2_RRCURVETO: u8","const T2_RRCURVETO: u64"); rep("put_byte(k, w, out)","put_byte(k as u8, w, out)")
if 'waitslast' in flags:
    rep("    waits: u8,\n    held: usize,","    held: usize,\n    waits: u8,")
if 'group' in flags:
    rep('''        clear_mask(mask);
        mark_group(''','''        if commands[ENTRY * e] == GROUP {
        clear_mask(mask);
        mark_group('''); rep('''            mask,
        );
        at = write_entry''','''            mask,
        ); }
        at = write_entry''')
if 'delta' in flags:
    i=t.index('fn put_delta('); j=t.index('// A line, which shares an operator with up to 22 more.')
    t=t[:i]+'''fn put_delta(px: f64, py: f64, w: Writer, out: &mut [u8]) -> Writer
{
    if w.number != 0 {
        return w;
    }
    let mut r = w;
    let at = w.next;
    let a = type2::push_delta(out, at, px - w.x);
    if a.number != 0 {
        r.number = a.number;
        return r;
    }
    r.x = w.x + a.value;
    let at2 = a.next;
    let b = type2::push_delta(out, at2, py - w.y);
    r.number = b.number;
    r.next = b.next;
    r.y = w.y + b.value;
    r
}

'''+t[j:]
save('type1_to_type2',t)
t=load('type2')
if 'delta' in flags:
    t+='''
// a delta
pub struct Delta {
    pub number: u64,
    pub next: usize,
    pub value: f64,
}

pub fn push_delta(out: &mut [u8], at: usize, v: f64) -> Delta
{
    if v < 32767.99999237060546875 {
        if -32768.00000762939453125 < v {
            let n = nearest(v * 65536.0);
            let p = push_units(out, at, (n + 4294967296.0) as u64);
            return Delta { number: p.number as u64, next: p.next, value: n / 65536.0 };
        }
    }
    Delta { number: 13, next: 0, value: 0.0 }
}
'''
save('type2',t)
t=load('bank')
if 'bank' in flags:
    rep('''    while i < count {
        let offset = u32_at(bank, 6 + 4 * i);
        if offset < before {
            return false;
        }
        before = offset;
        i += 1;
    }
    before == bank.len() - table''','''    let mut falls: usize = 0;
    while i < count {
        let offset = u32_at(bank, 6 + 4 * i);
        if offset < before {
            falls = 1;
        }
        before = offset;
        i += 1;
    }
    if falls != 0 { return false; }
    before == bank.len() - table''')
save('bank',t)
