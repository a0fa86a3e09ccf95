p='$WORK/t/crates/type1/src/lib.rt'
t=open(p).read()
i=t.index('// One operator.\nfn op(')
j=t.index('// What a run leaves: document 01')
new='''
struct Seg {
    st: St,
    flow: u8,
    next: usize,
    key: u16,
}

fn segment(
    code: &[u8],
    from: usize,
    start: u16,
    e: bool,
    st: St,
    ops: &mut [f64; 256],
    ps: &mut [f64; 256],
    cells: &mut [f64; 19],
    edges: &mut [f64; 1024],
    across: &mut [bool; 512],
    cmds: &mut [u64],
    stems: &mut [Stem],
) -> Seg
{
    let mut i = from;
    let mut key = start;
    let mut s = st;
    while i < code.len() {
        let t = token(code, i, key, e, s, ops);
        s.operands = t.n;
        let g = t.flow;
        if g != 0 {
            return Seg { st: s, flow: g, next: t.next, key: t.key };
        }
        i = t.next;
        key = t.key;
        if t.op == 10 {
            return Seg { st: s, flow: 255, next: i, key };
        }
        let n = room(stems);
        let g = s.groups;
        let used = s.stems;
        let hints = s.hints;
        let r = plain(t.op, n, s, ops, ps, cells, edges, across, cmds);
        s = r.st;
        let h = s.groups;
        if g != h {
            keep_group(used, hints, edges, across, stems);
        }
        let f = r.flow;
        if f != 0 {
            return Seg { st: s, flow: f, next: i, key };
        }
    }
    Seg { st: s, flow: 1, next: i, key }
}

fn run(
    code: &[u8],
    bank: &[u8],
    len_iv: usize,
    levels: usize,
    st: St,
    ops: &mut [f64; 256],
    ps: &mut [f64; 256],
    cells: &mut [f64; 19],
    edges: &mut [f64; 1024],
    across: &mut [bool; 512],
    cmds: &mut [u64],
    stems: &mut [Stem],
) -> Ran
{
    let b = begin(code, len_iv);
    let e = b.encrypted;
    let mut at = [0usize; 11];
    let mut keys = [0u16; 11];
    let mut which = [0usize; 11];
    let mut level = 0;
    at[0] = b.at;
    keys[0] = b.key;
    let mut s = st;
    while level < 11 {
        let w = which[level];
        let i = at[level];
        let k = keys[level];
        let mut flow = 0u8;
        if level == 0 {
            let r = segment(code, i, k, e, s, ops, ps, cells, edges, across, cmds, stems);
            s = r.st;
            flow = r.flow;
            at[level] = r.next;
            keys[level] = r.key;
        } else {
            let r = segment(bank::body(bank, w), i, k, e, s, ops, ps, cells, edges, across, cmds, stems);
            s = r.st;
            flow = r.flow;
            at[level] = r.next;
            keys[level] = r.key;
        }
        if flow == 255 {
            let c = callsubr(bank, s, ops);
            let f = c.flow;
            if f != 0 {
                return made(s, f);
            }
            s = c.st;
            if level == 10 {
                return made(s, 4);
            }
            level += 1;
            let q = begin(bank::body(bank, c.index), len_iv);
            which[level] = c.index;
            at[level] = q.at;
            keys[level] = q.key;
        } else {
            if flow != 1 {
                return made(s, flow);
            }
            if level == 0 {
                return made(s, 0);
            }
            level -= 1;
        }
    }
    made(s, 0)
}

'''
t=t[:i]+new+t[j:]
# Tok without St
t=t.replace('''struct Tok {
    st: St,
''','''struct Tok {
    n: usize,
''')
t=t.replace('''fn found(st: St, n: usize,''','''fn found(n: usize,''').replace('''    let mut s = st;
    s.operands = n;
    Tok {
        st: s,
''','''    Tok {
        n,
''')
t=t.replace('found(st, n,','found(n,').replace('v: u8, n: usize, st: St) -> Tok','v: u8, n: usize) -> Tok').replace('encrypted, v, n, st)','encrypted, v, n)')
# drop contracts in changed functions
import re
def strip(name):
    global t
    k=t.index('\nfn '+name+'(')
    e=t.index('\n{\n',k)
    seg=t[k:e]
    lines=[l for l in seg.split('\n') if not re.match(r'\s+(requires|ensures|Meets|\(opD|\(runD)',l)]
    t=t[:k]+'\n'.join(lines)+t[e:]
for n in ['found','operator_at','token']: strip(n)
open(p,'w').write(t)
