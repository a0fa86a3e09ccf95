import re,sys
steps=sys.argv[1].split(',')
t=open('/tmp/type1.c2.rt').read()
t=re.sub(r'\n    (requires|ensures) \{(?:[^{}]|\{[^{}]*\})*\}(?=\n)','',t)
def rep(o,n,cnt=1):
    global t
    assert t.count(o)>=1,o
    t=t.replace(o,n)
if 'path' in steps:
    a=t.index('// ---- path operators'); b=t.index('// 12 33\nfn setcurrentpoint')
    new='''// ---- path operators
struct Deltas {
    few: u64,
    x1: f64,
    y1: f64,
    x2: f64,
    y2: f64,
    x3: f64,
    y3: f64,
}

fn deltas(x1: f64, y1: f64, x2: f64, y2: f64, x3: f64, y3: f64) -> Deltas {
    Deltas { few: 0, x1, y1, x2, y2, x3, y3 }
}

fn too_few() -> Deltas {
    Deltas { few: 1, x1: 0.0, y1: 0.0, x2: 0.0, y2: 0.0, x3: 0.0, y3: 0.0 }
}

fn deltas_of(op: u16, n: usize, ops: &[f64; 256]) -> Deltas {
    match op {
        5 | 21 => {
            if n < 2 { return too_few(); }
            return deltas(ops[n - 2], ops[n - 1], 0.0, 0.0, 0.0, 0.0);
        }
        6 | 22 => {
            if n < 1 { return too_few(); }
            return deltas(ops[n - 1], 0.0, 0.0, 0.0, 0.0, 0.0);
        }
        4 | 7 => {
            if n < 1 { return too_few(); }
            return deltas(0.0, ops[n - 1], 0.0, 0.0, 0.0, 0.0);
        }
        8 => {
            if n < 6 { return too_few(); }
            return deltas(ops[n - 6], ops[n - 5], ops[n - 4], ops[n - 3], ops[n - 2], ops[n - 1]);
        }
        30 => {
            if n < 4 { return too_few(); }
            return deltas(0.0, ops[n - 4], ops[n - 3], ops[n - 2], ops[n - 1], 0.0);
        }
        _ => {
            if n < 4 { return too_few(); }
            return deltas(ops[n - 4], 0.0, ops[n - 3], ops[n - 2], 0.0, ops[n - 1]);
        }
    }
}

fn path(
    op: u16,
    room: usize,
    st: St,
    ops: &[f64; 256],
    edges: &mut [f64; 1024],
    across: &mut [bool; 512],
    cmds: &mut [u64],
) -> Ran
{
    let n = st.operands;
    let d = deltas_of(op, n, ops);
    if d.few != 0 {
        return made(st, 7);
    }
    let s = cleared(st);
    if (op == 4) | (op == 21) | (op == 22) {
        return move_by(d.x1, d.y1, room, s, edges, across, cmds);
    }
    if op < 8 {
        return line_by(d.x1, d.y1, room, s, edges, across, cmds);
    }
    curve_by(d.x1, d.y1, d.x2, d.y2, d.x3, d.y3, room, s, edges, across, cmds)
}

'''
    t=t[:a]+new+t[b:]
    a=t.index('// Every operator but callsubr.'); b=t.index('// ---- subroutines')
    s=t[a:b]
    for op,fn in [(4,'vmoveto'),(5,'rlineto'),(6,'hlineto'),(7,'vlineto'),(8,'rrcurveto'),(21,'rmoveto'),(22,'hmoveto'),(30,'vhcurveto'),(31,'hvcurveto')]:
        x=f'''        {op} => {{
            return {fn}(room, st, ops, edges, across, cmds);
        }}
'''
        assert x in s,(op,)
        s=s.replace(x,'')
    s=s.replace('''        1 => {
            return hstem''','''        4 | 5 | 6 | 7 | 8 | 21 | 22 | 30 | 31 => {
            return path(op, room, st, ops, edges, across, cmds);
        }
        1 => {
            return hstem''')
    t=t[:a]+s+t[b:]
if 'once' in steps:
    rep('''        257 => {
            return stems3(false, cells[BEARING_X], st, ops, edges, across);
        }
        258 => {
            return stems3(true, cells[BEARING_Y], st, ops, edges, across);
        }
''','''        257 | 258 => {
            let h = op == 258;
            return stems3(h, bearing_of(h, cells), st, ops, edges, across);
        }
''')
    rep('''// ---- OtherSubrs
''','''fn bearing_of(horizontal: bool, cells: &[f64; 19]) -> f64 {
    if horizontal { cells[BEARING_Y] } else { cells[BEARING_X] }
}

// ---- OtherSubrs
''')
    rep('''            if m == 0 {
                return end_flex(50.0, room, s, ps, cells, edges, across, cmds);
            }
            return end_flex(ops[from], room, s, ps, cells, edges, across, cmds);''','''            return end_flex(height_of(m, from, ops), room, s, ps, cells, edges, across, cmds);''')
    rep('''// 12 16
fn callothersubr''','''fn height_of(m: usize, from: usize, ops: &[f64; 256]) -> f64 {
    if m == 0 { 50.0 } else { ops[from] }
}

// 12 16
fn callothersubr''')
if 'openonce' in steps:
    rep('''    if st.opened {
        return line_to(dx, dy, room, st, edges, across, cmds);
    }
    let o = open_subpath(room, st, edges, across, cmds);
    if o.flow != 0 {
        return o;
    }
    line_to(dx, dy, room, o.st, edges, across, cmds)''','''    let mut s = st;
    if !st.opened {
        let o = open_subpath(room, st, edges, across, cmds);
        if o.flow != 0 {
            return o;
        }
        s = o.st;
    }
    line_to(dx, dy, room, s, edges, across, cmds)''')
    a=t.index('fn curve_by('); b=t.index('fn set_point(')
    s=t[a:b]
    s2=re.sub(r'    if st\.opened \{\n        return curve_to\(dx1.*?\n    \}\n    let o = open_subpath\(room, st, edges, across, cmds\);\n    if o.flow != 0 \{\n        return o;\n    \}\n    curve_to\(.*?\n    \)\n','''    let mut s = st;
    if !st.opened {
        let o = open_subpath(room, st, edges, across, cmds);
        if o.flow != 0 {
            return o;
        }
        s = o.st;
    }
    curve_to(dx1, dy1, dx2, dy2, dx3, dy3, room, s, edges, across, cmds)
''',s,flags=re.S)
    assert s2!=s
    t=t[:a]+s2+t[b:]
open('$WORK/t/crates/type1/src/lib.rt','w').write(t)
