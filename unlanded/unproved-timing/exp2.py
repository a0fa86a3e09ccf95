import re
p='$WORK/t/crates/type1/src/lib.rt'
t=open(p).read()
def strip_contracts(t):
    # remove all requires/ensures (multi-line ensures end with ⌝ })
    return re.sub(r'\n    (requires|ensures) \{ .*?⌝ \}(?=\n)', '', t, flags=re.S)
t=strip_contracts(t)
t=re.sub(r'\nghost use[^\n]*','',t)
# commit split
t=t.replace('''    if is_last(st, edges, across) {
        let mut s = st;
        s.changed = false;
        return made(s, 0);
    }
    new_group(room, st, edges, across, cmds)
}''','''    regroup(room, st, edges, across, cmds)
}

fn regroup(
    room: usize,
    st: St,
    edges: &mut [f64; 1024],
    across: &mut [bool; 512],
    cmds: &mut [u64],
) -> Ran
{
    if is_last(st, edges, across) {
        let mut s = st;
        s.changed = false;
        return made(s, 0);
    }
    new_group(room, st, edges, across, cmds)
}''')
# line_by, curve_by single call
i=t.index('fn line_by('); j=t.index('// 8, 30, 31, with a subpath open.')
t=t[:i]+'''fn ready(
    room: usize,
    st: St,
    edges: &mut [f64; 1024],
    across: &mut [bool; 512],
    cmds: &mut [u64],
) -> Ran
{
    if st.opened {
        return made(st, 0);
    }
    open_subpath(room, st, edges, across, cmds)
}

fn line_by(
    dx: f64,
    dy: f64,
    room: usize,
    st: St,
    edges: &mut [f64; 1024],
    across: &mut [bool; 512],
    cmds: &mut [u64],
) -> Ran
{
    let o = ready(room, st, edges, across, cmds);
    if o.flow != 0 {
        return o;
    }
    line_to(dx, dy, room, o.st, edges, across, cmds)
}

'''+t[j:]
i=t.index('fn curve_by('); j=t.index('// 12 33.\n')
t=t[:i]+'''fn curve_by(
    dx1: f64,
    dy1: f64,
    dx2: f64,
    dy2: f64,
    dx3: f64,
    dy3: f64,
    room: usize,
    st: St,
    edges: &mut [f64; 1024],
    across: &mut [bool; 512],
    cmds: &mut [u64],
) -> Ran
{
    let o = ready(room, st, edges, across, cmds);
    if o.flow != 0 {
        return o;
    }
    curve_to(dx1, dy1, dx2, dy2, dx3, dy3, room, o.st, edges, across, cmds)
}

'''+t[j:]
# unify operators
i=t.index('// 4\nfn vmoveto'); j=t.index('// 12 33\nfn setcurrentpoint')
t=t[:i]+'''
fn moves(op: u16, room: usize, st: St, ops: &[f64; 256], edges: &mut [f64; 1024], across: &mut [bool; 512], cmds: &mut [u64]) -> Ran
{
    let n = st.operands;
    let mut dx = 0.0;
    let mut dy = 0.0;
    if op == 21 {
        if n < 2 { return made(st, 7); }
        dx = ops[n - 2];
        dy = ops[n - 1];
    } else {
        if n < 1 { return made(st, 7); }
        if op == 22 { dx = ops[n - 1]; } else { dy = ops[n - 1]; }
    }
    move_by(dx, dy, room, cleared(st), edges, across, cmds)
}

fn lines(op: u16, room: usize, st: St, ops: &[f64; 256], edges: &mut [f64; 1024], across: &mut [bool; 512], cmds: &mut [u64]) -> Ran
{
    let n = st.operands;
    let mut dx = 0.0;
    let mut dy = 0.0;
    if op == 5 {
        if n < 2 { return made(st, 7); }
        dx = ops[n - 2];
        dy = ops[n - 1];
    } else {
        if n < 1 { return made(st, 7); }
        if op == 6 { dx = ops[n - 1]; } else { dy = ops[n - 1]; }
    }
    line_by(dx, dy, room, cleared(st), edges, across, cmds)
}

fn curves(op: u16, room: usize, st: St, ops: &[f64; 256], edges: &mut [f64; 1024], across: &mut [bool; 512], cmds: &mut [u64]) -> Ran
{
    let n = st.operands;
    let mut a = 0.0;
    let mut b = 0.0;
    let mut e = 0.0;
    let mut f = 0.0;
    let mut c = 0.0;
    let mut d = 0.0;
    if op == 8 {
        if n < 6 { return made(st, 7); }
        a = ops[n - 6];
        b = ops[n - 5];
        c = ops[n - 4];
        d = ops[n - 3];
        e = ops[n - 2];
        f = ops[n - 1];
    } else {
        if n < 4 { return made(st, 7); }
        if op == 30 { b = ops[n - 4]; e = ops[n - 1]; } else { a = ops[n - 4]; f = ops[n - 1]; }
        c = ops[n - 3];
        d = ops[n - 2];
    }
    curve_by(a, b, c, d, e, f, room, cleared(st), edges, across, cmds)
}

'''+t[j:]
for a,b in [('vmoveto','moves'),('rmoveto','moves'),('hmoveto','moves'),('rlineto','lines'),('hlineto','lines'),('vlineto','lines'),('rrcurveto','curves'),('vhcurveto','curves'),('hvcurveto','curves')]:
    t=re.sub(r'        \d+ => \{\n            return %s\(room, st, ops, edges, across, cmds\);\n        \}\n'%a,'',t)
t=t.replace('''    match op {
        1 => {
            return hstem''','''    if op > 3 {
        if op < 32 {
            if op == 21 { return moves(op, room, st, ops, edges, across, cmds); }
        }
    }
    match op {
        4 | 22 => {
            return moves(op, room, st, ops, edges, across, cmds);
        }
        1 => {
            return hstem''') if False else t.replace('''    match op {
        1 => {
            return hstem''','''    match op {
        4 | 21 | 22 => {
            return moves(op, room, st, ops, edges, across, cmds);
        }
        5 | 6 | 7 => {
            return lines(op, room, st, ops, edges, across, cmds);
        }
        8 | 30 | 31 => {
            return curves(op, room, st, ops, edges, across, cmds);
        }
        1 => {
            return hstem''')
open(p,'w').write(t)
