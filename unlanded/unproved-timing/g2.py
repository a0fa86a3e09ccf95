import re,sys
exec(open('$WORK/tc/var.py').read().split("t=load('type1')")[0])
t=load('type1')
def rep(a,b):
    global t
    assert a in t,a
    t=t.replace(a,b)
rep('''fn found(st: St, n: usize, next: usize, key: u16, flow: u8, op: u16) -> Tok
{
    let mut s = st;
    s.operands = n;
''','''fn found(st: St, n: usize, x: f64, y: f64, k: usize, opened: bool, next: usize, key: u16, flow: u8, op: u16) -> Tok
{
    let mut s = st;
    s.operands = n;
    s.x = x;
    s.y = y;
    s.entries = k;
    s.opened = opened;
''')
i=t.index('// The operator whose first byte v was read'); j=t.index('// ---- answers')
t=t[:i]+'''
struct Drawn {
    x: f64,
    y: f64,
    k: usize,
    done: bool,
    opened: bool,
}

fn store_point(kind: u64, x: f64, y: f64, k: usize, cmds: &mut [u64]) -> bool
{
    let at = ENTRY * k;
    if cmds.len() - at < ENTRY {
        return false;
    }
    cmds[at] = kind;
    cmds[at + 1] = f64::to_bits(x);
    cmds[at + 2] = f64::to_bits(y);
    true
}

fn store_curve(px: f64, py: f64, qx: f64, qy: f64, rx: f64, ry: f64, k: usize, cmds: &mut [u64]) -> bool
{
    let at = ENTRY * k;
    if cmds.len() - at < ENTRY {
        return false;
    }
    cmds[at] = CURVE;
    cmds[at + 1] = f64::to_bits(px);
    cmds[at + 2] = f64::to_bits(py);
    cmds[at + 3] = f64::to_bits(qx);
    cmds[at + 4] = f64::to_bits(qy);
    cmds[at + 5] = f64::to_bits(rx);
    cmds[at + 6] = f64::to_bits(ry);
    true
}

fn draw_line(kind: u64, dx: f64, dy: f64, x: f64, y: f64, k: usize, cmds: &mut [u64]) -> Drawn
{
    let px = x + dx;
    let py = y + dy;
    if !finite_point(px, py) {
        return Drawn { done: false, x, y, k, opened: true };
    }
    let done = store_point(kind, px, py, k, cmds);
    Drawn { done, x: px, y: py, k: k + 1, opened: true }
}

fn draw_curve(dx1: f64, dy1: f64, dx2: f64, dy2: f64, dx3: f64, dy3: f64, x: f64, y: f64, k: usize, cmds: &mut [u64]) -> Drawn
{
    let px = x + dx1;
    let py = y + dy1;
    let qx = px + dx2;
    let qy = py + dy2;
    let rx = qx + dx3;
    let ry = qy + dy3;
    if !finite_point(px, py) {
        return Drawn { done: false, x, y, k, opened: true };
    }
    if !finite_point(qx, qy) {
        return Drawn { done: false, x, y, k, opened: true };
    }
    if !finite_point(rx, ry) {
        return Drawn { done: false, x, y, k, opened: true };
    }
    let done = store_curve(px, py, qx, qy, rx, ry, k, cmds);
    Drawn { done, x: rx, y: ry, k: k + 1, opened: true }
}

fn draw(v: u8, n: usize, x: f64, y: f64, k: usize, opened: bool, ops: &[f64; 256], cmds: &mut [u64]) -> Drawn
{
    match v {
        9 => {
            return Drawn { done: true, x, y, k, opened: false };
        }
        21 => {
            if 2 <= n {
                return draw_line(MOVE, ops[n - 2], ops[n - 1], x, y, k, cmds);
            }
        }
        22 => {
            if 1 <= n {
                return draw_line(MOVE, ops[n - 1], 0.0, x, y, k, cmds);
            }
        }
        4 => {
            if 1 <= n {
                return draw_line(MOVE, 0.0, ops[n - 1], x, y, k, cmds);
            }
        }
        _ => {}
    }
    if !opened {
        return Drawn { done: false, x, y, k, opened };
    }
    match v {
        5 => {
            if 2 <= n {
                return draw_line(LINE, ops[n - 2], ops[n - 1], x, y, k, cmds);
            }
        }
        6 => {
            if 1 <= n {
                return draw_line(LINE, ops[n - 1], 0.0, x, y, k, cmds);
            }
        }
        7 => {
            if 1 <= n {
                return draw_line(LINE, 0.0, ops[n - 1], x, y, k, cmds);
            }
        }
        8 => {
            if 6 <= n {
                return draw_curve(ops[n - 6], ops[n - 5], ops[n - 4], ops[n - 3], ops[n - 2], ops[n - 1], x, y, k, cmds);
            }
        }
        30 => {
            if 4 <= n {
                return draw_curve(0.0, ops[n - 4], ops[n - 3], ops[n - 2], ops[n - 1], 0.0, x, y, k, cmds);
            }
        }
        31 => {
            if 4 <= n {
                return draw_curve(ops[n - 4], 0.0, ops[n - 3], ops[n - 2], 0.0, ops[n - 1], x, y, k, cmds);
            }
        }
        _ => {}
    }
    Drawn { done: false, x, y, k, opened }
}

fn quick(st: St) -> bool
{
    if st.changed {
        return false;
    }
    !st.flexing
}

fn operator_at(code: &[u8], i: usize, key: u16, encrypted: bool, v: u8, n: usize, x: f64, y: f64, k: usize, opened: bool, st: St) -> Tok
{
    if v != 12 {
        return found(st, n, x, y, k, opened, i, key, 0, wide(v));
    }
    if code.len() - i < 1 {
        return found(st, n, x, y, k, opened, i, key, 5, 0);
    }
    let c = code[i];
    let e = plain_of(c, key, encrypted);
    found(st, n, x, y, k, opened, i + 1, key_after(c, key, encrypted), 0, 256 + wide(e))
}

fn token(code: &[u8], from: usize, start: u16, encrypted: bool, st: St, ops: &mut [f64; 256], cmds: &mut [u64]) -> Tok
{
    let mut i = from;
    let mut key = start;
    let mut n = st.operands;
    let mut x = st.x;
    let mut y = st.y;
    let mut e = st.entries;
    let mut opened = st.opened;
    let q = quick(st);
    while i < code.len() {
        let c = code[i];
        let v = plain_of(c, key, encrypted);
        let k = key_after(c, key, encrypted);
        if v < 32 {
            if !q {
                return operator_at(code, i + 1, k, encrypted, v, n, x, y, e, opened, st);
            }
            let d = draw(v, n, x, y, e, opened, ops, cmds);
            if !d.done {
                return operator_at(code, i + 1, k, encrypted, v, n, x, y, e, opened, st);
            }
            x = d.x;
            y = d.y;
            e = d.k;
            opened = d.opened;
            n = 0;
            i += 1;
            key = k;
        } else {
            let w = number_at(code, i + 1, k, encrypted, v);
            if w.cut {
                return found(st, n, x, y, e, opened, i + 1, k, 5, 0);
            }
            if n == 256 {
                return found(st, n, x, y, e, opened, i + 1, k, 15, 0);
            }
            ops[n] = w.x;
            n += 1;
            i = w.next;
            key = w.key;
        }
    }
    found(st, n, x, y, e, opened, i, key, 1, 0)
}

'''+t[j:]
rep('token(code, i, key, e, s, ops)','token(code, i, key, e, s, ops, cmds)')
save('type1',t)
