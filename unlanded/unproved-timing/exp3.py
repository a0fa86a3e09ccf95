import re
p='$WORK/t/crates/type1/src/lib.rt'
t=open(p).read()
# list_point
t=t.replace('''    let c = commit(room, st, edges, across, cmds);
    if c.flow != 0 {
        return c;
    }
    enter_point(kind, x, y, c.st, cmds)''','''    let mut s = st;
    if st.changed {
        let c = regroup(room, st, edges, across, cmds);
        if c.flow != 0 {
            return c;
        }
        s = c.st;
    }
    enter_point(kind, x, y, s, cmds)''')
t=t.replace('''    let c = commit(room, at_point(rx, ry, st), edges, across, cmds);
    if c.flow != 0 {
        return c;
    }
    enter_curve(px, py, qx, qy, rx, ry, c.st, cmds)''','''    let mut s = at_point(rx, ry, st);
    if s.changed {
        let c = regroup(room, s, edges, across, cmds);
        if c.flow != 0 {
            return c;
        }
        s = c.st;
    }
    enter_curve(px, py, qx, qy, rx, ry, s, cmds)''')
t=t.replace('''    let o = ready(room, st, edges, across, cmds);
    if o.flow != 0 {
        return o;
    }
    line_to(dx, dy, room, o.st, edges, across, cmds)''','''    let mut s = st;
    if !st.opened {
        let o = open_subpath(room, st, edges, across, cmds);
        if o.flow != 0 {
            return o;
        }
        s = o.st;
    }
    line_to(dx, dy, room, s, edges, across, cmds)''')
t=t.replace('''    let o = ready(room, st, edges, across, cmds);
    if o.flow != 0 {
        return o;
    }
    curve_to(''','''    let mut s = st;
    if !st.opened {
        let o = open_subpath(room, st, edges, across, cmds);
        if o.flow != 0 {
            return o;
        }
        s = o.st;
    }
    curve_to(''').replace('dx3, dy3, room, o.st, edges','dx3, dy3, room, s, edges')
open(p,'w').write(t)
p='$WORK/t/crates/type1_to_type2/src/lib.rt'
t=open(p).read()
t=re.sub(r'\n    (requires|ensures) \{ .*?⌝ \}(?=\n)', '', t, flags=re.S)
t=re.sub(r'\n        (requires|ensures) \{ .*?⌝ \}(?=\n)', '', t, flags=re.S)
t=re.sub(r'\nghost use[^\n]*','',t)
t=t.replace("    waits: u8,","    waits: u64,").replace("fn batch(op: u8,","fn batch(op: u64,").replace("const T2_RLINETO: u8","const T2_RLINETO: u64").replace("const T2_RRCURVETO: u8","const T2_RRCURVETO: u64").replace("put_byte(k, w, out)","put_byte(k as u8, w, out)")
open(p,'w').write(t)
