import re
t=open('$WORK/main/crates/type1/src/lib.rt').read()
t=re.sub(r'\n    (requires|ensures) \{(?:[^{}]|\{[^{}]*\})*\}(?=\n)','',t)
a=t.index('// The stems in force become the last group'); b=t.index('// ---- paths'); t=t[:a]+t[b:]
a=t.index('// Whether the stems in force are the last group'); b=t.index('// ---- paths'); t=t[:a]+t[b:]
def drop_args(s):
    s=re.sub(r'\n    room: usize,','',s); s=re.sub(r'\n    edges: &mut \[f64; 1024\],','',s); s=re.sub(r'\n    across: &mut \[bool; 512\],','',s)
    s=s.replace('room, ','').replace('edges, across, ','')
    s=re.sub(r'\n        room,','',s); s=re.sub(r'\n        edges,','',s); s=re.sub(r'\n        across,','',s)
    return s
for x,y in [('// ---- paths','// ---- hint operators'),('// 0: the flex is listed','// 2: the current point is collected.'),('// 12 16\nfn callothersubr','// ---- other operators')]:
    a=t.index(x); b=t.index(y); t=t[:a]+drop_args(t[a:b])+t[b:]
def rep(o,n):
    global t
    assert o in t, o
    t=t.replace(o,n)
rep('''    let c = commit(st, cmds);
    if c.flow != 0 {
        return c;
    }
    enter_point(kind, x, y, c.st, cmds)''','''    if st.changed {
        return made(st, 200);
    }
    enter_point(kind, x, y, st, cmds)''')
rep('''    let c = commit(at_point(rx, ry, st), cmds);
    if c.flow != 0 {
        return c;
    }
    enter_curve(px, py, qx, qy, rx, ry, c.st, cmds)''','''    if st.changed {
        return made(st, 200);
    }
    enter_curve(px, py, qx, qy, rx, ry, at_point(rx, ry, st), cmds)''')
rep('''    let mut s = st;
    s.flexing = false;
    let c = commit(s, cmds);
    if c.flow != 0 {
        return c;
    }
    let e = enter_flex(height, c.st, cells, cmds);''','''    if st.changed {
        return made(st, 200);
    }
    let mut s = st;
    s.flexing = false;
    let e = enter_flex(height, s, cells, cmds);''')
a=t.index('// Every operator but callsubr.'); b=t.index('// ---- subroutines')
s=t[a:b]
s=s.replace('\n    room: usize,','').replace('room, ','')
for f in 'vmoveto rlineto hlineto vlineto rrcurveto rmoveto hmoveto vhcurveto hvcurveto setcurrentpoint'.split():
    s=s.replace(f'{f}(st, ops, edges, across, cmds)',f'{f}(st, ops, cmds)')
s=s.replace('callothersubr(st, ops, ps, cells, edges, across, cmds)','callothersubr(st, ops, ps, cells, cmds)')
t=t[:a]+s+t[b:]
OP='''    let n = room(stems);
    let r = plain(op, n, st, ops, ps, cells, edges, across, cmds);
    let s = r.st;
    let g = s.groups;
    let h = st.groups;
    if g != h {
        keep_group(st.stems, st.hints, edges, across, stems);
        return r;
    }
    r
}'''
COMMIT='''

fn same_stem(h: bool, p: f64, w: f64, horizontal: bool, pos: f64, width: f64) -> bool {
    if h {
        if !horizontal {
            return false;
        }
    } else if horizontal {
        return false;
    }
    if p == pos { w == width } else { false }
}

fn is_last(st: St, edges: &[f64; 512], across: &[bool; 256], stems: &mut [Stem]) -> bool {
    if st.groups == 0 {
        return false;
    }
    let n = st.hints;
    if st.last != n {
        return false;
    }
    let first = st.stems - n;
    let mut i = 0;
    while i < n {
        let r = stems[first + i];
        if !same_stem(r.horizontal, r.pos, r.width, across[i], edges[2 * i], edges[2 * i + 1]) {
            return false;
        }
        i += 1;
    }
    true
}

fn commit(st: St, edges: &[f64; 512], across: &[bool; 256], cmds: &mut [u64], stems: &mut [Stem]) -> Ran {
    if is_last(st, edges, across, stems) {
        let mut s = st;
        s.changed = false;
        return made(s, 0);
    }
    let n = st.hints;
    let used = st.stems;
    let k = st.entries;
    let f = hints::new_group(st.groups, room(stems), used, n, cmds.len(), k);
    if f != 0 {
        return made(st, f);
    }
    let at = ENTRY * k;
    cmds[at] = GROUP;
    cmds[at + 1] = used as u64;
    cmds[at + 2] = n as u64;
    keep_group(used, n, edges, across, stems);
    let mut s = st;
    s.entries = k + 1;
    s.stems = used + n;
    s.last = n;
    s.groups = st.groups + 1;
    s.changed = false;
    made(s, 0)
}'''
import sys
mode=sys.argv[1]
if mode=='v1': body='''    let r = plain(op, st, ops, ps, cells, edges, across, cmds);
    if r.flow != 200 {
        return r;
    }
    let c = commit(st, edges, across, cmds, stems);
    if c.flow != 0 {
        return c;
    }
    plain(op, c.st, ops, ps, cells, edges, across, cmds)
}'''
elif mode=='v1b': body='''    let r = plain(op, st, ops, ps, cells, edges, across, cmds);
    if r.flow == 200 {
        return grouped(op, st, ops, ps, cells, edges, across, cmds, stems);
    }
    r
}

fn grouped(
    op: u16,
    st: St,
    ops: &mut [f64; 256],
    ps: &mut [f64; 256],
    cells: &mut [f64; 19],
    edges: &mut [f64; 512],
    across: &mut [bool; 256],
    cmds: &mut [u64],
    stems: &mut [Stem],
) -> Ran
{
    let c = commit(st, edges, across, cmds, stems);
    if c.flow != 0 {
        return c;
    }
    plain(op, c.st, ops, ps, cells, edges, across, cmds)
}'''
rep(OP,body+COMMIT)
t=t.replace('[f64; 1024]','[f64; 512]').replace('[bool; 512]','[bool; 256]').replace('[0.0; 1024]','[0.0; 512]').replace('[false; 512]','[false; 256]')
# in_force of hints takes 1024: copy here
rep('hints::in_force(horizontal, pos, width, count, edges, across)','''found_in(horizontal, pos, width, count, edges, across)''')
t=t.replace('fn same_stem(','''fn found_in(horizontal: bool, pos: f64, width: f64, count: usize, edges: &[f64; 512], across: &[bool; 256]) -> bool {
    let mut i = 0;
    while i < count {
        if same_stem(across[i], edges[2 * i], edges[2 * i + 1], horizontal, pos, width) {
            return true;
        }
        i += 1;
    }
    false
}

fn same_stem(''',1)
open('$WORK/t/crates/type1/src/lib.rt','w').write(t)
