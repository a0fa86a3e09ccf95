p='$WORK/t/crates/type1/src/lib.rt'
t=open(p).read()
i=t.index('\nfn plain(')
b=t.index('    match op {',i)
t=t[:b]+'''    if op == 4 || op == 21 || op == 22 {
        return kept(moveto(op, same, room, st, ops, cmds));
    }
'''.replace('op == 4 || op == 21 || op == 22','is_moveto(op)')+t[b:]
for k,nm in ((4,'vmoveto'),(21,'rmoveto'),(22,'hmoveto')):
    a=t.index('        %d => {\n            return kept(%s('%(k,nm),i); e=t.index('        }\n',a)+len('        }\n')
    t=t[:a]+t[e:]
k=t.rindex('\n// ',0,i)
t=t[:k]+'''
fn is_moveto(op: u16) -> bool { if op == 4 { return true; } if op == 21 { return true; } op == 22 }

fn moveto(op: u16, same: bool, room: usize, st: St, ops: &[f64; 256], cmds: &mut [u64]) -> Ran {
    let n = st.operands;
    let need = if op == 21 { 2 } else { 1 };
    if n < need { return made(st, 7); }
    let x = if op == 4 { 0.0 } else { ops[n - need] };
    let y = if op == 22 { 0.0 } else { ops[n - 1] };
    move_by(x, y, same, room, cleared(st), cmds)
}
'''+t[k:]
import re
for nm in ('vmoveto','rmoveto','hmoveto'):
    a=t.index('\nfn %s('%nm); e=t.index('\n}\n',a)+3
    t=t[:a]+t[e:]
open(p,'w').write(t)
