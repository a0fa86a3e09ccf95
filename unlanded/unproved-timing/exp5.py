import re
# type2: fused
p='$WORK/t/crates/type2/src/lib.rt'
t=open(p).read()
t=re.sub(r'\n    (requires|ensures) \{ .*?⌝ \}(?=\n)', '', t, flags=re.S)
t=re.sub(r'\nghost use[^\n]*','',t)
t+='''
// a delta
pub struct Delta {
    pub number: u64,
    pub next: usize,
    pub value: f64,
}

pub fn push_delta(out: &mut [u8], at: usize, v: f64) -> Delta
{
    if v < 32767.99999237060546875 {
        if -32768.00000762939453125 < v {
            let n = nearest(v * 65536.0);
            let p = push_units(out, at, (n + 4294967296.0) as u64);
            return Delta { number: p.number as u64, next: p.next, value: n / 65536.0 };
        }
    }
    Delta { number: 13, next: 0, value: 0.0 }
}
'''
open(p,'w').write(t)
p='$WORK/t/crates/type1_to_type2/src/lib.rt'
t=open(p).read()
i=t.index('fn put_delta('); j=t.index('// A line, which shares an operator with up to 22 more.')
t=t[:i]+'''fn put_delta(px: f64, py: f64, w: Writer, out: &mut [u8]) -> Writer
{
    if w.number != 0 {
        return w;
    }
    let mut r = w;
    let at = w.next;
    let a = type2::push_delta(out, at, px - w.x);
    if a.number != 0 {
        r.number = a.number;
        return r;
    }
    r.x = w.x + a.value;
    let at2 = a.next;
    let b = type2::push_delta(out, at2, py - w.y);
    r.number = b.number;
    r.next = b.next;
    r.y = w.y + b.value;
    r
}

'''+t[j:]
# masks only at groups
t=t.replace('''        clear_mask(mask);
        mark_group(
            stems,
            first_of(commands, e),
            count_of(commands, e),
            m,
            identity,
            na,
            nu,
            across,
            upright,
            mask,
        );
''','''        if commands[ENTRY * e] == GROUP {
        clear_mask(mask);
        mark_group(
            stems,
            first_of(commands, e),
            count_of(commands, e),
            m,
            identity,
            na,
            nu,
            across,
            upright,
            mask,
        );
        }
''')
open(p,'w').write(t)
p='$WORK/t/crates/bank/src/lib.rt'
t=open(p).read()
t=re.sub(r'\n    (requires|ensures) \{ .*?⌝ \}(?=\n)', '', t, flags=re.S)
t=re.sub(r'\nghost use[^\n]*','',t)
t=t.replace('''    while i < count {
        let offset = u32_at(bank, 6 + 4 * i);
        if offset < before {
            return false;
        }
        before = offset;
        i += 1;
    }
    before == bank.len() - table''','''    let mut falls: usize = 0;
    while i < count {
        let offset = u32_at(bank, 6 + 4 * i);
        if offset < before {
            falls = 1;
        }
        before = offset;
        i += 1;
    }
    if falls != 0 { return false; }
    before == bank.len() - table''')
open(p,'w').write(t)
