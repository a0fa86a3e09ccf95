import sys,re
opts=sys.argv[1]
f='$WORK/t/crates/type1/src/lib.rt'
t=open(f).read()
a=t.index("// 32 to 246.\nfn one_byte"); 
t=t[:a]+'''fn plain_wide(c: u8, key: u32, encrypted: bool) -> u8 {
    if encrypted { c ^ ((key / 256 % 256) as u8) } else { c }
}

fn key_wide(c: u8, key: u32, encrypted: bool) -> u32 {
    '''+('' if 's' in opts else 'if !encrypted { return key; }\n    ')+'''(((key as u64) * 52845 + (3954879 - (c as u64) * 12691)) % 4294967296) as u32
}

'''+t[a:]
t=t.replace('''    x: f64,
    next: usize,
    key: u16,
    cut: bool,''','''    x: f64,
    next: usize,
    key: u32,
    cut: bool,''')
a=t.index("fn number_at("); b=t.index("// ---- lines and curves of an open subpath")
seg=t[a:b].replace("key: u16","key: u32").replace("plain_of(","plain_wide(").replace("key_after(","key_wide(")
seg=seg.replace("found(st, i, key, 0, wide(v))","found(st, i, (key % 65536) as u16, 0, wide(v))").replace("found(st, i, key, 5, 0)","found(st, i, (key % 65536) as u16, 5, 0)").replace("found(st, i + 1, key_wide(c, key, encrypted), 0,","found(st, i + 1, (key_wide(c, key, encrypted) % 65536) as u16, 0,")
t=t[:a]+seg+t[b:]
a=t.index("fn token("); b=t.index("// ---- answers")
seg=t[a:b]
c=seg.index("    let quick = is_quick(st);")
closeonly='d' not in opts
div='' if closeonly else '''
            if v == 12 {
                if code.len() - (i + 1) < 1 {
                    return operator_at(code, i + 1, k, encrypted, v, place2(st, n, x, y, entries, opened, divided));
                }
                let c2 = code[i + 1];
                let v2 = plain_wide(c2, k, encrypted);
                let k2 = key_wide(c2, k, encrypted);
                if v2 == 12 {
                    if 2 <= n {
                        let d = ops[n - 1];
                        if d != 0.0 {
                            let q = ops[n - 2] / d;
                            if binary64::is_finite(q) {
                                ops[n - 2] = q;
                                n -= 1;
                                divided = true;
                                i += 2;
                                key = k2;
                                continue;
                            }
                        }
                    }
                }
                return operator_at(code, i + 1, k, encrypted, v, place2(st, n, x, y, entries, opened, divided));
            }'''
seg=seg[:c]+'''    let mut i = from;
    let mut key: u32 = start as u32;
    let mut n = st.operands;
    let mut x = st.x;
    let mut y = st.y;
    let mut entries = st.entries;
    let mut opened = st.opened;
    let mut divided = st.divided;
    while i < code.len() {
        let c = code[i];
        let v = plain_wide(c, key, encrypted);
        let k = key_wide(c, key, encrypted);
        if v < 32 {
            if v == 9 {
                n = 0;
                opened = false;
                i += 1;
                key = k;
                continue;
            }'''+div+'''
            if st.changed {
                return operator_at(code, i + 1, k, encrypted, v, place2(st, n, x, y, entries, opened, divided));
            }
            if !opened {
                return operator_at(code, i + 1, k, encrypted, v, place2(st, n, x, y, entries, opened, divided));
            }
            let d = draw(v, n, x, y, entries, ops, cmds);
            if !d.done {
                return operator_at(code, i + 1, k, encrypted, v, place2(st, n, x, y, entries, opened, divided));
            }
            n = 0;
            x = d.x;
            y = d.y;
            entries += 1;
            i += 1;
            key = k;
        } else {
            let w = number_at(code, i + 1, k, encrypted, v);
            if w.cut {
                return found(place2(st, n, x, y, entries, opened, divided), i + 1, (k % 65536) as u16, 5, 0);
            }
            if n == 256 {
                return found(place2(st, n, x, y, entries, opened, divided), i + 1, (k % 65536) as u16, 15, 0);
            }
            ops[n] = w.x;
            n += 1;
            i = w.next;
            key = w.key;
        }
    }
    found(place2(st, n, x, y, entries, opened, divided), i, (key % 65536) as u16, 1, 0)
}

fn place2(st: St, n: usize, x: f64, y: f64, entries: usize, opened: bool, divided: bool) -> St {
    let mut s = st;
    s.operands = n;
    s.x = x;
    s.y = y;
    s.entries = entries;
    s.opened = opened;
    s.divided = divided;
    s
}

'''
t=t[:a]+seg+t[b:]
open(f,'w').write(t)
