import sys,re
exec(open('$WORK/tc/v9.py').read().split("a=t.index(\"fn token(\")")[0])
opts=sys.argv[1]
a=t.index("fn token("); b=t.index("// ---- answers")
seg=t[a:b]
c=seg.index("    let quick = is_quick(st);")
P="place2(st, n, x, y, entries, opened)"
seg=seg[:c]+f'''    let mut i = from;
    let mut key: u32 = start as u32;
    let mut n = st.operands;
    let mut x = st.x;
    let mut y = st.y;
    let mut entries = st.entries;
    let mut opened = st.opened;
    while i < code.len() {{
        let c = code[i];
        let v = plain_wide(c, key, encrypted);
        let k = key_wide(c, key, encrypted);
        if v < 32 {{
            if v == 9 {{
                n = 0;
                opened = false;
                i += 1;
                key = k;
                continue;
            }}
            if st.changed {{
                return operator_at(code, i + 1, k, encrypted, v, {P});
            }}
            if !opened {{
                return operator_at(code, i + 1, k, encrypted, v, {P});
            }}
            let d = draw(v, n, x, y, entries, ops, cmds);
            if !d.done {{
                return operator_at(code, i + 1, k, encrypted, v, {P});
            }}
            n = 0;
            x = d.x;
            y = d.y;
            entries += 1;
            i += 1;
            key = k;
        }} else {{
            let w = number_at(code, i + 1, k, encrypted, v);
            if w.cut {{
                return found({P}, i + 1, (k % 65536) as u16, 5, 0);
            }}
            if n == 256 {{
                return found({P}, i + 1, (k % 65536) as u16, 15, 0);
            }}
            ops[n] = w.x;
            n += 1;
            i = w.next;
            key = w.key;
        }}
        while i < code.len() {{
            let c1 = code[i];
            let v1 = plain_wide(c1, key, encrypted);
            if v1 < 32 {{
                break;
            }}
            if 246 < v1 {{
                break;
            }}
            if n == 256 {{
                break;
            }}
            ops[n] = one_byte(v1);
            n += 1;
            i += 1;
            key = key_wide(c1, key, encrypted);
        }}
    }}
    found({P}, i, (key % 65536) as u16, 1, 0)
}}

fn place2(st: St, n: usize, x: f64, y: f64, entries: usize, opened: bool) -> St {{
    let mut s = st;
    s.operands = n;
    s.x = x;
    s.y = y;
    s.entries = entries;
    s.opened = opened;
    s
}}

'''
t=t[:a]+seg+t[b:]
open(f,'w').write(t)
