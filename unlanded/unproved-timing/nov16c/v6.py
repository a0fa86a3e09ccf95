f='$WORK/t/crates/type1/src/lib.rt'
t=open(f).read()
a=t.index("    let mut entries = st.entries;\n    while i < code.len() {")
b=t.index("// ---- answers")
ret="return operator_at(code, i + 1, k, encrypted, v, place(st, n, x, y, entries));"
def arm(v,need,call):
    return f'''            {v} => {{
                if !quick {{
                    {ret}
                }}
                if n < {need} {{
                    {ret}
                }}
                let d = {call};
                if !d.done {{
                    {ret}
                }}
                n = 0;
                x = d.x;
                y = d.y;
                entries += 1;
                i += 1;
                key = k;
            }}
'''
o=lambda j:f"ops[n - {j}]"
arms=arm(5,2,f"add_line({o(2)}, {o(1)}, x, y, entries, cmds)")+arm(6,1,f"add_line({o(1)}, 0.0, x, y, entries, cmds)")+arm(7,1,f"add_line(0.0, {o(1)}, x, y, entries, cmds)")
arms+=arm(8,6,f"add_curve({o(6)}, {o(5)}, {o(4)}, {o(3)}, {o(2)}, {o(1)}, x, y, entries, cmds)")+arm(30,4,f"add_curve(0.0, {o(4)}, {o(3)}, {o(2)}, {o(1)}, 0.0, x, y, entries, cmds)")+arm(31,4,f"add_curve({o(4)}, 0.0, {o(3)}, {o(2)}, 0.0, {o(1)}, x, y, entries, cmds)")
new='''    let mut entries = st.entries;
    while i < code.len() {
        let c = code[i];
        let v = plain_of(c, key, encrypted);
        let k = key_after(c, key, encrypted);
        match v {
'''+arms+'''            32..=246 => {
                if n == 256 {
                    return found(place(st, n, x, y, entries), i + 1, k, 15, 0);
                }
                ops[n] = one_byte(v);
                n += 1;
                i += 1;
                key = k;
            }
            247..=255 => {
                let w = number_at(code, i + 1, k, encrypted, v);
                if w.cut {
                    return found(place(st, n, x, y, entries), i + 1, k, 5, 0);
                }
                if n == 256 {
                    return found(place(st, n, x, y, entries), i + 1, k, 15, 0);
                }
                ops[n] = w.x;
                n += 1;
                i = w.next;
                key = w.key;
            }
            0..=4 => {
                '''+ret+'''
            }
            9..=29 => {
                '''+ret+'''
            }
        }
    }
    found(place(st, n, x, y, entries), i, key, 1, 0)
}

'''
t=t[:a]+new+t[b:]
open(f,'w').write(t)
