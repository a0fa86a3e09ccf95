import sys
opts=sys.argv[1]
f='$WORK/t/crates/type1/src/lib.rt'
t=open(f).read()
if 's' in opts:
    a=t.index("    if v < 251 {\n        ((wider(v) - 247)")
    b=t.index("}\n\n// 255: the four bytes")
    t=t[:a]+"""    let t = wider(v) * 256 + wider(w);
    let u = if v < 251 { t + 2412 } else { 129684 - t };
    u as f64 - 65536.0
"""+t[b:]
    open(f,'w').write(t)
f='$WORK/t/crates/type2/src/lib.rt'
t=open(f).read()
if 's' in opts:
    a=t.index("    if w < 65644 {\n        if w > 65428")
    b=t.index("    put3(out, at, 28,")
    t=t[:a]+"""    let i = if w < 65536 { 65536 - w } else { w - 65536 };
    let base = if w < 65536 { 251 } else { 247 };
    if i < 108 {
        return put1(out, at, (w - 65397) as u8);
    }
    if i < 1132 {
        let j = i - 108;
        return put2(out, at, (j / 256 + base) as u8, (j % 256) as u8);
    }
"""+t[b:]
if 'q' in opts:
    a=t.index("pub fn quantize(v: f64) -> f64"); b=t.index("// What a push gave:")
    t=t[:a]+'''pub fn quantize(v: f64) -> f64 {
    if v < 2251799813685248.0 {
        if -2251799813685248.0 < v {
            if (v + 6755399441055744.0) - 6755399441055744.0 == v {
                return v;
            }
        }
    }
    quantize_far(v)
}

fn quantize_far(v: f64) -> f64
{
    let r = nearest(v);
    if binary64::abs(v - r) < 1e-9 {
        r
    } else {
        nearest(v * 65536.0) / 65536.0
    }
}

'''+t[b:]
if 'n' in opts:
    t=t.replace("    let d = push_far(out, at, v);\n    Pushed {","    let d = push_delta(out, at, v);\n    Pushed {")
open(f,'w').write(t)
f='$WORK/t/crates/bank/src/lib.rt'
t=open(f).read()
if 'b' in opts:
    t=t.replace('''    while 4 <= count - i {
        if !four_rise(bank, 6 + 4 * i, before) {
            return false;
        }
        before = u32_at(bank, 18 + 4 * i);
        i += 4;
    }
''','''    while 16 <= count - i {
        if !four_rise(bank, 6 + 4 * i, before) {
            return false;
        }
        if !four_rise(bank, 22 + 4 * i, u32_at(bank, 18 + 4 * i)) {
            return false;
        }
        if !four_rise(bank, 38 + 4 * i, u32_at(bank, 34 + 4 * i)) {
            return false;
        }
        if !four_rise(bank, 54 + 4 * i, u32_at(bank, 50 + 4 * i)) {
            return false;
        }
        before = u32_at(bank, 66 + 4 * i);
        i += 16;
    }
''')
    assert '16 <= count' in t
    open(f,'w').write(t)
