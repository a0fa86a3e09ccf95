import sys,re
opts=sys.argv[1]
f='$WORK/t/crates/type1/src/lib.rt'
t=open(f).read()
# wide versions
a=t.index("// 32 to 246.\nfn one_byte"); 
step = "key_wide(c, key)" 
t=t[:a]+'''fn plain_wide(c: u8, key: u32, encrypted: bool) -> u8 {
    if encrypted { c ^ ((key / 256 % 256) as u8) } else { c }
}

fn key_wide(c: u8, key: u32, encrypted: bool) -> u32 {
    '''+('' if 's' in opts else 'if !encrypted { return key; }\n    ')+'''(((key as u64) * 52845 + (3954879 - (c as u64) * 12691)) % 4294967296) as u32
}

'''+t[a:]
# Num.key u32
t=t.replace('''    x: f64,
    next: usize,
    key: u16,
    cut: bool,''','''    x: f64,
    next: usize,
    key: u32,
    cut: bool,''')
a=t.index("fn number_at("); b=t.index("// ---- lines and curves of an open subpath")
seg=t[a:b].replace("key: u16","key: u32").replace("plain_of(","plain_wide(").replace("key_after(","key_wide(")
seg=seg.replace("found(st, i, key, 0, wide(v))","found(st, i, (key % 65536) as u16, 0, wide(v))").replace("found(st, i, key, 5, 0)","found(st, i, (key % 65536) as u16, 5, 0)").replace("found(st, i + 1, key_wide(c, key, encrypted), 0,","found(st, i + 1, (key_wide(c, key, encrypted) % 65536) as u16, 0,")
t=t[:a]+seg+t[b:]
a=t.index("fn token("); b=t.index("// ---- answers")
seg=t[a:b].replace("let mut key = start;","let mut key: u32 = start as u32;").replace("plain_of(","plain_wide(").replace("key_after(","key_wide(")
seg=re.sub(r"found\((.*), i \+ 1, k, (5|15), 0\)",r"found(\1, i + 1, (k % 65536) as u16, \2, 0)",seg)
seg=seg.replace("found(place(st, n, x, y, entries), i, key, 1, 0)","found(place(st, n, x, y, entries), i, (key % 65536) as u16, 1, 0)")
t=t[:a]+seg+t[b:]
open(f,'w').write(t)
