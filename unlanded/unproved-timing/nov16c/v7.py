import sys
mode=sys.argv[1]
f='$WORK/t/crates/bank/src/lib.rt'
t=open(f).read()
a=t.index("    while 4 <= count - i {"); b=t.index("    while i < count {")
def unroll(n):
    s=f"    while {n} <= count - i {{\n"
    for j in range(n//4):
        bef='before' if j==0 else f'u32_at(bank, {2+16*j} + 4 * i)'
        s+=f"        if !four_rise(bank, {6+16*j} + 4 * i, {bef}) {{\n            return false;\n        }}\n"
    s+=f"        before = u32_at(bank, {6+4*(n-1)} + 4 * i);\n        i += {n};\n    }}\n"
    return s
if mode in('16','32','64'):
    t=t[:a]+unroll(int(mode))+t[b:]
else:
    n=int(mode[1:])
    s=f"    let mut r: u64 = 0;\n    while {n} <= count - i {{\n"
    for j in range(n//2):
        s+=f"        let x{j} = u64_at(bank, {6+8*j} + 4 * i);\n        if x{j} < r {{\n            return false;\n        }}\n        r = swap(x{j});\n        if r < x{j} {{\n            return false;\n        }}\n"
    s+=f"        before = u32_at(bank, {6+4*(n-1)} + 4 * i);\n        i += {n};\n    }}\n"
    t=t[:a]+s+t[b:]
    t=t.replace("// The bank has the layout of a bank.","""fn u64_at(s: &[u8], at: usize) -> u64 {
    (u32_at(s, at) * 4294967296 + u32_at(s, at + 4)) as u64
}

fn swap(x: u64) -> u64 {
    x % 4294967296 * 4294967296 + x / 4294967296
}

// The bank has the layout of a bank.""")
open(f,'w').write(t)
