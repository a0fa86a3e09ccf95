import re
p='$WORK/t/crates/type1/src/lib.rt'
t=open(p).read()
i=t.index('fn plain('); j=t.index('// ---- subroutines')
b=t[i:j]
b=re.sub(r'            return (\w+)\((.*?)\);\n', lambda m: '            let h = st;\n            let r = %s(%s);\n            return r;\n'%(m.group(1), re.sub(r'\bst\b','h',m.group(2))), b, flags=re.S)
t=t[:i]+b+t[j:]
t=t.replace('let c = regroup(room, st, edges','let h = st;\n        let c = regroup(room, h, edges').replace('let c = regroup(room, s, edges','let h = s;\n        let c = regroup(room, h, edges')
t=t.replace('let o = open_subpath(room, st, edges','let h = st;\n        let o = open_subpath(room, h, edges')
open(p,'w').write(t)
