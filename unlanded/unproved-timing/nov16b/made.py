import sys
p='$WORK/t/crates/type1/src/lib.rt'
t=open(p).read()
F=['operands','postscript','x','y','points','hints','last','groups','stems','entries','ran','opened','flexing','changed','divided']
lit=lambda v,ind: 'St {\n'+''.join('%s    %s: %s.%s,\n'%(ind,f,v,f) for f in F)+ind+'}'
t=t.replace('    Ran { st, flow }','    Ran {\n        st: '+lit('st','        ')+',\n        flow,\n    }')
if 'c' in sys.argv[1]:
    i=t.index('fn cleared(st: St) -> St'); j=t.index('{\n    let mut s = st;\n    s.operands = 0;\n    s\n}',i)
    t=t[:j]+'{\n    '+lit('st','    ').replace('operands: st.operands','operands: 0')+'\n}'+t[j+len('{\n    let mut s = st;\n    s.operands = 0;\n    s\n}'):]
if 'p' in sys.argv[1]:
    o='{\n    let mut s = st;\n    s.x = x;\n    s.y = y;\n    s\n}'
    i=t.index('fn at_point('); j=t.index(o,i)
    t=t[:j]+'{\n    '+lit('st','    ').replace('x: st.x','x').replace('y: st.y','y')+'\n}'+t[j+len(o):]
open(p,'w').write(t)
