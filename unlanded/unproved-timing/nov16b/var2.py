import sys,re
p='$WORK/t/crates/type1/src/lib.rt'
t=open(p).read()
F=['operands','postscript','x','y','points','hints','last','groups','stems','entries','ran','opened','flexing','changed','divided']
def lit(v,ind,**k): return 'St {\n'+''.join('%s    %s: %s,\n'%(ind,f,k.get(f,'%s.%s'%(v,f))) for f in F)+ind+'}'
o=sys.argv[1].split(',')
if 'made' in o: t=t.replace('    Ran { st, flow }','    Ran {\n        st: '+lit('st','        ')+',\n        flow,\n    }')
if 'found' in o:
    t=t.replace('    Tok {\n        st,\n','    Tok {\n        st: '+lit('st','        ')+',\n')
if 'place' in o:
    b='    let mut s = st;\n    s.operands = n;\n    s.x = x;\n    s.y = y;\n    s.entries = entries;\n    s\n'
    assert b in t; t=t.replace(b,'    '+lit('st','    ',operands='n',x='x',y='y',entries='entries')+'\n')
if 'called' in o:
    t=t.replace('''        return Called {
            st,
''','''        return Called {
            st: '''+lit('st','            ')+''',
''')
    b='''    let mut s = st;
    s.operands = n - 1;
    s.ran = c.ran;
    Called {
        st: s,
'''
    assert b in t
    t=t.replace(b,'    Called {\n        st: '+lit('st','        ',operands='n - 1',ran='c.ran')+',\n')
if 'opened' in o:
    b='''    let mut s = r.st;
    s.opened = true;
    made(s, 0)
'''
    assert b in t
    t=t.replace(b,'''    let t = r.st;
    made('''+lit('t','    ',opened='true')+''', 0)
''')
if 'stem' in o:
    b='''    let mut s = st;
    s.hints = n + 1;
    s.changed = true;
    made(s, 0)
'''
    assert b in t
    t=t.replace(b,'    made('+lit('st','    ',hints='n + 1',changed='true')+', 0)\n')
open(p,'w').write(t)
