import re
src='$WORK/t/crates.kd'
p='$WORK/t/crates/type1/src/lib.rt'
t=open(src+'/type1/src/lib.rt').read()
fns=['commit','new_group','list_point','move_by','open_subpath','line_to','line_by','curve_to','curve_by','set_point','vmoveto','rlineto','hlineto','vlineto','rrcurveto','rmoveto','hmoveto','vhcurveto','hvcurveto','setcurrentpoint','end_flex','callothersubr']
# split functions
parts=re.split(r'(?m)^(?=(?:pub )?fn |// ----|struct |pub struct )',t)
out=[]
for q in parts:
    m=re.match(r'(?:pub )?fn (\w+)\(',q)
    name=m.group(1) if m else None
    if name in fns:
        # signature
        i=q.index(') ->') if ') ->' in q else q.index(')')
        sig=q[:i]; rest=q[i:]
        sig=re.sub(r'\s*edges: &mut \[f64; \d+\],','',sig); sig=re.sub(r'\s*across: &mut \[bool; \d+\],','',sig)
        if 'room: usize' in sig: sig=sig.replace('room: usize','same: bool, room: usize',1)
        else: print('no room',name)
        q=sig+rest
    # calls within bodies: remove edges, across args for calls to fns, add same before room
    body=q
    def fix(body):
        res='';i=0
        for mm in re.finditer(r'(?<![\w:])(%s)\('%'|'.join(fns),body):
            if body[:mm.start()].endswith('fn '): continue
            if mm.start()<i: continue
            d=0;j=mm.end()-1
            while True:
                if body[j]=='(': d+=1
                elif body[j]==')':
                    d-=1
                    if d==0: break
                j+=1
            call=body[mm.start():j+1]
            # strip args
            inner=call[mm.end()-mm.start():-1]
            inner=re.sub(r'\bedges,\s*across,?\s*','',inner)
            inner=fix(inner)
            # add same: find room arg
            inner=re.sub(r'(?<![\w.])(room|n)(?=,)',lambda z:'same, '+z.group(0) if z.group(1)=='room' else z.group(0),inner,1) if 'room' in inner else inner
            res+=body[i:mm.start()]+mm.group(1)+'('+inner.rstrip().rstrip(',')+')'
            i=j+1
        return res+body[i:]
    q=fix(q)
    out.append(q)
t=''.join(out)
# specific: commit body
t=t.replace('    if is_last(st, same, edges, across) {','    if same {').replace('    if is_last(st, edges, across) {','    if same {')
t=t.replace('    keep_last(n, edges, across);\n','')
# plain gets same
i=t.index('\nfn plain('); j=t.index('room: usize',i)
t=t[:j]+'same: bool, '+t[j:]
# op
t=t.replace('    let r = plain(op, n, st, ops,','    let same = is_last(st, edges, across, stems);\n    let r = plain(op, same, n, st, ops,')
# is_last & keep_last defs
i=t.index('// Whether the stems in force are the last group\'s, in the same order.\nfn is_last'); j=t.index('// The stems in force become a new group, where')
t=t[:i]+t[j:]
k=t.index('// The stems in force are stored as a group\'s records.')
t=t[:k]+'''fn stem_from(stems: &mut [Stem], i: usize) -> Stem
{
    stems[i]
}

fn same_stem(a: Stem, b: Stem) -> bool {
    if a.horizontal == b.horizontal { if a.pos == b.pos { return a.width == b.width; } }
    false
}

fn is_last(st: St, edges: &[f64; 512], across: &[bool; 256], stems: &mut [Stem]) -> bool
{
    if !st.changed { return false; }
    if st.groups == 0 { return false; }
    let n = st.last;
    if n != st.hints { return false; }
    let first = st.stems - n;
    let mut i = 0;
    while i < n {
        if !same_stem(stem_from(stems, first + i), stem_at(i, edges, across)) { return false; }
        i += 1;
    }
    true
}

'''+t[k:]
t=t.replace('const LAST: usize = 128;','')
open(p,'w').write(t)
