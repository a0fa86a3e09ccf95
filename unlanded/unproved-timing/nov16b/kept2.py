import re,sys
mode=sys.argv[1]
exec(open('/tmp/kept.py').read().split("for n in which")[0].replace("which=set(sys.argv[1].split(','))","")) if False else None
p='$WORK/t/crates/type1/src/lib.rt'
t=open(p).read()
def wrapin(t,names,a,b):
    seg=t[a:b]
    out='';i=0
    pat=r'(?<![\w:])(%s)\('%'|'.join(names)
    for m in list(re.finditer(pat,seg)):
        if seg[:m.start()].endswith('fn '): continue
        if m.start()<i: continue
        d=0;j=m.end()-1
        while True:
            if seg[j]=='(': d+=1
            elif seg[j]==')':
                d-=1
                if d==0: break
            j+=1
        out+=seg[i:m.start()]+'kept('+seg[m.start():j+1]+')'
        i=j+1
    return t[:a]+out+seg[i:]+t[b:]
kf='''fn kept(r: Ran) -> Ran
{
    let t = r.st;
    Ran {
        st: St {
            operands: t.operands,
            postscript: t.postscript,
            x: t.x,
            y: t.y,
            points: t.points,
            hints: t.hints,
            last: t.last,
            groups: t.groups,
            stems: t.stems,
            entries: t.entries,
            ran: t.ran,
            opened: t.opened,
            flexing: t.flexing,
            changed: t.changed,
            divided: t.divided,
        },
        flow: r.flow,
    }
}

'''
k=t.index('// The state with no operands.\nfn cleared')
t=t[:k]+kf+t[k:]
if mode=='a':
    a=t.index('// One operator. `call_body` is a function'); b=t.index('// The bytes of a charstring or of a body.')
    t=wrapin(t,['plain','call_body'],a,b)
if mode in('b','c'):
    a=t.index('\nfn plain('); b=t.index('// ---- subroutines')
    t=wrapin(t,['vmoveto','rlineto','hlineto','vlineto','rrcurveto','rmoveto','hmoveto','vhcurveto','hvcurveto','stems3','callothersubr','setcurrentpoint']+(['hstem','vstem'] if mode=='c' else []),a,b)
    a=t.index('// One operator. `call_body` is a function'); b=t.index('// The bytes of a charstring or of a body.')
    t=wrapin(t,['call_body'],a,b)
if mode=='d':
    a=t.index('\nfn plain('); b=t.index('// ---- subroutines')
    t=wrapin(t,['vmoveto','rlineto','hlineto','vlineto','rrcurveto','rmoveto','hmoveto','vhcurveto','hvcurveto','stems3','callothersubr','setcurrentpoint']+(['hstem','vstem'] if mode=='c' else []),a,b)
open(p,'w').write(t)
