import re,sys,subprocess
# parse callgrind out with instr + branch events
f=sys.argv[1]; pat=sys.argv[2]; G=float(sys.argv[3])
ev=None; cost={}; addr=0; fnames={}; fn=None; ob=None
skip=False
for l in open(f):
    l=l.rstrip('\n')
    if l.startswith('events:'): ev=l.split()[1:]; continue
    if l.startswith('fn='):
        m=re.match(r'fn=\((\d+)\)(?: (.*))?',l)
        if m.group(2): fnames[m.group(1)]=m.group(2)
        fn=fnames[m.group(1)]; continue
    if l.startswith('cfn='):
        m=re.match(r'cfn=\((\d+)\)(?: (.*))?',l)
        if m.group(2): fnames[m.group(1)]=m.group(2)
        continue
    if l.startswith('calls='): skip=True; continue
    if re.match(r'^(0x|\+|-|\*)',l):
        p=l.split()
        a=p[0]
        if a.startswith('0x'): addr=int(a,16)
        elif a.startswith('+'): addr+=int(a[1:],0)
        elif a.startswith('-'): addr-=int(a[1:],0)
        if skip: skip=False; continue
        c=[int(x) for x in p[2:]]
        o=cost.setdefault((fn,addr),[0]*len(ev))
        for i,x in enumerate(c): o[i]+=x
bc=ev.index('Bc'); bcm=ev.index('Bcm'); bi=ev.index('Bi'); bim=ev.index('Bim')
rows=[(c[bcm]+c[bim],c[bc]+c[bi],fn,a) for (fn,a),c in cost.items() if re.search(pat,fn)]
rows.sort(reverse=True)
print('total',sum(r[0] for r in rows)/G)
for r in rows[:int(sys.argv[4])]: print('%.2f of %.2f'%(r[0]/G,r[1]/G),r[2][:50],hex(r[3]))
