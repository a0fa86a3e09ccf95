import sys,re,subprocess,collections
cg,binf,fn=sys.argv[1:4]
cost=collections.Counter(); cur=None; addr=0; names={}
calls=False
for l in open(cg):
    l=l.rstrip('\n')
    m=re.match(r'fn=\((\d+)\)(?: (.*))?$',l)
    if m:
        if m.group(2): names[m.group(1)]=m.group(2)
        cur=names.get(m.group(1)); continue
    m=re.match(r'cfn=\((\d+)\) (.*)$',l)
    if m: names[m.group(1)]=m.group(2); continue
    if l.startswith('calls='): calls=True; continue
    m=re.match(r'(0x[0-9a-f]+|\+\d+|-\d+|\*) (\S+) (\d+)$',l)
    if m:
        a=m.group(1)
        if a.startswith('0x'): addr=int(a,16)
        elif a!='*': addr+=int(a)
        if calls: calls=False; continue
        if cur and cur==fn: cost[addr]+=int(m.group(3))
dis=subprocess.run(['objdump','-d','--no-show-raw-insn',binf],capture_output=True,text=True).stdout
out=[];on=False
for l in dis.split('\n'):
    if l.endswith('>:'): on = ('<'+fn+'>:') in l
    elif on:
        m=re.match(r'\s+([0-9a-f]+):\s+(.*)',l)
        if m: out.append((int(m.group(1),16),m.group(2)))
# match offset
if cost:
    base=0
    cands=[a for a in cost]
    if min(cands)-out[0][0]>0x1000: base=(min(cands)-out[0][0])&~0xfff
    tot=sum(cost.values())
    print('total',tot,'base',hex(base))
    # print runs of equal cost
    prev=None;start=None;n=0
    rows=[]
    for a,t in out:
        c=cost.get(a+base,0)
        if c!=prev:
            if prev is not None and prev>0: rows.append((prev*n,prev,n,start))
            prev=c;n=0;start=(a,t)
        n+=1
    rows.sort(reverse=True)
    for r in rows[:40]: print(r[0],r[1],'x',r[2],hex(r[3][0]),r[3][1])
    # bucket by cost level
    b=collections.Counter()
    for a,t in out:
        c=cost.get(a+base,0)
        b[c]+=1
    print('--- by count: count x instrs = total')
    for c,n in sorted(b.items(), key=lambda x:-x[0]*x[1])[:30]: print(c,'x',n,'=',c*n)
