import pickle,re,sys
cost=pickle.load(open('cost.pkl','rb'))
G=855
fn=None
rows=[]
for l in open('dis.l0'):
    m=re.match(r'^([0-9a-f]+) <(.*)>:',l)
    if m: fn=m.group(2); continue
    m=re.match(r'^\s+([0-9a-f]+):\t(.*)',l)
    if m: rows.append((int(m.group(1),16),fn,m.group(2)))
base=None
# detect base
hit=[r for r in rows if r[0] in cost]
off=0
if len(hit)<100:
    for o in (0x4000000,0x400000,0x108000,0x109000):
        if sum((r[0]+o) in cost for r in rows)>100: off=o
print('off',hex(off))
# blocks: runs of equal count
blocks=[]
cur=None
for a,f,t in rows:
    c=cost.get(a+off,0)
    if cur and cur[1]==f and cur[2]==c: cur[3].append((a,t))
    else:
        cur=[a,f,c,[(a,t)]]; blocks.append(cur)
sel=sys.argv[1]
bl=[b for b in blocks if sel in b[1] and b[2]>0]
tot=sum(b[2]*len(b[3]) for b in bl)
print('total per glyph',tot/G)
bl.sort(key=lambda b:-b[2]*len(b[3]))
for b in bl[:int(sys.argv[2])]:
    print(hex(b[0]),b[1],'count/glyph %.2f len %d cost/glyph %.0f'%(b[2]/G,len(b[3]),b[2]*len(b[3])/G), b[3][0][1][:60],'..',b[3][-1][1][:60])
