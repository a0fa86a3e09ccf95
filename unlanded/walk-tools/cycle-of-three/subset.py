import re,sys
src=open('$WORK/t1/crates/type1/src/lib.rt').read()
names=set(sys.argv[2:]); out=sys.argv[1]
# split in top-level chunks separated by blank lines at column 0 starts
lines=src.split('\n'); head=[];i=0
while not lines[i].startswith('// A stem hint'): head.append(lines[i]); i+=1
chunks=[];cur=[]
depth=0
for l in lines[i:]:
    if l=='' and depth==0:
        if cur: chunks.append(cur); cur=[]
        continue
    cur.append(l)
    if l.startswith('}'): depth=0
    elif re.match(r'(pub )?(fn|struct|impl)\b',l) and not l.endswith('}'): depth=1
if cur: chunks.append(cur)
res=[]
for c in chunks:
    t='\n'.join(c); m=re.search(r'^(?:pub )?(fn|struct|const) (\w+)',t,re.M)
    if not m: continue
    if m.group(1)=='fn' and m.group(2) not in names: continue
    if m.group(1)=='const': continue
    res.append(t)
open(out,'w').write('\n'.join(head)+'\n'+'\n\n'.join(res)+'\n')
