# hotblk.py PERF FN: sums samples by contiguous regions (between gaps of zero) of the function
import subprocess,sys,re
p,fn=sys.argv[1],sys.argv[2]
o=subprocess.run(['perf','annotate','-i',p,'--stdio','--symfs=/','-s',fn,'--percent-type','global-period'],capture_output=True,text=True).stdout
rows=[]
for l in o.split('\n'):
    m=re.match(r'^\s+([0-9.]+)?\s*:\s+([0-9a-f]+):\s+(.*)$',l)
    if m: rows.append((float(m.group(1) or 0),int(m.group(2),16),m.group(3)))
tot=sum(r[0] for r in rows)
print('total',tot,len(rows))
# 
W=int(sys.argv[3]) if len(sys.argv)>3 else 64
from collections import defaultdict
d=defaultdict(float)
for a,b,c in rows: d[b//W*W]+=a
for k,v in sorted(d.items(),key=lambda t:-t[1])[:40]: print(hex(k),'%.2f'%v)
