import re,sys,subprocess,collections
cgf=sys.argv[1]
cost=collections.Counter()
calls=False
last=0
for line in open(cgf):
    line=line.rstrip('\n')
    if line.startswith('calls='): calls=True; continue
    m=re.match(r'^(0x[0-9a-f]+|\+\d+|-\d+|\*) (\S+) (\d+)$',line)
    if not m:
        m2=re.match(r'^(0x[0-9a-f]+|\+\d+|-\d+|\*) (\S+)',line)
        continue
    a=m.group(1)
    if a.startswith('0x'): last=int(a,16)
    elif a.startswith('+'): last+=int(a[1:])
    elif a.startswith('-'): last-=int(a[1:])
    if calls: calls=False; continue
    cost[last]+=int(m.group(3))
import pickle
pickle.dump(cost,open('cost.pkl','wb'))
print(sum(cost.values()))
