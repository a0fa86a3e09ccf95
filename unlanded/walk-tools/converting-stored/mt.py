import os,sys,glob
d=sys.argv[1]; base=[x for x in glob.glob(d+'/*') if os.path.isdir(x)][0]
fs=[]
for r,_,ff in os.walk(base):
    for f in ff:
        if f.endswith('.oantt'): p=os.path.join(r,f); fs.append((os.stat(p).st_mtime_ns/1e9,f.replace('.oantt','').replace('.decls','~')))
fs.sort(); rows=[]
for (a,_),(b,n) in zip(fs,fs[1:]): rows.append((b-a,n))
print('span',fs[-1][0]-fs[0][0],'files',len(fs))
agg={}
for t,n in rows:
    n=n.replace('~',''); agg[n]=agg.get(n,0)+t
top=sorted(agg.items(),key=lambda x:-x[1])[:int(sys.argv[2]) if len(sys.argv)>2 else 45]
for n,t in top: print('%.2f'%t,n.replace('Rattle·type1_to_type2·',''))
kind={}
for n,t in agg.items():
    k=n.split('.')[-1]
    if n.startswith('Rattle·type1_to_type2·specs'): k='specs'
    elif k not in('Tie','Lts','Code','Mir','Proof','Reads','Statement','Kinds','Met','Symbol','Key','Laws'): k='module' if k[0].islower() or k[0]=='+' else 'lawfile:'
    kind[k]=kind.get(k,0)+t
print(sorted(kind.items(),key=lambda x:-x[1]))
