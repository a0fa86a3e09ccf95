import os,re,collections,sys,glob
for d in sys.argv[1:]:
    p=glob.glob(d+'/antt*')[0]
    fs=sorted((os.stat(p+'/'+f).st_mtime_ns,f) for f in os.listdir(p))
    prev=fs[0][0]; k=collections.Counter(); per={}
    for t,f in fs:
        n=f.replace('.oantt','').split('.')[-1]; k[n]+=(t-prev)/1e9
        if n in('Lts','Proof'): per[f.replace('.oantt','').split('.')[-2]+'.'+n]=round((t-prev)/1e9,2)
        prev=t
    print(d.split('/')[-1], round(sum(k.values()),1), [(a,round(b,2)) for a,b in k.most_common(6)]); print(sorted(per.items(),key=lambda x:-x[1])[:6])
