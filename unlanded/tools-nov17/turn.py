import subprocess,os,time,glob,sys
OLD,NEW=sys.argv[1],sys.argv[2]
sets={"urw-base35":glob.glob("/usr/share/fonts/type1/urw-base35/*.t1"),"tex-gyre":glob.glob("/usr/share/texmf/fonts/type1/public/tex-gyre/*.pfb"),"lm":glob.glob("/usr/share/texmf/fonts/type1/public/lm/*.pfb")}
def once(cmd,pipe):
    b=os.times(); t=time.time()
    if pipe: subprocess.run(cmd,stdout=subprocess.PIPE,stderr=subprocess.DEVNULL)
    else: subprocess.run(cmd,stdout=subprocess.DEVNULL,stderr=subprocess.DEVNULL)
    e=os.times()
    return e.children_user-b.children_user+e.children_system-b.children_system, time.time()-t
for name,fs in sets.items():
    fs=sorted(fs)
    for opts,pipe in (([],False),(["--table"],True),(["--table","--hex"],False),(["--table","--hex"],True)):
        best={}
        for _ in range(5):
            for who,p in (("old",OLD),("new",NEW)):
                c,w=once([p,*opts,*fs],pipe)
                a=best.get(who,(9,9)); best[who]=(min(a[0],c),min(a[1],w))
        print(name,len(fs)," ".join(opts) or "rows","pipe" if pipe else "null","old cpu %.2f wall %.2f"%best["old"],"new cpu %.2f wall %.2f"%best["new"],flush=True)
