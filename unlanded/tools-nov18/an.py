import re
def rows(f):
    out=[]
    for l in open(f):
        m=re.match(r'\| (\S+ \(\d+ fonts\), [^|]*) \|(.*)\|$',l)
        if m:
            c=[x.strip() for x in m.group(2).split('|')]
            out.append((m.group(1),c))
    return out
import sys
for b in ('base','gate'):
    for part in (0,1):
        rs=[]; ns=[]; allr=[]
        for i in (1,2,3,4,5):
            try: r=rows('$WORK/h/ff.%s.%d'%(b,i))
            except: continue
            r=r[9*part:9*part+9]
            if len(r)<9: continue
            v=[float(x[1][5])/float(x[1][4]) for x in r]   # ours/rust ns per glyph
            allr+=v; ns.append(sum(float(x[1][5]) for x in r)); 
        if allr: print(b,['convert','finish'][part],'min %.3f max %.3f mean %.4f'%(min(allr),max(allr),sum(allr)/len(allr)),'sum ns',[round(x) for x in ns], len(allr))
