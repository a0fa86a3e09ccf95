"""drops unused names and modules from the `use` lines of antt files"""
import re,sys
def prune(f):
    lines=open(f).read().split('\n')
    body='\n'.join(re.sub(r'--.*$','',l) if re.match(r'\s*--',l) else l for l in lines if not l.startswith('use '))
    toks=set()
    for x in re.split(r'[\s(){},;]+',body):
        x=x.rstrip('.'); toks.add(x); toks.add(x.split('.')[0]); 
        if x.startswith('λ'): toks.add(x[1:])
    def used(n): return n in toks or ('_' in n and not re.match(r'^\w+$',n) and all(p in toks for p in n.split('_') if p))
    out=[]
    for l in lines:
        g=re.match(r'use (\S+?)\.\{(.*)\}$',l); h=re.match(r'use (\S+) as (\S+)$',l)
        if g:
            keep=[n for n in (x.strip() for x in g.group(2).split(',')) if used(n.split(' as ')[-1])]
            if keep: out.append('use %s.{%s}'%(g.group(1),', '.join(keep)))
        elif h:
            if h.group(2) in toks: out.append(l)
        else: out.append(l)
    open(f,'w').write('\n'.join(out))
if __name__=="__main__":
    for f in sys.argv[1:]: prune(f)
