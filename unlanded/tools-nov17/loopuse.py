import re,sys
# rewrite a walk with one loop so that it cites Looping.loops
f,prefix=sys.argv[1],sys.argv[2]   # prefix: module path of Looping
s=open(f).read(); L=s.split('\n')
def find(pat,start=0):
    for i in range(start,len(L)):
        if re.match(pat,L[i]): return i
    return -1
# locals
i=find(r'\s+-- at most u turns are left'); 
facts=find(r'\s+abbrev Facts :',i)
m=find(r'\s+module _ \(l₀',0); ind=re.match(r'\s*',L[m]).group(0)
LL=re.search(r'\((l₀[^:]*) : ℕ\)',L[m]).group(1)
left=find(r'\s+abbrev Left :',m); enters=find(r'\s+enters :',left)
bound=re.search(r'Facts u .* = \((.*?) ≤ i \+ u\) ×',L[facts+1]).group(1)
# state fields of Held
heldty=L[find(r'\s+abbrev Held :')]
held=L[find(r'\s+abbrev Held :')+1]
args=re.match(r'\s+Held (.*?) =',held).group(1).split()
tys=re.search(r'Held : (.*) → Type 0',heldty).group(1)
parts=[]; d=0; cur=''
for ch in tys:
    if ch=='(':d+=1
    if ch==')':d-=1
    if ch=='→' and d==0: parts.append(cur.strip()); cur=''; continue
    cur+=ch
parts.append(cur.strip())
parts=[p[1:-1] if p.startswith('(') and p.endswith(')') else p for p in parts]
assert len(parts)==len(args),(parts,args)
def prod(ps): return ps[0] if len(ps)==1 else '%s × %s'%(ps[0] if ' ' not in ps[0] else '(%s)'%ps[0], '(%s)'%prod(ps[1:]) if len(ps)>2 or ' ' in ps[1] else ps[1])
S=prod(parts)
def proj(k,n): return 'x'+' .1'*k+(' .0' if k<n-1 else '')
P=' '.join('(%s)'%proj(k,len(args)) for k in range(len(args)))
def tup(a): return a[0] if len(a)==1 else '(%s, %s)'%(a[0],tup(a[1:]))
# end part
r=find(r'\s+in-range :'); 
lo=find(r'\s+loops :'); 
# loops statement and body
loty=L[lo]; j=lo+1
k=j
while L[k].strip(): k+=1
body=' '.join(x.strip() for x in L[j:k])
lhs=body[:body.index(' = ')]



# enters LL bound s1 s2.. (facts): split initial state args
rest=body[body.index('(enters '+LL)+len('(enters '+LL):]
def take(t):
    t=t.lstrip()
    if t[0]=='(':
        d=0
        for q,ch in enumerate(t):
            if ch=='(':d+=1
            if ch==')':
                d-=1
                if d==0: return t[:q+1],t[q+1:]
    q=re.match(r'[^\s()]+',t).group(0); return q,t[len(q):]
b0,rest=take(rest); init=[]
for _ in args:
    a,rest=take(rest); init.append(a)
fct,rest=take(rest)
# fct = (omega arith, HELD): drop first comp
h=re.match(r'\((omega [^,]*?|omega \(.*?\)), (.*)\)$',fct)
print('bound',bound,b0,'init',init,'fact',fct[:80])
inner=h.group(2)
prim=[a+'′' for a in args]
new=['%smodule _ (%s : ℕ) where'%(ind,LL)]
pre=lhs.split()[1:]
loty=loty.rstrip()
lp=['%s  %s'%(ind,loty.strip()),
'%s  %s ='%(ind,lhs.strip()),
'%s      loop-walk 𝓤 H A W 𝓣 (En %s) text.turn-1 (Left %s) (%s) (λ x. x .0) %s (λ x. Held %s) (λ x. At %s %s)'%(ind,LL,LL,S,b0,P,P,LL),
'%s      (λ X x small held go. more X %s small held %s (λ %s. go %s)) (λ X x over held. ends X %s over held %s)'%(ind,P,LL,' '.join(prim),tup(prim),P,LL),
'%s      %s %s'%(ind,tup(init),inner)]
# keep module with Left only
keepmod=[L[m]]+L[left:enters]
while keepmod and not keepmod[-1].strip(): keepmod.pop()
out=L[:m]+keepmod+['']+[x for x in L[enters:r] ]
# drop the enters block
e=len(L[:m])+len(keepmod)+1
q=e
while out[q].strip(): q+=1
out=out[:e]+out[q+1:]
out+=new+lp+L[k:]
t='\n'.join(out)
t=t.replace('use sound.Loop.{loop-rule}\n','')
t=t.replace('use lib.WfN.{Nat·lt-wfRel}\n','')
t=re.sub(r'(use [^\n]*proofs\.Many\.\{)',lambda m: 'use %s.Looping.{loop-walk}\n'%prefix+m.group(1),t,1)
open(f,'w').write(t)
