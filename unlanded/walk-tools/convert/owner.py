"""Walks of functions that own an array of records in a local and lend it, or its front, to one callee. Adds to `many`: LocalArray, and M.call with it."""
from many import *
import many
class LocalArray(Ref):
    def __init__(s,name,row,elem,n,loc,ty,room,k=None,le=None):
        Ref.__init__(s,name,'sl',row,elem); s.n=n; s.loc=loc; s.ty=ty; s.room=room; s.k=k; s.le=le
src=open(many.__file__).read()
i=src.index("    def call(s,g,src"); j=src.index("    def result(s,val,fit)")
body=src[i:j]
body=body.replace('''                s.front("own"+n,"lft"+n); ν="ν%s%d"%(n,k); δ="δ%s%d"%(n,k)
''','''                ν="ν%s%d"%(n,k); δ="δ%s%d"%(n,k)
                if isinstance(m,LocalArray):
                    s.front("_%d"%m.loc,"own"+n)
                    if m.k is None:
                        s.open("lend-array ! tt %s %d tt %s %s refl %s (λ %s %s. "%(m.row,m.n,m.room,m.ty,v['ys'],ν,δ)); s.ctx=["p"+r.name,"lent"+n]+s.ctx[2:]
                        vs[r.name]=dict(v,κ="(%s ∷ [])"%ν,q="fullShare",γ=δ)
                    else:
                        s.open("lend-front ! tt %s %d %s %s tt %s %s refl %s (λ %s %s full. "%(m.row,m.n,m.k,m.le,m.room,m.ty,v['ys'],ν,δ)); s.ctx=["p"+r.name,"lent"+n,"behind"+n]+s.ctx[2:]
                        vs[r.name]=dict(v,κ="(%s ∷ [])"%ν,q="fullShare",γ=δ,m=m.k,ys="(take %s %s)"%(m.k,v['ys']))
                    continue
                s.front("own"+n,"lft"+n)
''')
body=body.replace('''            s.front("t"+p.name,"lent"+n,"s"+p.name); ν="ν%s%d"%(n,k); δ="δ%s%d"%(n,k)
''','''            m=byname[n]
            if isinstance(m,LocalArray):
                if m.k is None:
                    s.front("t"+p.name,"lent"+n,"s"+p.name); s.open("array-back ! tt %s %d %s refl %s (λ v%s i%s. "%(m.row,m.n,m.ty,z,n,n)); s.ctx=["_%d"%m.loc]+s.ctx[3:]
                else:
                    s.front("t"+p.name,"lent"+n,"s"+p.name,"behind"+n); s.open("front-back ! tt %s %d %s %s %s refl %s %s full (λ v%s i%s. "%(m.row,m.n,m.k,m.le,m.ty,v['ys'],z,n,n)); s.ctx=["_%d"%m.loc]+s.ctx[4:]
                s.cur[n]['ys']=z; continue
            s.front("t"+p.name,"lent"+n,"s"+p.name); ν="ν%s%d"%(n,k); δ="δ%s%d"%(n,k)
''')
ns=dict(globals()); exec("class X:\n"+body,ns)
M.call=ns['X'].call
