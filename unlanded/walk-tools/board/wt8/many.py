"""Walks of functions with any number of references: the texts that depend on the signature alone, and a call as one step."""
from walk import *
def nest(xs,last="tt"):
    t=last
    for x in reversed(xs): t="(%s, %s)"%(x,t)
    return t
def prod(xs,last="Unit {0}"):
    t=last
    for x in reversed(xs): t="(%s × %s)"%(x,t)
    return t
def stars(xs):
    t=xs[-1]
    for x in reversed(xs[:-1]): t="(%s ⊛ %s)"%(x,t)
    return t
def proj(base,i): return base+" .1"*i+" .0"
class Ref:
    def __init__(s,name,kind,row,elem,n=None):
        s.name=name; s.kind=kind; s.row=row; s.elem=elem; s.n=n; s.mut=kind not in('shr','sa')
        s.target="(Array %s %d)"%(row,n) if kind in('arr','sa') else row
    def rattle(s,j,κ): return {'sa':"ShrRef (named %d) %s %s"%(j,κ,s.target),'shr':"ShrSlice (named %d) %s %s"%(j,κ,s.row),'arr':"MutRef (named %d) %s %s"%(j,κ,s.target),'sl':"MutSlice (named %d) %s %s"%(j,κ,s.row)}[s.kind]
    def stay(s,j):
        if s.kind=='sa': return "stay-none-ref (%d ∷ []) tt (ArrayOf (plain (λ _. %s)) (λ _. tt) %d) yes"%(j,s.row,s.n)
        if s.kind=='shr': return "stay-none-slice (%d ∷ []) tt (plain (λ _. %s)) yes"%(j,s.row)
        if s.kind=='sl': return "stay-slice (%d ∷ []) tt (plain (λ _. %s))"%(j,s.row)
        return "stay-ref (%d ∷ []) tt (ArrayOf (plain (λ _. %s)) (λ _. tt) %d)"%(j,s.row,s.n)
    def goes(s,j,N):
        if s.kind=='sa': return "goes-none-ref 𝓤 H A W %d (%d ∷ []) tt (ArrayOf (plain (λ _. %s)) (λ _. tt) %d) yes"%(N,j,s.row,s.n)
        if s.kind=='shr': return "goes-none-slice 𝓤 H A W %d (%d ∷ []) tt (plain (λ _. %s)) yes"%(N,j,s.row)
        if s.kind=='sl': return "goes-slice 𝓤 H A W %d %d tt (plain (λ _. %s))"%(N,j,s.row)
        return "goes-ref 𝓤 H A W %d %d tt (ArrayOf (plain (λ _. %s)) (λ _. tt) %d)"%(N,j,s.row,s.n)
    def vals(s): return "ptr-vals" if s.kind in('arr','sa') else "slice-vals"
    def tells(s,j,κ):
        if s.kind=='sa': return "shr-tells (named %d) (%s) %s"%(j,κ,s.target)
        if s.kind=='shr': return "shr-slice-tells (named %d) (%s) %s"%(j,κ,s.row)
        if s.kind=='sl': return "mut-slice-tells (named %d) (%s) %s"%(j,κ,s.row)
        return "mut-tells (named %d) (%s) %s"%(j,κ,s.target)
    # v: a dict of texts, κ q and x, or b o γ ys and, of a slice, m
    def own(s,v):
        if s.kind=='sa': return "ShrRef (named 0) %s %s .own %s (%s ∷ [])"%(v['κ'],s.target,v['x'],s.val(v))
        if s.kind=='shr': return "ShrSlice (named 0) %s %s .own %s (%s ∷ [])"%(v['κ'],s.row,v['x'],s.val(v))
        if s.kind=='arr': return "OwnR %s %s %s %s %s %s"%(s.target,v['b'],v['o'],v['κ'],v['γ'],v['ys'])
        return "Own %s %s %s %s %s %s %s"%(s.row,v['m'],v['b'],v['o'],v['κ'],v['γ'],v['ys'])
    def val(s,v):
        if s.kind=='sa': return "vptr (%s .ptr .0) (%s .ptr .1)"%(v['x'],v['x'])
        if s.kind=='shr': return "sliceVal (%s .ptr) (length (%s .now))"%(v['x'],v['x'])
        if s.kind=='arr': return "vptr %s %s"%(v['b'],v['o'])
        return "sliceVal (%s, %s) %s"%(v['b'],v['o'],v['m'])
    def arg(s,v):
        if not s.mut: return v['x']
        if s.kind=='arr': return "at-one %s %s %s %s %s"%(s.target,v['b'],v['o'],v['γ'],v['ys'])
        return "at-list %s %s %s %s %s %s"%(s.row,v['m'],v['b'],v['o'],v['γ'],v['ys'])
    def denot(s): return "RefT (List %s)"%s.elem
    def last(s): return "List %s"%s.elem if s.mut else "Unit {0}"
    def says(s,v,z):
        if not s.mut: return "ftrue"
        if s.kind=='arr': return "(fres %s (%s .coded .code (%s)))"%(v['γ'],s.target,z)
        return "(fsep (finally %s %s (%s)) (feq ℕ (length (%s)) (length %s)))"%(s.row,v['γ'],z,z,v['ys'])
    def pack(s,v): return "(‵ (flft %s %s) ⊛ ‵ (%s))"%(v['κ'],v['q'],s.own(v))
    def bind(s,pre=""):
        n=s.name; ks="(κ%s : Lft) (q%s : Share)"%(n,n)
        if not s.mut: return ks+" (x%s : RefT (List %s))"%(n,s.elem)
        if s.kind=='arr': return ks+" (b%s o%s : ℕ) (γ%s : GName) (ys%s : List %s)"%(n,n,n,n,s.elem)
        return ks+" (%sb%s o%s : ℕ) (γ%s : GName) (ys%s : List %s)"%(pre and "m%s "%n,n,n,n,n,s.elem)
    def names(s,pre=""):
        n=s.name
        if not s.mut: return "κ%s q%s x%s"%(n,n,n)
        return "κ%s q%s %sb%s o%s γ%s ys%s"%(n,n,"m%s "%n if (pre and s.kind=='sl') else "",n,n,n,n)
    def std(s):
        n=s.name; return dict(κ='κ'+n,q='q'+n,x='x'+n,b='b'+n,o='o'+n,γ='γ'+n,ys='ys'+n,m='m'+n)
    def apply(s,v):
        if not s.mut: return "%s %s %s"%(v['κ'],v['q'],v['x'])
        return "%s %s %s%s %s %s %s"%(v['κ'],v['q'],v['m']+" " if s.kind=='sl' else "",v['b'],v['o'],v['γ'],v['ys'])
class Num:
    ty="ℕ"
    def __init__(s,name,row,w): s.name=name; s.row=row; s.w=w
    def mv(s,v): return "vint %s %s"%(s.w,v)
    def make(s,v,fit): return "owned ! %s (Is %s) (uint-makes 𝓤 H A W %s) %s _ (refl, %s) $ "%(s.row,s.row,s.w,v,fit)
    def fitT(s): return "%s < 2 ^ %s"%(s.name,s.w[1:])
    def passT(s): return "(tt, record { fits = %s-fits })"%s.name
    def valsT(s): return "uint-vals "+s.w
    def tellsT(s): return "uint-tells "+s.w
    def fitOf(s,are): return "(%s .1)"%are
    def own_fit(s): return s.name+"-fits"
class Non(Num):
    """the result ()"""
    ty="Unit {0}"
    def __init__(s): s.name="nought"; s.row="Nothing"; s.w=None
    def mv(s,v): return "vunit"
    def make(s,v,fit): return "feqI ! (List Val) (vunit ∷ []) (vunit ∷ []) refl $ "
class Boo(Num):
    """a truth value: nothing has to fit"""
    ty="Bool"
    def __init__(s,name): s.name=name; s.row="bool"; s.w=None
    def mv(s,v): return "vbool %s"%v
    def make(s,v,fit): return "owned ! bool (Is bool) (bool-makes 𝓤 H A W) %s _ refl $ "%v
    def fitT(s): return None
    def passT(s): return "(tt, tt)"
    def valsT(s): return "bool-vals"
    def tellsT(s): return "bool-tells"
class Rec(Num):
    """a struct by value: m is the letter of its module, as S, ty its record"""
    def __init__(s,name,m,ty): s.name=name; s.m=m; s.ty=ty; s.row=m+".the-row"; s.w=None
    def mv(s,v): return "mach%s %s"%(s.m,v)
    def make(s,v,fit): return "owned ! %s (Is %s) (LL.makes %s.the-type %s′.the-plain 𝓤 H A) %s _ %s $ "%(s.row,s.row,s.m,s.m,v,fit)
    def fitT(s): return "Is %s %s (mach%s %s ∷ [])"%(s.row,s.name,s.m,s.name)
    def passT(s): return "(typed%s 𝓤 H A W %s _ %s-fits)"%(s.m,s.name,s.name)
    def valsT(s): return "LL.vals %s.the-type %s′.the-laws"%(s.m,s.m)
    def tellsT(s): return "LL.tells %s.the-type %s′.the-laws"%(s.m,s.m)
    def fitOf(s,are): return "(%s)"%are
class Fn:
    def __init__(s,name,params,res,phi,req=None,member=None,result=None,phi2=None,reqs=None,crate="board"):
        s.result=result or Rec("result","G","Type2Glyph"); s.name=name; s.params=params; s.res=res; s.phi=phi; s.req=req; s.member=member
        s.refs=[p for p in params if isinstance(p,Ref)]; s.nums=[p for p in params if isinstance(p,Num)]
        s.sym=name.replace("_","-"); s.C="".join(x.capitalize() for x in name.split("_"))+"C"; s.crate=crate; s.key="#%s·%s"%(crate.replace("_","-"),s.sym); s.phi2=phi2; s.reqs=reqs; s.mod=("Rattle·board·proofs.proofs." if crate=="board" else "Rattle·%s.proofs."%crate)+name
    def ls(s): return "(Unit {0})" if not s.params else prod([p.last() if isinstance(p,Ref) else "Unit {0}" for p in s.params])
    def L(s,vs):
        t="ftrue"
        for i,p in reversed(list(enumerate(s.params))): t="(fsep %s %s)"%(p.says(vs[p.name],proj("lasts",i)) if isinstance(p,Ref) else "ftrue",t)
        return "(λ (lasts : %s). %s)"%(s.ls(),t)
    def toks(s,vs): return "(‵ ftrue)" if not s.refs else stars(["‵ (flft %s %s)"%(vs[r.name]['κ'],vs[r.name]['q']) for r in s.refs]+["‵ ftrue"])
    def side(s,vs): return stars([r.pack(vs[r.name]) for r in s.refs]) if s.refs else "(‵ ftrue)"
    def vals(s,vs): return [p.val(vs[p.name]) if isinstance(p,Ref) else p.mv(vs[p.name]['v']) for p in s.params]
    def valist(s,vs): return "("+"".join(x+" ∷ " for x in s.vals(vs))+"[])"
    def args(s,vs): return nest([p.arg(vs[p.name]) if isinstance(p,Ref) else vs[p.name]['v'] for p in s.params])
    def argT(s): return prod([p.denot() if isinstance(p,Ref) else p.ty for p in s.params])
    def ghost(s,vs): return "((%s, %s, tt, %s, %s), tt)"%(nest([vs[r.name]['κ'] for r in s.refs]),nest([vs[r.name]['q'] for r in s.refs]),s.args(vs),nest([x+" ∷ []" for x in s.vals(vs)]))
    def stdvs(s): return {p.name:(p.std() if isinstance(p,Ref) else dict(v=p.name,f=p.name+"-fits")) for p in s.params}
    def rows(s): 
        j=0; out=[]
        for p in s.params:
            if isinstance(p,Ref): out.append(p.rattle(j,'κ'+p.name)); j+=1
            else: out.append(p.row)
        return " ∷ ".join(out)+" ∷ []"
    def PHI2(s,vs): return "(λ (r : %s .Denot) (lasts : %s). %s)"%(s.res,s.ls(),s.phi2(vs,[proj("lasts",i) for i in range(len(s.params))]))
    def PHI(s,vs): return "(λ (r : %s .Denot) (lasts : %s). %s)"%(s.res,s.ls(),s.phi(vs,[proj("lasts",i) for i in range(len(s.params))]))
    def resT(s): return "%s (Is %s) (shows 𝓤 H A %s)"%(s.res,s.res,s.res)
    def got(s,vs): return "%s %s%s %s %s"%(s.ls(),s.PHI(vs),(" "+s.PHI2(vs)) if s.phi2 else "",s.L(vs),s.toks(vs))
    def as_lemma(s):
        vs=s.stdvs(); w=Walk(); w.ctx=["side"]; w.n=0
        if s.reqs: w.emit("says-three ! need₁ need₂ need₃ $ ")
        elif s.req: w.emit("says ! need $ ")
        names=[r.name for r in s.refs]
        for i,n in enumerate(names[:-1]): w.split("side","p"+n,"side")
        w.ctx=["p"+names[-1] if c=="side" else c for c in w.ctx] if names else ["junk"]
        for n in names: w.split("p"+n,"lft"+n,"own"+n)
        w.emit("nothing ! $ "); w.ctx=["acc"]+w.ctx
        for p in reversed(s.params):
            if isinstance(p,Ref): w.join("own"+p.name,"acc","acc","fjoin")
            else: w.emit(p.make(p.name,p.name+"-fits")); w.ctx=["pl"]+w.ctx; w.join("pl","acc","acc","fjoin")
        w.emit("nothing ! $ "); w.ctx=["T"]+w.ctx
        for n in reversed(names): w.join("lft"+n,"T","T")
        if (s.req or s.reqs) and not names: w.dropit("junk")
        w.front("T","acc")
        if not s.req and not s.reqs: w.emit("join ! $ ")
        w.emit("frame ! $ done !")
        bind=" ".join(r.bind("m") for r in s.refs)+" "+" ".join("(%s : %s)"%(p.name,p.ty) for p in s.nums)
        nm=" ".join(r.names("m") for r in s.refs)+" "+" ".join(p.name for p in s.nums)
        fits=" → ".join(p.fitT() for p in s.nums if p.fitT())
        known="Triple 𝓤 (C %s) (%s 𝓤 H A mem run′)"%(s.key,s.C)
        if s.member: known="(t : ℕ) → Below%s 𝓤 H A mem run′ C t"%s.name.capitalize()
        return '''
  pub %s-as : %s%s%s%s%s
      → ent 𝓤 (mean 𝓤 H A %s) (C %s %s (λ w. mean 𝓤 H A (%s 𝓤 %s %s w)))
  %s-as %s %s %s%s%s =
      let y : %s 𝓤 H A mem run′ .Ghost = %s in
      via 𝓤 (%s 𝓤 H A mem run′ .pre y) (qed W (%s ∷ []) ∵ %s) (known y%s)
'''%(s.sym,known,(" → "+bind) if bind.strip() else "",(" → "+fits) if fits else "","".join(" → "+q(vs) for q in s.reqs) if s.reqs else (" → "+s.req(vs)) if s.req else "",(" → %s < t"%(s.member.format("levels"))) if s.member else "",s.side(vs),s.key,s.valist(vs),"GotTwo" if s.phi2 else "GotAll",s.res,s.got(vs),
     s.sym,"t known" if s.member else "known",nm," ".join(p.name+"-fits" for p in s.nums if p.fitT())," need₁ need₂ need₃" if s.reqs else " need" if s.req else ""," lt" if s.member else "",s.C,s.ghost(vs),s.C,s.side(vs),w.text()," lt" if s.member else "")
class M(Walk):
    """the walk of a member: live locals, the current list of each reference"""
    def __init__(s,fn,n): 
        Walk.__init__(s); s.fn=fn; s.n=n; s.live=set(); s.cur={r.name:dict(r.std(),e="refl") for r in fn.refs}; s.k=0; s.extra={}; s.owner={}
    def copy(s):
        w=M(s.fn,s.n); w.ctx=list(s.ctx); w.live=set(s.live); w.cur={k:dict(v) for k,v in s.cur.items()}; w.k=s.k; w.extra=dict(s.extra); w.owner=dict(s.owner); return w
    def how(s,i):
        h="store" if i in s.live else "init"; s.live.add(i); return h
    def set(s,i,rv,typ): s.assign(i,rv,typ,s.how(i))
    def again(s,ref,src,tmp,sl=None):
        if ref.kind in('arr','sa'): s.set(tmp,"(addr ! (from ! (hop ! (look ! %d refl) (stop !))))"%s.p("_%d"%src),"(tt, tt)")
        else:
            s.live|={tmp,sl}; s.reborrow(src,tmp,sl,"fit%s .0"%ref.name)
    def canon(s): return [x for r in s.fn.refs for x in ("own"+r.name,"lft"+r.name)]+[x for i in reversed(range(s.n)) for x in ("_%d"%i,"d_%d"%i)]
    def begin(s,nnargs,typs,name):
        f=s.fn; vs=f.stdvs()
        s.ctx=["tok","owns"]
        s.emit("qed W (%s ∷ ‵ (owns (%s) a vals) ∷ []) ∵ enter ! C Λ code.%s args _ $\n        "%(f.toks(vs),f.rows(),name+"-function" if name else "function"))
        s.alloc(s.n); s.emit("\n        ")
        for i,p in enumerate(f.params):
            s.passes(i+1,p.passT() if isinstance(p,Num) else "(tt, tt)" if p.kind in('arr','sa') else "(tt, (tt, (record { fits = fit%s .0 }, tt)))"%p.name); s.live.add(i+1)
        s.emit("pass0 ! $ ")
        for p in f.params:
            s.split("owns","own"+p.name,"owns","fsplit")
            if isinstance(p,Num): s.dropit("own"+p.name)
        s.dropit("owns")
        for r in f.refs: s.split("tok","lft"+r.name,"tok")
        s.dropit("tok"); s.front(*[x for r in f.refs for x in ("own"+r.name,"lft"+r.name)])
    def twice(s,r):
        v=s.cur[r.name]; c="‵ (%s)"%r.own(v)
        s.front("own"+r.name); s.emit("use1 W (%s ⊛ %s) (%s 𝓤 H A W (named 0) %s %s .twice %s (%s ∷ [])) $ split ! $ "%(c,c,"shr-copy" if r.kind=='sa' else "shr-slice-copy",v['κ'],r.target,v['x'],r.val(v))); s.ctx=["own"+r.name,"own′"]+s.ctx[1:]
    def call(s,g,src,nums,opds,dest,lands,extra="",keep=None):
        """src: for each reference of g, the name of mine; nums: for each number of g, (value, that it fits); opds: the operands' texts, made once the context is known"""
        s.k+=1; k=s.k; vs={}; packs=[]; lent={}; mine={}
        byname=dict({r.name:r for r in s.fn.refs},**s.extra); own=lambda x: s.owner.get(x,x)
        s.emit("\n        -- `%s`\n        "%g.name)
        used=[own(src[r.name]) for r in g.refs]; halves={}
        for r in g.refs:
            n=src[r.name]; m=byname[n]; v=s.cur[n]; mine[r.name]=n
            if not m.mut:
                s.twice(m); q=v['q']; tok="lft"+own(n)
                if used.count(own(n))==2:
                    if own(n) not in halves:
                        s.front("lft"+own(n)); s.emit("use1 W (‵ (flft %s (PosShare·left %s)) ⊛ ‵ (flft %s (PosShare·right %s))) (W .lfts .lft-split %s %s) $ split ! $ "%(v['κ'],q,v['κ'],q,v['κ'],q)); s.ctx=["lftL","lftR"]+s.ctx[1:]
                        halves[own(n)]=1; tok="lftL"; q="(PosShare·left %s)"%q
                    else: tok="lftR"; q="(PosShare·right %s)"%q
                s.join(tok,"own′","p"+r.name); vs[r.name]=dict(v,q=q)
            else:
                s.front("own"+n,"lft"+n); ν="ν%s%d"%(n,k); δ="δ%s%d"%(n,k)
                if r.kind=='shr': s.open("lend-shared ! tt %s %s %s %s %s (%s) (λ %s %s. "%(m.row,v['m'],v['b'],v['o'],v['ys'],v['e'],ν,δ))
                elif r.kind=='sa': s.open("lend-shr ! tt %s %s %s %s (λ %s %s. "%(m.target,v['b'],v['o'],v['ys'],ν,δ))
                elif m.kind=='arr': s.open("lend-ref ! tt %s %s %s %s (λ %s %s. "%(m.target,v['b'],v['o'],v['ys'],ν,δ))
                else: s.open("lend ! tt %s %s %s %s %s (%s) (λ %s %s. "%(m.row,v['m'],v['b'],v['o'],v['ys'],v['e'],ν,δ))
                s.ctx=["p"+r.name,"lent"+n]+s.ctx[2:]
                vs[r.name]=dict(v,κ="(%s ∷ [])"%ν,q="fullShare",γ=δ)
                if r.kind=='shr': vs[r.name]['x']="(at-list %s %s %s %s %s %s)"%(m.row,v['m'],v['b'],v['o'],δ,v['ys'])
                if r.kind=='sa': vs[r.name]['x']="(at-one %s %s %s %s %s)"%(m.target,v['b'],v['o'],δ,v['ys'])
        rs=[r.name for r in g.refs]
        if not rs: s.emit("nothing ! $ "); s.ctx=["side"]+s.ctx
        acc="p"+rs[-1] if rs else "side"
        for n in reversed(rs[:-1]): s.join("p"+n,acc,"side"); acc="side"
        s.front(acc)
        for p,(val,fit) in zip(g.nums,nums): vs[p.name]=dict(v=val)
        lem="%s-as 𝓤 H A mem run′ W C %s %s %s %s %s"%(g.sym,("t below" if g.member else "known-"+g.sym)," ".join(r_.apply(vs[r_.name]) for r_ in g.refs)," ".join("(%s)"%x for x,_ in nums)," ".join("(%s)"%y for _,y in nums if y),extra)
        ops="(no-more !)"
        for o in reversed(opds): ops="(and-then ! %s %s)"%(o(s) if callable(o) else s.ld(o),ops)
        s.open(("asks-two" if g.phi2 else "asks-all")+" ! fm %s %s %s %s (%s) %s (λ w%d r%d zs%d e%d is%d. "%(g.resT(),g.got(vs),g.side(vs),g.valist(vs),lem,ops,k,k,k,k,k))
        s.ctx=["res","toks","L"]+s.ctx[1:]
        s.emit("land ! (from ! (stop !)) (%s ! %d refl %s) $ "%(s.how(dest),s.p("_%d"%dest),lands(k)[0]))
        lands(k)[1](s)
        if keep: s.ctx[s.p("res")]="own"+keep
        else: s.dropit("res")
        for r in g.refs: s.split("toks","t"+r.name,"toks")
        s.dropit("toks")
        for i,p in enumerate(g.params):
            s.split("L","s"+p.name,"L","fsplit")
            if isinstance(p,Num) or not p.mut: s.dropit("s"+p.name); continue
            if p.kind=='sl':
                s.split("s"+p.name,"s"+p.name,"len","fsplit"); s.front("len"); s.open("feqL ! (λ l%s%d. "%(mine[p.name],k)); s.ctx=s.ctx[1:]
        s.dropit("L"); s.emit("\n        ")
        for i,p in enumerate(g.params):
            if isinstance(p,Num): continue
            n=mine[p.name]; v=s.cur[n]; z="(%s)"%proj("zs%d"%k,i)
            if not p.mut and byname[n].kind=='sl':
                s.front("t"+p.name,"lent"+n); s.open("returned-shared ! tt %s %s %s %s %s %s (%s) fit%s ("%(p.row,v['m'],v['b'],v['o'],"ν%s%d"%(n,k),v['ys'],v['e'],n)); s.ctx=["own"+n,"lft"+n]+s.ctx[2:]; continue
            if not p.mut and byname[n].mut:
                s.front("t"+p.name,"lent"+n); s.open("returned-shr ! tt %s %s %s %s %s ("%(p.target,v['b'],v['o'],"ν%s%d"%(n,k),v['ys'])); s.ctx=["own"+n,"lft"+n]+s.ctx[2:]; continue
            if not p.mut:
                n=own(n)
                if n in halves:
                    if halves[n]==1: halves[n]=p.name
                    else:
                        s.front("t"+halves[n],"t"+p.name); s.emit("use2 W (‵ (flft %s %s)) (W .lfts .lft-join %s %s) $ "%(v['κ'],v['q'],v['κ'],v['q'])); s.ctx=["lft"+n]+s.ctx[2:]
                else: s.ctx[s.p("t"+p.name)]="lft"+n
                continue
            s.front("t"+p.name,"lent"+n,"s"+p.name); ν="ν%s%d"%(n,k); δ="δ%s%d"%(n,k)
            if p.kind=='arr': s.open("returned-ref ! tt %s %s %s %s %s %s %s ("%(p.target,v['b'],v['o'],ν,δ,v['ys'],z))
            else: s.open("returned ! tt %s %s %s %s %s %s %s %s (%s) l%s%d fit%s ("%(p.row,v['m'],v['b'],v['o'],ν,δ,v['ys'],z,v['e'],n,k,n)); s.cur[n]['e']="l%s%d ∙ %s"%(n,k,v['e']) if v['e']!="refl" else "l%s%d"%(n,k)
            s.cur[n]['ys']=z; s.ctx=["own"+n,"lft"+n]+s.ctx[3:]
    def result(s,val,fit): s.emit(s.fn.result.make(val,fit)); s.ctx=["res"]+s.ctx
    def leave(s,val,fit,phi,within="Post"):
        s.result(val,fit); i0=len(s.out)
        cs=[s.cur[r.name] for r in s.fn.refs if r.mut]; es=[s.cur[r.name]['e'] for r in s.fn.refs if r.kind=='sl']
        s.finish(s.live,"exits %s (%s) %s (%s) %s"%(val,s.fn.result.mv(val)," ".join(c['ys'] for c in cs),phi," ".join("(%s)"%e for e in es)),["res"]+[x for r in s.fn.refs for x in ("own"+r.name,"lft"+r.name)])
        if within: s.out[i0]=s.out[i0].replace("returns !","returns-within ! (%s) refl"%within)

