"""A symbolic context for writing walks: it keeps the list of items by name, and prints each step with the right positions."""
SUB="₀₁₂₃₄₅₆₇₈₉"
def sub(n): return "".join(SUB[int(c)] for c in str(n))
def lst(xs): return "("+" ∷ ".join(str(x) for x in xs)+" ∷ [])"
class Walk:
    def __init__(s): s.ctx=[]; s.out=[]; s.paren=0
    def copy(s):
        w=Walk(); w.ctx=list(s.ctx); return w
    def p(s,x): return s.ctx.index(x)
    def emit(s,t): s.out.append(t)
    def note(s): s.emit("\n        -- ["+"; ".join(c for c in s.ctx if not c.startswith("d_"))+"]\n        ")
    def open(s,t): s.emit(t); s.paren+=1
    def alloc(s,n):
        s.n=n
        for i in range(n): s.open("alloc1 ! (λ l%s. "%sub(i)); s.ctx=["_%d"%i,"d_%d"%i]+s.ctx
        s.emit("alloc0 ! $ params1 ! $ ")
    def passes(s,i,typ): s.emit("pass1 ! (init ! %d refl %s) $ "%(s.p("_%d"%i),typ))
    def move(s,*ls):
        s.emit("move ! %s $ "%lst(s.p(l) for l in ls)); s.ctx=list(ls)+[c for c in s.ctx if c not in ls]
    def front(s,*ls):
        if s.ctx[:len(ls)]!=list(ls): s.move(*ls)
    def dropit(s,*ls):
        for l in ls: s.front(l); s.emit("drop ! $ "); s.ctx=s.ctx[1:]
    def split(s,x,a,b,op="split"):
        s.front(x); s.emit("%s ! $ "%op); s.ctx=[a,b]+s.ctx[1:]
    def join(s,a,b,x,op="join"):
        s.front(a,b); s.emit("%s ! $ "%op); s.ctx=[x]+s.ctx[2:]
    def ld(s,i,k=0): return "(load ! (from ! (stop !)) (look ! %d refl))"%(s.p("_%d"%i)+k)
    def fldp(s,i,j): return "(load ! (from ! (fld ! refl (stop !))) (look-in ! %d (sub ! %d refl (whole !))))"%(s.p("_%d"%i),j)
    def assign(s,i,rv,typ,how="init",last=False):
        s.emit("\n        assigns%s ! %s (from ! (stop !)) (%s ! %d refl %s) $ "%("-last" if last else "",rv,how,s.p("_%d"%i),typ))
    def opd(s,o): return "(of-opd ! %s)"%o
    def reborrow(s,src,r,sl,fits):
        s.assign(r,"(addr ! (from ! (fld ! refl (hop ! (look-in ! %d (sub ! 0 refl (whole !))) (stop !)))))"%s.p("_%d"%src),"(tt, tt)")
        s.assign(sl,"(agg ! (and-then ! %s (and-then ! %s (no-more !))))"%(s.ld(r),s.fldp(src,1)),"(tt, (tt, (record { fits = %s }, tt)))"%fits)
    def opds(s,ls,k=0):
        t="(no-more !)"
        for i in reversed(ls): t="(and-then ! %s %s)"%(s.ld(i,k),t)
        return t
    def rewrite(s,i,ty,var,f,eq):
        s.emit("rewrite ! %d (λ (%s). ‵ (fat fullShare %s l%s 0 %s)) (%s) refl $ "%(s.p("_%d"%i),var,ty,sub(i),f,eq))
    def finish(s,live,ex,keep):
        s.emit("\n        returns ! (look ! %d refl) $ "%s.p("_0"))
        order=list(keep)+[x for i in reversed(range(s.n)) for x in ("_%d"%i,"d_%d"%i)]
        rest=[c for c in s.ctx if c not in order]
        if s.ctx!=order:
            if rest: s.emit("keep ! %s $ "%lst(s.p(l) for l in order)); s.ctx=list(order)
            else: s.move(*order)
        s.emit("leave ! %s %s $ keep ! %s $ by ! (%s)"%(lst("_" for l in keep),lst("filled _ _ _" if i in live else "bare _ _" for i in range(s.n)),lst(range(len(keep))),ex))
    def text(s): return "".join(s.out)+")"*s.paren
