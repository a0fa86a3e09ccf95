import sys; sys.path.insert(0,'$WORK/wt1')
from mk_leaves import *
import mk_leaves as ML
from prune import prune
D='$WORK/b/crates/type1/proofs/'
fill=Fn("fill",[stems,Rec("v","T","Stem")],"Nothing",lambda vs,zs:"%s ≡ replicate (length %s) %s"%(zs[0],vs['stems']['ys'],vs['v']['v']),result=Non())
# Callees: add fill
p=D+'Callees.antt'; t=open(p).read()
if 'fill-as' not in t:
    i=t.index("use %sblank as blank-f"%P); t=t[:i]+"use %sfill as fill-f\nuse %sfill.Symbol.{name as #type1·fill}\n"%(P,P)+t[i:]
    i=t.index("  abbrev pub BlankC"); t=t[:i]+contract(fill)+t[i:]
    t=t.rstrip("\n")+"\n"+fill.as_lemma()
    open(p,'w').write(t)
def forgets(w,live,N):
    for i in range(N):
        if i in w.live and i not in live: w.emit("forget ! %d refl $ "%w.p("_%d"%i))
def leaf(f,knowns,text,extra,imports,what,more=""):
    os.makedirs(D+f.name,exist_ok=True)
    return "-- `type1::%s` meets its contract: a walk of its MIR, by hand. %s\n-- Assumes nothing.\n"%(f.name,what)+IMP+"use %sSmall.{zeroStem}\n"%SP+more+use_syms(knowns)+'''use %(P)s%(n)s.Key.{name as #type1·%(s)s}
use %(P)s%(n)s as f
use %(P)s%(n)s.Statement as stated
use %(P)s%(n)s.Code as code
use %(P)s%(n)s.Code.Mir as text
use %(P)sCallees.{%(cs)s}
'''%dict(P=P,n=f.name,s=f.sym,cs=", ".join([g.C for g in knowns]+[g.sym+"-as" for g in knowns]))+("use %sStored.{%s}\n"%(P,imports) if imports else "")+TYPES+typed("T")+frame(f)+"  module _ %s%s where\n"%(known_binders(knowns),extra)+text+closing(f,knowns)
LOC=["tyUnit","sliceTy (tS (named 0))","tTt","word","word","tyBool","tyUnit","tS erased","sliceTy (tS erased)"]
HELD="(i < 2 ^ 64) × ((i ≤ %s) × ((length zs ≡ mstems) × (zs ≡ paste ysstems %s %s i)))"
WS="(replicate mstems v)"
def turn(w,ls,EN,live,N):
    w.set(4,"(of-opd ! %s)"%w.fldp(1,1),"(tt, record { fits = fitstems .0 })")
    w.set(5,"(bin ! %s %s tt)"%(w.ld(3),w.ld(4)),"(tt, tt)")
    w.rewrite(5,"tyBool","t : Bool","(vbool t)","so-is (ltb i mstems) (lt→ltb i mstems small)")
    w.emit("stays ! %s $ "%w.ld(5))
    w.again(stems,1,7,8)
    w.call(put,{'stems':'stems'},[("i","held .0"),("v","v-fits")],[8,3,2],6,lands_unit(6),"(subst (λ (k : ℕ). i < k) (sym (held .1 .1 .0)) small)")
    NF="(next-fits i mstems small (fitstems .0))"
    w.emit("\n        assigns-last ! (bin ! %s (lit ! tt) (record { fits = %s })) (from ! (stop !)) (store ! %d refl (tt, record { fits = %s })) $ "%(w.ld(3),NF,w.p("_3"),NF))
    forgets(w,live,N); u=w.cur['stems']
    w.emit("keep ! %s $ by ! (go (i + 1) %s (grows i) (%s, (omega (arith, small), (%s, stored-one ysstems zeroStem 0 %s i i zs %s v (omega (arith, small)) (subst (λ (k : ℕ). i < k) (sym (length-replicate mstems v)) small) (omega arith) (held .1 .1 .1) (sym (getD-replicate mstems i v zeroStem small)) e1))))"%(lst(w.p(x) for x in w.canon()),u['ys'],NF,u['e'],WS,u['ys']))
    return w.text()
def ends(e,ls,EN,live,N):
    e.set(4,"(of-opd ! %s)"%e.fldp(1,1),"(tt, record { fits = fitstems .0 })")
    e.set(5,"(bin ! %s %s tt)"%(e.ld(3),e.ld(4)),"(tt, tt)")
    e.rewrite(5,"tyBool","t : Bool","(vbool t)","over")
    e.emit("leaves-loop ! %s $ exec ! C Λ %s text.t-3 (atRet %s Post) $ "%(e.ld(5),EN,EN))
    e.set(0,"(of-opd ! (unit-lit !))","(tt, tt)")
    e.leave("tt","tt","all-stored ysstems 0 %s i mstems zs over (held .1 .0) (held .1 .1 .1) ∙ paste-all ysstems %s mstems refl (length-replicate mstems v)"%(WS,WS),within=None)
    return e.text()
vs=fill.stdvs(); vv=fill.vals(vs); live={1:vv[0],2:vv[1],3:"vint w64 i"}
begin_=lambda b: b.set(3,"(of-opd ! (lit ! tt))","(tt, record { fits = lit< tt })")
text=looped(fill,LOC,[("i","ℕ"),("zs","List Stem")],live,{'stems':'zs'},{'stems':'held .1 .1 .0'},"mstems",HELD%("mstems","0",WS),lambda ls,EN: loops_text(ls,EN,"mstems","0 ysstems","(lit< tt, (omega arith, (refl, paste-zero ysstems 0 %s)))"%WS),begin_,turn,ends,None,None,None,"t-3")
M1="use lib.ListN.{getD-replicate, length-replicate}\nuse lib.Seq.{paste-zero}\n"
open(D+'Xfill','w').close(); os.remove(D+'Xfill')
t=leaf(fill,(put,),text,"","stored-one, all-stored, paste-all, next-fits, grows","Each turn of its loop lends the records to `put` and has them back.",M1)
os.makedirs(D+'fill',exist_ok=True); open(D+'fill/Proof.antt','w').write(t); prune(D+'fill/Proof.antt')
# wipe: blank, then fill
w=M(wipe,6); w.begin(None,None,None)
w.again(stems,1,3,4)
w.call(blank,{},[],[],5,lands(5,"T","tTt"))
w.call(fill,{'stems':'stems'},[("r1","mineT r1 w1 is1")],[4,5],2,lands_unit(2))
w.set(0,"(of-opd ! (unit-lit !))","(tt, tt)")
w.leave("tt","tt","e2 ∙ ap (replicate mstems) e1",within=None)
wt="""    pub walk : ent 𝓤 (onEntry 𝓤 H A f.signature (κstems, tt) (qstems, tt) a vals) (WpFn 𝓤 H C Λ code.function args Post)
    walk =
        %s
"""%w.text()
open(D+'wipe/Proof.antt','w').write(leaf(wipe,(blank,fill),wt,"","","It lends the records to `fill`.")); prune(D+'wipe/Proof.antt')
